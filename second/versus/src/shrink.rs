//! Makes a failing list short by leaving out what it does not need.

/// Drops pieces, large ones first, while the list still fails.
pub fn shrink<T: Clone>(mut list: Vec<T>, mut fails: impl FnMut(&[T]) -> bool) -> Vec<T> {
    let mut piece = list.len().div_ceil(2).max(1);
    loop {
        let mut start = 0;
        let mut dropped = false;
        while start < list.len() {
            let end = (start + piece).min(list.len());
            let without = [&list[..start], &list[end..]].concat();
            if fails(&without) {
                list = without;
                dropped = true;
            } else {
                start = end;
            }
        }
        if piece == 1 && !dropped {
            return list;
        }
        piece = piece.div_ceil(2);
    }
}
