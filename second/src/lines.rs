//! Splitting a stream into lines in constant memory.

/// A line longer than this is skipped to its LF.
pub const LONGEST_LINE: usize = 260;

/// Keeps the piece of a line that has not ended yet.
#[derive(Debug)]
pub struct Lines {
    held: [u8; LONGEST_LINE],
    /// Bytes seen of the unfinished line; above 260 it is too long and no longer kept.
    seen: usize,
}

impl Lines {
    /// At the start of a stream.
    pub const fn new() -> Self {
        Lines {
            held: [0; LONGEST_LINE],
            seen: 0,
        }
    }

    /// Takes the next piece of the stream and hands on each line that ends in it, none for one too long.
    pub fn feed(&mut self, mut piece: &[u8], mut each: impl FnMut(Option<&[u8]>)) {
        while let Some(length) = line_feed(piece) {
            let (line, rest) = (&piece[..length], &piece[length + 1..]);
            if self.seen == 0 {
                each((length <= LONGEST_LINE).then_some(line));
            } else {
                self.keep(line);
                each(self.take());
            }
            piece = rest;
        }
        self.keep(piece);
    }

    /// Hands on a last line without LF, if it has at least one byte.
    pub fn finish(&mut self, mut each: impl FnMut(Option<&[u8]>)) {
        if self.seen > 0 {
            each(self.take());
        }
    }

    fn keep(&mut self, piece: &[u8]) {
        let seen = self.seen.saturating_add(piece.len());
        if seen <= LONGEST_LINE {
            self.held[self.seen..seen].copy_from_slice(piece);
        }
        self.seen = seen;
    }

    fn take(&mut self) -> Option<&[u8]> {
        let seen = std::mem::take(&mut self.seen);
        self.held.get(..seen)
    }
}

/// Where the first LF is, looked for in eight bytes at a time.
fn line_feed(piece: &[u8]) -> Option<usize> {
    const ONES: u64 = u64::from_ne_bytes([1; 8]);
    const TOPS: u64 = ONES << 7;
    let mut place = 0;
    while let Some(eight) = piece[place..].first_chunk() {
        // A byte that was LF is 0, and the lowest one of these is where a borrow sets a top bit first.
        let others = u64::from_le_bytes(*eight) ^ (ONES * u64::from(b'\n'));
        let found = others.wrapping_sub(ONES) & !others & TOPS;
        if found != 0 {
            return Some(place + found.trailing_zeros() as usize / 8);
        }
        place += 8;
    }
    let rest = piece[place..].iter().position(|&byte| byte == b'\n')?;
    Some(place + rest)
}

impl Default for Lines {
    fn default() -> Self {
        Lines::new()
    }
}
