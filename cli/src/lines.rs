//! The lines of a script that is read in pieces.

use gulxinett::LINE_BYTES;

/// What ends a line.
pub const LF: u8 = b'\n';

/// A line that has begun. Of a long one only so much is kept as shows that it is too long.
#[derive(Debug, Default)]
pub struct Lines {
    begun: Vec<u8>,
}

impl Lines {
    /// Hands on each line that ends in a piece, without its LF.
    pub fn feed(&mut self, piece: &[u8], mut line: impl FnMut(&[u8])) {
        for part in piece.split_inclusive(|&byte| byte == LF) {
            match part.strip_suffix(&[LF]) {
                Some(whole) if self.begun.is_empty() => line(whole),
                Some(end) => {
                    self.keep(end);
                    line(&self.begun);
                    self.begun.clear();
                }
                None => self.keep(part),
            }
        }
    }

    /// Hands on a last line without LF, if it has a byte.
    pub fn finish(self, mut line: impl FnMut(&[u8])) {
        if !self.begun.is_empty() {
            line(&self.begun);
        }
    }

    fn keep(&mut self, part: &[u8]) {
        // one byte more than a line can have without its LF
        let room = LINE_BYTES - self.begun.len();
        self.begun.extend_from_slice(&part[..part.len().min(room)]);
    }
}

#[cfg(test)]
mod tests {
    use super::*;

    /// The lines of a text that is fed in pieces of a length.
    fn lines(text: &[u8], length: usize) -> Vec<Vec<u8>> {
        let (mut lines, mut all) = (Lines::default(), Vec::new());
        let mut keep = |line: &[u8]| all.push(line.to_vec());
        for piece in text.chunks(length) {
            lines.feed(piece, &mut keep);
        }
        lines.finish(&mut keep);
        all
    }

    #[test]
    fn in_pieces() {
        let text = b"00\n\n01A000\n\nxx";
        let due: [&[u8]; 5] = [b"00", b"", b"01A000", b"", b"xx"];
        for length in 1..=text.len() {
            assert_eq!(lines(text, length), due, "{length}");
        }
        assert!(lines(b"", 1).is_empty());
        assert_eq!(lines(b"\n", 1), [b""]);
    }

    #[test]
    fn long_lines_are_kept_as_far_as_shows_their_length() {
        for length in [259, 260, 261, 262, 5000] {
            let text = [vec![b'0'; length], b"\n00".to_vec()].concat();
            for piece in [1, 100, 260, 261, 262] {
                let all = lines(&text, piece);
                assert_eq!(all.len(), 2);
                assert_eq!(all[0].len() > 260, length > 260);
                assert!(all[0].len() == length || length > 260);
                assert_eq!(all[1], b"00");
            }
        }
    }
}
