//! Scripts with broken lines and copies on their end, salvaged.

use crate::call::Call;
use crate::files::script::{self, row, SHORT, SPOILED};
use crate::random::Random;
use crate::sides::Side;
use crate::sweep::Tally;
use second::{Salvaged, LONGEST_SCRIPT};

/// Random scripts compared.
const RANDOM: usize = 15_000;
/// Largest scripts compared, of each kind.
const LARGEST: usize = 10;
/// Lines that are malformed, but for those with a row.
const MALFORMED: [&[u8]; 18] = [
    b"",
    b"0",
    b"000",
    b"00\r",
    b" 00",
    b"0000",
    b"01A00",
    b"01A0000",
    b"01a000",
    b"01A00G",
    b"02A000",
    b"02A0000A0",
    b"030000000",
    b"03000000001",
    b"05",
    b"FF",
    b"10",
    b"\x00\xFF",
];

/// What is compared, and how many scripts were not refused, and how many of these were halved.
struct Salvages<'a> {
    tally: &'a mut Tally,
    side: Side,
    salvaged: u64,
    halved: u64,
}

/// Compares scripts doubled and more, cut, broken and of the most bytes, in rooms that suffice and that don't;
/// how many were not refused, and how many of these had lines dropped as repeated.
pub fn compare(tally: &mut Tally, random: &mut Random) -> [u64; 2] {
    let mut side = Side::of_noise(0, 0, 13);
    (side.store, side.image) = (Vec::new(), Vec::new());
    let mut salvages = Salvages {
        tally,
        side,
        salvaged: 0,
        halved: 0,
    };
    salvages.refusals(random);
    salvages.resets();
    salvages.changed(random);
    salvages.malformed(random);
    salvages.turned(random);
    salvages.largest(random);
    for _ in 0..RANDOM {
        let script = script::random(random);
        if random.once_in(4) {
            salvages.in_every_room(script);
        } else {
            salvages.fits(script);
        }
    }
    [salvages.salvaged, salvages.halved]
}

impl Salvages<'_> {
    /// Salvages the file on both sides in such room, which must be refused so.
    fn in_room(&mut self, room: usize, report: usize, due: Option<u64>) {
        self.salvaged += u64::from(due.is_none());
        let call = Call::Salvage { room, report };
        self.tally.compare(&self.side, &call, due);
    }

    /// Salvages a script in the room that it needs, or where it is too long in any; gives that room.
    fn fits(&mut self, script: Vec<u8>) -> Salvaged {
        let (needs, halved) = needs(&script);
        let due = due(&script, false);
        self.side.file = script;
        self.halved += u64::from(halved);
        self.in_room(needs.length, needs.lines, due);
        needs
    }

    /// Salvages a script in the room that it needs, in a byte less and in more.
    fn in_every_room(&mut self, script: Vec<u8>) {
        let Salvaged { length, lines } = self.fits(script);
        for room in [length.saturating_sub(1), length, length + 1, 0] {
            for report in [lines.saturating_sub(1), lines, lines + 1, 0] {
                let short = room < length || report < lines;
                let due = due(&self.side.file, short);
                self.in_room(room, report, due);
            }
        }
    }

    /// Scripts of lengths at the edge and far off, in every room: 12 comes before 7.
    fn refusals(&mut self, random: &mut Random) {
        let most = LONGEST_SCRIPT;
        let accepted = of_length(random, 2 * most);
        for length in [0, 1, 2, 3, most - 1, most, most + 1, most + 2, 2 * most] {
            self.in_every_room(vec![b'\n'; length]);
            self.in_every_room(vec![b'0'; length]);
            self.in_every_room(b"00\n".repeat(length)[..length].to_vec());
            self.in_every_room(accepted[..length].to_vec());
        }
        self.in_every_room(vec![b'\n'; 1_000_000]);
    }

    /// So many lines of reset, which is halved as often as their number: 13 times at most.
    fn resets(&mut self) {
        let most = LONGEST_SCRIPT / 3;
        let powers = (8..14).flat_map(|power| [(1 << power) - 1, 1 << power, (1 << power) + 1]);
        for count in (1..=200).chain(powers).chain([most - 2, most - 1, most]) {
            let mut script = b"00\n".repeat(count);
            self.fits(script.clone());
            script.pop();
            self.fits(script.clone());
            script.extend(b"\n\nxx");
            self.fits(script);
        }
    }

    /// A script twice: every byte made every other, left out or put in, and the whole cut everywhere.
    fn changed(&mut self, random: &mut Random) {
        let short = text(&SHORT).repeat(2);
        for place in 0..short.len() {
            for byte in 0..=255 {
                let mut script = short.clone();
                script[place] = byte;
                self.fits(script);
            }
        }
        let row = row(random);
        let twice = text(&[SHORT[0], &row, SHORT[1]]).repeat(2);
        for place in 0..twice.len() {
            for byte in *b"078FGa\n\r" {
                let mut script = twice.clone();
                script[place] = byte;
                self.fits(script.clone());
                script[place] = twice[place];
                script.insert(place, byte);
                self.fits(script);
            }
            let mut script = twice.clone();
            script.remove(place);
            self.fits(script);
            self.in_every_room(twice[..place].to_vec());
            self.fits(twice[place..].to_vec());
        }
    }

    /// Malformed lines at every place of a script that stands there once, twice, three times and four.
    fn malformed(&mut self, random: &mut Random) {
        let row = row(random);
        let mut above = row.clone();
        above[2] = b'8';
        let long = |length| [&row[..], &[b'0'; SPOILED]].concat()[..length].to_vec();
        let mut broken: Vec<Vec<u8>> = MALFORMED.iter().map(|line| line.to_vec()).collect();
        broken.push(above);
        broken.extend([3, 258, 259, 261, 262, 263, SPOILED].map(long));
        for copies in 1..=4 {
            let lines = SHORT.repeat(copies);
            for line in &broken {
                for place in 0..=lines.len() {
                    let mut lines = lines.clone();
                    lines.insert(place, line);
                    self.fits(text(&lines));
                    lines.insert(0, line);
                    lines.push(line);
                    self.fits(lines.join(&b'\n'));
                }
            }
        }
    }

    /// Lines that stand there twice or more and begin with each of them in turn: only reset makes copies; and one
    /// of them another.
    fn turned(&mut self, random: &mut Random) {
        let row = row(random);
        for first in 0..SHORT.len() {
            let mut lines = [&SHORT[..], &[&row]].concat();
            lines.rotate_left(first);
            for copies in 1..=16 {
                let script = text(&lines).repeat(copies);
                self.fits(script.clone());
                self.fits(script[..script.len() - 1].to_vec());
                let mut others = lines.repeat(copies);
                let place = random.below(others.len() as u32) as usize;
                others[place] = SHORT[1 + random.below(3) as usize];
                self.fits(text(&others));
                others.remove(place);
                self.fits(text(&others));
            }
        }
    }

    /// Scripts of 32,768 bytes: whole, and in halves that are the same or differ in a byte at their start, in their
    /// middle or at their end; a last line that gains its LF, so that the text is longer than the script.
    fn largest(&mut self, random: &mut Random) {
        for _ in 0..LARGEST {
            self.in_every_room(of_length(random, LONGEST_SCRIPT));
            let mut longest = of_length(random, LONGEST_SCRIPT + 1);
            self.in_every_room(longest.clone());
            longest.pop();
            self.in_every_room(longest);
            for copies in [2, 4, 8, 16, 32] {
                let one = of_length(random, LONGEST_SCRIPT / copies);
                let whole = one.repeat(copies);
                self.in_every_room(whole.clone());
                self.in_every_room([&whole[..], b"\n"].concat());
                self.in_every_room(whole[..whole.len() - 1].to_vec());
                for place in [0, 1, one.len() / 2, one.len() - 3, one.len() - 2] {
                    for copy in [0, copies / 2, copies - 1] {
                        let mut other = whole.clone();
                        let byte = &mut other[copy * one.len() + place];
                        *byte = if *byte == b'1' { b'2' } else { b'1' };
                        self.fits(other);
                    }
                }
            }
            // One line fewer in the later half.
            let one = of_length(random, LONGEST_SCRIPT / 2 - 100);
            self.fits([&one[..], &one[..one.len() - 3]].concat());
            self.fits([&one[..], &one, b"00\n"].concat());
            self.fits([&one[..], &one, &one[..190]].concat());
        }
    }
}

/// The refusal of a script where a buffer is short or not: 12 comes before 7.
fn due(script: &[u8], short: bool) -> Option<u64> {
    match (script.len() > LONGEST_SCRIPT, short) {
        (true, _) => Some(12),
        (false, true) => Some(7),
        (false, false) => None,
    }
}

/// The room that a script needs, and whether any line of it is dropped as repeated; of one that is too long, and
/// refused in any room, the most that any needs.
fn needs(script: &[u8]) -> (Salvaged, bool) {
    let (mut text, mut report) = (vec![0; script.len() + 1], vec![0; script.len()]);
    let most = Salvaged {
        length: LONGEST_SCRIPT + 1,
        lines: LONGEST_SCRIPT,
    };
    let needs = second::salvage(script, &mut text, &mut report).unwrap_or(most);
    (needs, report[..needs.lines].contains(&2))
}

/// Lines with their LF.
fn text(lines: &[&[u8]]) -> Vec<u8> {
    lines
        .iter()
        .flat_map(|line| [line, &b"\n"[..]].concat())
        .collect()
}

/// Accepted lines of so many bytes with their LF, a reset first; 15 bytes can be had at least.
fn of_length(random: &mut Random, length: usize) -> Vec<u8> {
    let mut script = b"00\n".to_vec();
    let rows = random.once_in(2);
    while length - script.len() > 300 {
        if rows {
            script.extend(row(random));
        } else {
            script.extend(random.pick(&SHORT));
        }
        script.push(b'\n');
    }
    // Lines of 3 and of 7 bytes fill what is left.
    let left = length - script.len();
    let reads = left % 3;
    script.extend(b"01A100\n".repeat(reads));
    script.extend(b"00\n".repeat((left - 7 * reads) / 3));
    script
}
