//! Script lines carried out one by one: over every kind of record and memory, in buffers of every length, and in chains
//! that go on from what the line before left.

use crate::call::Call;
use crate::files::script::row;
use crate::random::Random;
use crate::script::{frames, spoil};
use crate::sides::Side;
use crate::sweep::{lend, lowest, records, Tally, FRAMES, RAMS, ROMS};
use second::{Frame, LAYOUT, LONGEST_ANSWER, RECORD_BYTES};

/// A line of each kind, at both ends of what is refused, and some that are malformed.
const LINES: [&[u8]; 18] = [
    b"00",
    b"010000",
    b"014000",
    b"01A000",
    b"01BFFF",
    b"018000",
    b"02A00003",
    b"02A10055",
    b"0200000A",
    b"02C00001",
    b"0300000001",
    b"03FFFFFFFF",
    b"",
    b"0",
    b"01a000",
    b"000",
    b"05",
    b"03000000001",
];
/// Lengths of the buffers.
const ROOMS: [usize; 7] = [0, 1, 3, 10, 11, 12, 300];
/// Chains of lines, and the most lines of one.
const CHAINS: usize = 300;
const LINKS: usize = 200;

/// What is compared, and how many lines were answered 00 and how many with a refusal.
struct Steps<'a> {
    tally: &'a mut Tally,
    done: u64,
    refused: u64,
}

/// Compares steps; how many lines were answered 00, and how many with a refusal of the line.
pub fn compare(tally: &mut Tally, random: &mut Random) -> [u64; 2] {
    let mut steps = Steps {
        tally,
        done: 0,
        refused: 0,
    };
    steps.over_records(random);
    steps.over_memory(random);
    steps.in_chains(random);
    [steps.done, steps.refused]
}

impl Steps<'_> {
    /// Carries out a line on both sides; the second program's as the line leaves it.
    fn step(&mut self, side: &Side, line: &[u8], room: usize) -> Side {
        let call = Call::Step {
            line: line.into(),
            room,
        };
        let due = lowest(&[(1, no_record(&side.state)), (7, room < LONGEST_ANSWER)]);
        let [_, after] = self.tally.compare(side, &call, due);
        if due.is_none() {
            let done = after.out.starts_with(b"00");
            self.done += u64::from(done);
            self.refused += u64::from(!done);
        }
        after
    }

    /// Records of every kind, those too that can't exist and that are none, and buffers too short.
    fn over_records(&mut self, random: &mut Random) {
        let row = row(random);
        for (state, no_state) in records() {
            let record = !no_record(&state);
            let side = Side {
                state,
                ..Side::of_noise(1, 1, 19)
            };
            for line in LINES.into_iter().chain([&row[..]]) {
                for room in ROOMS {
                    let after = self.step(&side, line, room);
                    if record && room >= LONGEST_ANSWER && no_state {
                        self.mended(line, &after);
                    }
                }
            }
        }
    }

    /// A record that can't exist answers 01, but for a reset, which mends it, a row, and a malformed line.
    fn mended(&mut self, line: &[u8], after: &Side) {
        let due: &[u8] = match Frame::parse(line) {
            Some(Frame::Reset | Frame::Row { .. }) => b"00\n",
            Some(_) => b"01\n",
            None => b"06\n",
        };
        if !after.out.starts_with(due) {
            let line = line.escape_ascii();
            let difference = format!("'{line}' on a record that can't exist is answered otherwise");
            self.tally.differences.push(difference);
        }
    }

    /// Memory of every size that is allowed or not.
    fn over_memory(&mut self, random: &mut Random) {
        let row = row(random);
        let mut side = Side::of_noise(0, 0, 23);
        for (rom, _) in ROMS {
            side.rom = lend(rom);
            for (ram, _) in RAMS {
                side.ram = lend(ram);
                for (store, _) in FRAMES {
                    side.store = lend(store);
                    for (image, _) in FRAMES {
                        side.image = lend(image);
                        for line in [LINES[0], LINES[3], LINES[6], LINES[10], LINES[16], &row[..]] {
                            self.step(&side, line, LONGEST_ANSWER);
                        }
                    }
                }
            }
        }
    }

    /// Lines one after the other, some of them broken, from reset and from records of every kind.
    fn in_chains(&mut self, random: &mut Random) {
        let records = records();
        for chain in 0..CHAINS {
            let mut side =
                Side::of_noise(1 << random.below(3), 1 << random.below(5), random.next());
            if random.once_in(3) {
                side.state = records[random.below(records.len() as u32) as usize]
                    .0
                    .clone();
            }
            let damage = [0, 50, 3][chain % 3];
            let mut links = 0;
            while links < LINKS {
                for mut line in frames(random) {
                    if damage > 0 && random.once_in(damage) {
                        spoil(random, &mut line);
                    }
                    side = self.step(&side, &line, LONGEST_ANSWER + random.below(3) as usize);
                    links += 1;
                }
            }
        }
    }
}

/// Whether bytes are no record, which alone is refused as 1.
fn no_record(state: &[u8]) -> bool {
    state.len() != RECORD_BYTES || state[0] != LAYOUT || state[1] > 1 || state[4] > 1
}
