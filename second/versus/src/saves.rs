//! Saves written and read: every refusal, every size, files that are nearly saves, and damages.

use crate::call::Call;
use crate::files::save::{damage, seal};
use crate::random::Random;
use crate::sides::Side;
use crate::sweep::{lowest, records, Tally, FRAMES, RAMS};
use second::{State, RECORD_BYTES, SAVE_BYTES};

/// Banks that a RAM can have.
const BANKS: [usize; 5] = [1, 2, 4, 8, 16];
/// Damaged files compared.
const DAMAGED: usize = 2_000;
/// Single bits changed, of all that there are.
const BITS: u32 = 1_000;

/// What is compared, and how many of the files were read.
struct Saves<'a> {
    tally: &'a mut Tally,
    side: Side,
    restored: u64,
}

/// Compares saves written and read, good and bad; how many files were read.
pub fn compare(tally: &mut Tally, random: &mut Random) -> u64 {
    let mut side = Side::of_noise(0, 1, 9);
    side.image = Vec::new();
    let mut saves = Saves {
        tally,
        side,
        restored: 0,
    };
    saves.writing_refusals();
    saves.reading_refusals();
    saves.sizes(random);
    saves.nearly();
    saves.damages(random);
    saves.restored
}

impl Saves<'_> {
    fn save(&mut self, room: usize, due: Option<u64>) {
        self.tally.compare(&self.side, &Call::Save { room }, due);
    }

    fn restore(&mut self, due: Option<u64>) {
        self.restored += u64::from(due.is_none());
        self.tally.compare(&self.side, &Call::Restore, due);
    }

    /// Reads the file on both sides, whatever the second program says of it.
    fn as_second(&mut self) {
        let mut side = self.side.clone();
        let read = second::restore(&side.file, &mut side.state, &mut side.ram, &mut side.store);
        self.restore(read.err().map(|refusal| refusal.number().into()));
    }

    /// Each of state, RAM, store and buffer good or bad: the lowest number wins.
    fn writing_refusals(&mut self) {
        let good = self.side.clone();
        for (state, no_state) in records() {
            self.side.state = state;
            for (ram, no_ram) in RAMS {
                self.side.ram.resize(ram, 0x3C);
                for (store, no_store) in FRAMES {
                    self.side.store.resize(store, 0xC3);
                    let length = SAVE_BYTES + ram;
                    for room in [0, length - 1, length, length + 3] {
                        let short = room < length;
                        self.save(
                            room,
                            lowest(&[(1, no_state), (3, no_ram), (4, no_store), (7, short)]),
                        );
                    }
                }
            }
        }
        self.side = good;
    }

    /// Each of state, RAM, store and file good or bad; a RAM that is not the save's is refused as 3, but of what
    /// is no save as 8.
    fn reading_refusals(&mut self) {
        let good = self.side.clone();
        let whole = good.saved();
        let mut bad = whole.clone();
        bad[SAVE_BYTES] ^= 0x20;
        let longer = [&whole[..], &[0]].concat();
        let files = [
            (whole.clone(), false),
            (bad, true),
            (whole[..whole.len() - 1].to_vec(), true),
            (longer, true),
            (Vec::new(), true),
        ];
        for (file, no_file) in files {
            self.side.file = file;
            // what the state held is not looked at
            for (state, no_state) in [
                (vec![0xFF; RECORD_BYTES], false),
                (good.state.clone(), false),
                (vec![0; RECORD_BYTES - 1], true),
                (vec![0; RECORD_BYTES + 1], true),
                (Vec::new(), true),
            ] {
                self.side.state = state;
                for (ram, no_ram) in RAMS {
                    self.side.ram.resize(ram, 0x3C);
                    let other = !no_file && ram != good.ram.len();
                    for (store, no_store) in FRAMES {
                        self.side.store.resize(store, 0xC3);
                        self.restore(lowest(&[
                            (1, no_state),
                            (3, no_ram || other),
                            (4, no_store),
                            (8, no_file),
                        ]));
                    }
                }
            }
        }
        self.side = good;
    }

    /// Saves of every size, of every record that can exist, read into RAM of every size.
    fn sizes(&mut self, random: &mut Random) {
        let good = self.side.clone();
        for banks in BANKS {
            for (state, no_state) in records() {
                if no_state {
                    continue;
                }
                self.side.state = state;
                self.side.ram.resize(banks * second::RAM_BANK, 0);
                random.fill(&mut self.side.ram);
                random.fill(&mut self.side.store);
                let length = SAVE_BYTES + self.side.ram.len();
                self.save(length, None);
                self.side.file = self.side.saved();
                for lent in BANKS {
                    self.side.ram.resize(lent * second::RAM_BANK, 0);
                    random.fill(&mut self.side.ram);
                    random.fill(&mut self.side.state);
                    self.restore((lent != banks).then_some(3));
                }
            }
        }
        self.side = good;
    }

    /// Files with a right checksum that are no saves: each byte before the RAM made another.
    fn nearly(&mut self) {
        let good = self.side.clone();
        let whole = good.saved();
        for place in 0..128 {
            for byte in [0, 1, 2, 3, 4, 8, 16, 32, 64, 255, whole[place] ^ 0x20] {
                self.side.file = whole.clone();
                self.side.file[place] = byte;
                seal(&mut self.side.file);
                self.as_second();
            }
        }
        for (state, no_state) in records() {
            self.side.file = [&whole[..7], &state, &whole[128..]].concat();
            seal(&mut self.side.file);
            self.restore(no_state.then_some(8));
            // loose pieces one after the other, as they were put before there were saves
            self.side.file = [&state[..], &good.ram, &good.store].concat();
            self.restore(Some(8));
        }
        for banks in [0, 3, 5, 6, 32] {
            let memory = vec![0x3C; banks * second::RAM_BANK];
            self.side.file = [&whole[..6], &[banks as u8], &whole[7..128], &memory].concat();
            self.side.file.extend(&good.store);
            self.side.file.extend([0; 4]);
            seal(&mut self.side.file);
            self.restore(Some(8));
        }
        self.side = good;
    }

    /// Files cut, holed or otherwise changed, and single bits.
    fn damages(&mut self, random: &mut Random) {
        let mut state = State::RESET;
        (state.held, state.elapsed) = (true, 77);
        (state.registers[0], state.taken[0]) = (2, 3);
        self.side.state = state.to_bytes().to_vec();
        let whole = self.side.saved();
        for _ in 0..DAMAGED {
            self.side.file = whole.clone();
            damage(&mut self.side.file, random);
            self.as_second();
        }
        for _ in 0..BITS {
            let bit = random.below(8 * whole.len() as u32) as usize;
            self.side.file = whole.clone();
            self.side.file[bit / 8] ^= 1 << (bit % 8);
            self.restore(Some(8));
        }
    }
}
