//! Files that are plates, nearly so or not at all, placed in the picture area.

use crate::call::Call;
use crate::files::plate::{damaged, file, GREYS, HEADER};
use crate::random::Random;
use crate::sides::{Beginning, Pair, Side};
use crate::sweep::{lowest, records, Tally, RAMS};
use second::{State, GREY_FILE_BYTES, PIXELS};

/// Damaged files compared.
const DAMAGED: usize = 1_000;
/// Areas that are exported and placed again.
const AREAS: usize = 100;
/// Bytes of a file far too long.
const HUGE: usize = 10_000_000;

/// Headers that say the same to other programs, or nearly so, before all the pixels.
const HEADERS: [&[u8]; 14] = [
    b"P5 128 112 255\n",
    b"P5\n128 112\n255 ",
    b"P5\r\n128 112\r\n255\n",
    b"P5\n#\n128 112\n255\n",
    b"P5\n# cleaned\n128 112\n255\n",
    b"P5\n128\n112\n255\n",
    b"P5\n0128 112\n255\n",
    b"P5\n112 128\n255\n",
    b"P5\n128 112\n3\n",
    b"P5\n128 112\n65535\n",
    b"P2\n128 112\n255\n",
    b"P6\n128 112\n255\n",
    b"P7\n128 112\n255\n",
    b"",
];

/// What is compared, and how many of the files were placed.
struct Plates<'a> {
    tally: &'a mut Tally,
    side: Side,
    placed: u64,
}

/// Compares files good and bad, with captures held and not, and what is exported and placed again; how
/// many files were placed.
pub fn compare(tally: &mut Tally, random: &mut Random) -> u64 {
    let mut side = Side::of_noise(0, 1, 8);
    (side.store, side.image) = (Vec::new(), Vec::new());
    let mut plates = Plates {
        tally,
        side,
        placed: 0,
    };
    plates.refusals(random);
    plates.headers(random);
    plates.greys(random);
    plates.lengths(random);
    for _ in 0..DAMAGED {
        plates.side.file = damaged(random);
        plates.as_second();
    }
    plates.out_and_in(random);
    plates.placed
}

impl Plates<'_> {
    /// Places the file on both sides, which must be refused so.
    fn place(&mut self, due: Option<u64>) {
        self.placed += u64::from(due.is_none());
        self.tally.compare(&self.side, &Call::Place, due);
    }

    /// Places the file on both sides, whatever the second program says of it.
    fn as_second(&mut self) {
        let side = &self.side;
        let state = State::from_bytes(&side.state).expect("the record is one");
        let placed = second::place(&state, &mut side.ram.clone(), &side.file);
        self.place(placed.err().map(|refusal| refusal.number().into()));
    }

    /// Each of state, RAM and file good or bad, captures held and not: the lowest number wins.
    fn refusals(&mut self, random: &mut Random) {
        let good = self.side.clone();
        for (state, no_state) in records() {
            let held = State::from_bytes(&state).is_some_and(|state| state.held);
            self.side.state = state;
            for (ram, no_ram) in RAMS {
                self.side.ram.resize(ram, 0x3C);
                let file = file(random);
                for (file, no_file) in [
                    (file.clone(), false),
                    (Vec::new(), true),
                    (file[1..].to_vec(), true),
                    ([&file[..], &[0]].concat(), true),
                    (changed(&file, GREY_FILE_BYTES - 1, 1), true),
                ] {
                    self.side.file = file;
                    let due = [(1, no_state), (3, no_ram), (8, no_file), (10, held)];
                    self.place(lowest(&due));
                }
            }
        }
        self.side = good;
    }

    /// Every byte of the header made every other, left out and put in again; and other headers.
    fn headers(&mut self, random: &mut Random) {
        let good = file(random);
        for place in 0..HEADER.len() {
            for byte in 0..=255 {
                self.side.file = changed(&good, place, byte);
                self.place(lowest(&[(8, byte != good[place])]));
            }
            self.side.file = good.clone();
            self.side.file.remove(place);
            self.place(Some(8));
            self.side.file.push(GREYS[0]);
            self.place(Some(8));
            for byte in [good[place], b' ', b'\n', b'0'] {
                self.side.file = good.clone();
                self.side.file.insert(place, byte);
                self.place(Some(8));
                self.side.file.truncate(GREY_FILE_BYTES);
                self.as_second();
            }
        }
        for header in HEADERS {
            self.side.file = [header, &good[HEADER.len()..]].concat();
            self.place(Some(8));
            self.side.file.resize(GREY_FILE_BYTES, GREYS[0]);
            self.place(Some(8));
        }
    }

    /// Every grey in places at the edges of octets, tiles, rows and the picture, alone and in pairs.
    fn greys(&mut self, random: &mut Random) {
        let good = file(random);
        for place in [0, 1, 6, 7, 8, 15, 127, 128, 1_023, 1_024, 7_777, PIXELS - 1] {
            for grey in 0..=255 {
                self.side.file = changed(&good, HEADER.len() + place, grey);
                self.place(lowest(&[(8, !GREYS.contains(&grey))]));
            }
        }
        for strange in 0..=255 {
            let place = HEADER.len() + random.below(PIXELS as u32 - 8) as usize;
            let one = changed(&good, place, strange);
            self.side.file = changed(&one, place + 8, strange);
            self.place(lowest(&[(8, !GREYS.contains(&strange))]));
            self.side.file = changed(&one, place + 1, !strange);
            self.place(lowest(&[(8, !GREYS.contains(&strange))]));
        }
        for grey in 0..=255 {
            self.side.file = [HEADER, &[grey; PIXELS]].concat();
            self.place(lowest(&[(8, !GREYS.contains(&grey))]));
        }
    }

    /// Files of other lengths, all of them that are shorter by a tile and some far off.
    fn lengths(&mut self, random: &mut Random) {
        let good = file(random);
        let near = GREY_FILE_BYTES - 64..=GREY_FILE_BYTES + 64;
        for length in (0..=64).chain(near).chain([PIXELS, 2 * GREY_FILE_BYTES]) {
            self.side.file = good.clone();
            self.side.file.resize(length, GREYS[0]);
            self.place(lowest(&[(8, length != GREY_FILE_BYTES)]));
        }
        self.side.file = good;
        self.side.file.resize(HUGE, GREYS[0]);
        self.place(Some(8));
    }

    /// What is exported and placed elsewhere is the same area, the same file and the same shades.
    fn out_and_in(&mut self, random: &mut Random) {
        for round in 0..AREAS {
            let mut pair = Pair::new(&Beginning {
                rom_banks: 0,
                ram_banks: 1 << (round % 5),
                seed: random.next(),
            });
            let mut other = pair.archive.ram.clone();
            random.fill(&mut other);
            let area = pair.archive.ram[0x100..0xF00].to_vec();
            let export = Call::Export {
                room: GREY_FILE_BYTES,
            };
            let mut due = other.clone();
            due[0x100..0xF00].copy_from_slice(&area);
            let outcome = pair.play(&export).and_then(|_| {
                let file = pair.second.out.clone();
                for side in [&mut pair.archive, &mut pair.second] {
                    (side.file, side.ram) = (file.clone(), other.clone());
                }
                pair.play(&Call::Place)?;
                pair.play(&export)?;
                let same = pair.second.ram == due && pair.second.out == file;
                same.then_some(())
                    .ok_or_else(|| String::from("out and in again gives another area or file"))
            });
            self.tally.compared += 3;
            self.placed += 1;
            self.tally.differences.extend(outcome.err());
        }
    }
}

/// A file with one byte made another.
fn changed(file: &[u8], place: usize, byte: u8) -> Vec<u8> {
    let mut file = file.to_vec();
    file[place] = byte;
    file
}
