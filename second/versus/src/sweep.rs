//! Every combination of good and bad arguments, and every setting of the picture.

use crate::answers::Answers;
use crate::call::{hex, Call, Lent};
use crate::lines;
use crate::random::Random;
use crate::sides::{paint, parted, refused, Beginning, Pair, Side};
use second::{Frame, State, Timing};

/// Something to lend or give, and whether it is to be refused.
pub type Choice<T> = (T, bool);

/// Counts comparisons, keeps the first differences and notes the answers if asked to.
#[derive(Default)]
pub struct Tally {
    pub compared: u64,
    pub differences: Vec<String>,
    pub answers: Option<Answers>,
}

impl Tally {
    /// Makes one call on both sides, which must answer alike, and with the refusal if one is due.
    /// Gives the archive's side and the second program's as the call leaves them.
    pub fn compare(&mut self, side: &Side, call: &Call, due: Option<u64>) -> [Side; 2] {
        self.compared += 1;
        let mut archive = side.clone();
        let mut second = side.clone();
        let answers = [archive.call_archive(call), second.call_second(call)];
        if let Some(notes) = &mut self.answers {
            notes.lend(side);
            notes.call(call, answers[1], &second);
        }
        let due_now = due.map_or(answers[1] >> 32 == 0, |number| {
            answers[1] == refused(number)
        });
        let parting = parting(&archive, &second);
        let kept = answers[1] >> 32 == 0 || lent(&second) == lent(side);
        if answers[0] == answers[1] && due_now && kept && parting.is_none() {
            return [archive, second];
        }
        let lengths = [&side.rom, &side.ram, &side.store, &side.image].map(|lent| lent.len());
        self.differences.push(format!(
            "{call}\n  lent ROM, RAM, store, image of {lengths:?} bytes, {}\n  \
             a file of {} bytes that starts {}\n  \
             answers: archive {:X}h, second {:X}h, refusal due: {due:?}, lent bytes kept: {kept}; {}",
            Call::Put {
                record: side.state.clone().into()
            },
            side.file.len(),
            hex(&side.file[..side.file.len().min(272)]),
            answers[0],
            answers[1],
            parting.unwrap_or_default(),
        ));
        [archive, second]
    }
}

/// All that is lent to calls, by its name.
fn lent(side: &Side) -> [(&str, &[u8]); 6] {
    [
        ("state", &side.state),
        ("ROM", &side.rom),
        ("RAM", &side.ram),
        ("store", &side.store),
        ("image", &side.image),
        ("file", &side.file),
    ]
}

/// Where what is lent or given out parts.
fn parting(archive: &Side, second: &Side) -> Option<String> {
    lent(archive)
        .iter()
        .zip(lent(second))
        .find_map(|((name, a), (_, b))| parted(name, a, b))
        .or_else(|| parted("picture", &archive.picture, &second.picture))
        .or_else(|| parted("bytes given out", &archive.out, &second.out))
        .or_else(|| parted("report", &archive.report, &second.report))
}

/// The 116 bytes that a record had in layout 1: no number of the layout and no counts.
pub fn first_layout(record: &[u8]) -> Vec<u8> {
    [&record[1..9], &record[13..]].concat()
}

/// A capture half way as the version before #112 saved it, with a raw frame in its store.
const SECOND_LAYOUT: &[u8] = include_bytes!("../../../tests/data/layout-2.state");

/// Records that are refused or not, one for each reason.
pub fn records() -> Vec<Choice<Vec<u8>>> {
    let free = State::RESET;
    let mut held = State {
        held: true,
        elapsed: 5_000,
        ram_select: 16,
        ..free
    };
    (held.registers[0], held.taken[0], held.taken[3]) = (3, 5, 9);
    let mut stopped = held;
    stopped.registers[0] = 6;
    let total = 32_958 + 16 * 9;
    let patched = |state: State, patches: &[(usize, u8)]| {
        let mut bytes = state.to_bytes().to_vec();
        patches
            .iter()
            .for_each(|&(place, byte)| bytes[place] = byte);
        bytes
    };
    let counted = |state: State, started, ended| {
        let state = State {
            started,
            ended,
            ..state
        };
        state.to_bytes().to_vec()
    };
    let late = |elapsed: u32| {
        let mut state = held;
        state.elapsed = elapsed;
        state.to_bytes().to_vec()
    };
    let mut records = Vec::new();
    for good in [
        patched(free, &[]),
        patched(held, &[]),
        patched(stopped, &[]),
        patched(free, &[(1, 1), (2, 63), (3, 31), (13, 6), (66, 255)]),
        patched(held, &[(120, 255), (66, 255), (1, 1)]),
        counted(free, 0xFFFF, 0xFFFF),
        counted(free, 0, 1),
        counted(held, 0xFFFF, 0),
        counted(stopped, 0x1234, 0xFFFF),
        late(total - 1),
        late(0),
    ] {
        records.push((good, false));
    }
    for bad in [
        patched(free, &[(2, 64)]),
        patched(held, &[(2, 255)]),
        patched(free, &[(3, 32)]),
        patched(stopped, &[(3, 255)]),
        patched(free, &[(13, 8)]),
        patched(held, &[(13, 255)]),
        patched(free, &[(13, 1)]),
        patched(free, &[(13, 7)]),
        patched(free, &[(5, 1)]),
        patched(free, &[(8, 128)]),
        patched(free, &[(67, 1)]),
        patched(free, &[(120, 1)]),
        patched(held, &[(67, 4)]),
        patched(held, &[(67, 13)]),
        patched(held, &[(1, 2)]),
        patched(held, &[(4, 3)]),
        patched(free, &[(1, 255)]),
        patched(held, &[(4, 0)]),
        patched(free, &[(0, 0)]),
        patched(held, &[(0, 1)]),
        patched(held, &[(0, 2)]),
        patched(stopped, &[(0, 4)]),
        patched(free, &[(0, 255)]),
        first_layout(&patched(free, &[])),
        first_layout(&patched(held, &[])),
        first_layout(&patched(free, &[(1, 2)])),
        SECOND_LAYOUT.to_vec(),
        late(total),
        late(u32::MAX),
        Vec::new(),
        patched(free, &[])[..120].to_vec(),
        [&patched(held, &[])[..], &[0]].concat(),
    ] {
        records.push((bad, true));
    }
    records
}

pub const ROMS: [Choice<usize>; 8] = [
    (16_384, false),
    (32_768, false),
    (65_536, false),
    (0, true),
    (1, true),
    (16_383, true),
    (16_385, true),
    (49_152, true),
];
pub const RAMS: [Choice<usize>; 8] = [
    (8_192, false),
    (16_384, false),
    (32_768, false),
    (0, true),
    (8_191, true),
    (8_193, true),
    (12_288, true),
    (24_576, true),
];
pub const FRAMES: [Choice<usize>; 5] = [
    (16_384, false),
    (0, true),
    (16_383, true),
    (16_385, true),
    (32_768, true),
];
const ADDRESSES: [Choice<u16>; 9] = [
    (0x0000, false),
    (0x4000, false),
    (0x7FFF, false),
    (0xA000, false),
    (0xBFFF, false),
    (0x8000, true),
    (0x9FFF, true),
    (0xC000, true),
    (0xFFFF, true),
];

/// Exposures at the edges of what is named, and above it.
pub const EXPOSURES: [u32; 9] = [
    0,
    1,
    0xFF,
    0x300,
    0x1234,
    0xFFFF,
    0x1_0000,
    0x1_0300,
    u32::MAX,
];

/// The lowest refusal that is due.
pub fn lowest(reasons: &[(u64, bool)]) -> Option<u64> {
    reasons
        .iter()
        .filter(|(_, due)| *due)
        .map(|(number, _)| *number)
        .min()
}

/// Bytes that are not all the same.
pub fn lend(length: usize) -> Vec<u8> {
    (0..length)
        .map(|place| (place * 7 + place / 256) as u8)
        .collect()
}

/// Each argument good or bad in each way: the lowest number wins, and nothing else changes.
pub fn refusals(tally: &mut Tally) {
    for (state, no_state) in records() {
        let empty = Vec::new;
        let mut side = Side {
            state,
            rom: empty(),
            ram: empty(),
            store: empty(),
            image: empty(),
            file: empty(),
            picture: [0; 3584],
            out: empty(),
            report: empty(),
        };
        let due = (side.state.len() != second::RECORD_BYTES).then_some(1);
        tally.compare(&side, &Call::Reset, due);
        tally.compare(&side, &Call::Inspect, lowest(&[(1, no_state)]));
        sweep_reads(tally, &mut side, no_state);
        sweep_writes_and_ticks(tally, &mut side, no_state);
    }
    sweep_banks(tally);
    sweep_frames(tally);
}

fn sweep_reads(tally: &mut Tally, side: &mut Side, no_state: bool) {
    for (rom, no_rom) in ROMS {
        side.rom = lend(rom);
        for (ram, no_ram) in RAMS {
            side.ram = lend(ram);
            for (address, off) in ADDRESSES {
                let due = lowest(&[(1, no_state), (2, no_rom), (3, no_ram), (5, off)]);
                tally.compare(side, &Call::Read { address }, due);
            }
        }
    }
    side.rom.clear();
}

fn sweep_writes_and_ticks(tally: &mut Tally, side: &mut Side, no_state: bool) {
    for (ram, no_ram) in RAMS {
        side.ram = lend(ram);
        for (store, no_store) in FRAMES {
            side.store = lend(store);
            let due = lowest(&[(1, no_state), (3, no_ram), (4, no_store)]);
            for cycles in [0, 1, 4, 600] {
                tally.compare(side, &Call::Tick { cycles }, due);
            }
            for (image, no_image) in FRAMES {
                side.image = lend(image);
                for (address, off) in ADDRESSES {
                    let frames = (4, no_store || no_image);
                    let due = lowest(&[(1, no_state), (3, no_ram), frames, (5, off)]);
                    let value = 1;
                    tally.compare(side, &Call::Write { address, value }, due);
                }
            }
            side.image.clear();
        }
    }
}

/// Every count of banks up to twice the largest.
fn sweep_banks(tally: &mut Tally) {
    let good = Beginning {
        rom_banks: 1,
        ram_banks: 1,
        seed: 1,
    };
    for banks in 0..=130 {
        let mut side = Pair::new(&good).archive;
        side.rom = lend(banks * 16_384);
        let due = (![1, 2, 4, 8, 16, 32, 64].contains(&banks)).then_some(2);
        tally.compare(&side, &Call::Read { address: 0x7FFF }, due);
    }
    for banks in 0..=34 {
        let mut side = Pair::new(&good).archive;
        side.ram = lend(banks * 8_192);
        let due = (![1, 2, 4, 8, 16].contains(&banks)).then_some(3);
        tally.compare(&side, &Call::Read { address: 0xBFFF }, due);
        tally.compare(
            &side,
            &Call::Write {
                address: 0xBFFF,
                value: 5,
            },
            due,
        );
        tally.compare(&side, &Call::Tick { cycles: 5 }, due);
    }
}

/// Frames of the wrong size leave the picture alone.
fn sweep_frames(tally: &mut Tally) {
    let mut side = Side::of_noise(1, 1, 2);
    for (length, no_frame) in FRAMES {
        side.image = lend(length);
        let registers = Box::new([0x35; 54]);
        let call = Call::Picture {
            of: Lent::Image,
            registers,
        };
        tally.compare(&side, &call, lowest(&[(4, no_frame)]));
    }
}

/// Frames of every kind as lines, in buffers long enough and too short, and rows that are none.
pub fn lines(tally: &mut Tally, random: &mut Random) {
    let side = Side::of_noise(1, 1, 4);
    let mut compare = |frame: Frame<Box<[u8]>>, room, wrong| {
        let length = lines::length(&frame);
        let due = lowest(&[(6, wrong), (7, room < length)]);
        tally.compare(&side, &Call::Record { frame, room }, due);
    };
    for room in 0..=lines::MOST_ROOM {
        for kind in 0..5 {
            compare(lines::frame(random, kind), room, false);
        }
    }
    for row in 0..=255 {
        for length in [0, 1, 127, 128, 129, 130] {
            for room in [0, 260, 261, 262] {
                let pixels = lend(length).into();
                compare(
                    Frame::Row { row, pixels },
                    room,
                    row > 0x7F || length != 128,
                );
            }
        }
    }
}

/// Every light set and level there is, and some that are none, on records that can exist and that can't.
pub fn choices(tally: &mut Tally) {
    let mut side = Side::of_noise(0, 0, 7);
    (side.store, side.image) = (Vec::new(), Vec::new());
    for (state, no_state) in records() {
        side.state = state;
        for (light, level) in every_level() {
            for plain in [0, 1, 2, 255] {
                for exposure in EXPOSURES {
                    let call = Call::Choose {
                        light,
                        level,
                        plain,
                        exposure,
                    };
                    let due = lowest(&[(1, no_state), (9, light > 1 || level > 15)]);
                    tally.compare(&side, &call, due);
                }
            }
        }
    }
}

/// Light sets and levels up to a few that are none.
fn every_level() -> impl Iterator<Item = (u8, u8)> {
    let levels = (0..=20).chain([127, 128, 255]);
    levels.flat_map(|level| [0, 1, 2, 3, 128, 255].map(|light| (light, level)))
}

/// Random RAM of every count of banks, and of lengths that are none, as files and as shades in buffers
/// long enough and too short.
pub fn exports(tally: &mut Tally, random: &mut Random) {
    let mut side = Side::of_noise(1, 1, 5);
    let mut lengths: Vec<usize> = (0..=34).map(|banks| banks * 8_192).collect();
    lengths.extend([1, 3_840, 4_096, 8_191, 8_193, 131_071, 131_073]);
    for length in lengths {
        let no_ram = ![1, 2, 4, 8, 16]
            .map(|banks| banks * 8_192)
            .contains(&length);
        let random_rooms = std::array::from_fn::<_, 8, _>(|_| room_for(14_351, random));
        for room in [0, 1, 15, 14_335, 14_336, 14_337, 14_350, 14_351, 14_352]
            .into_iter()
            .chain(random_rooms)
        {
            side.ram.resize(length, 0);
            random.fill(&mut side.ram);
            let due = lowest(&[(3, no_ram), (7, room < 14_351)]);
            tally.compare(&side, &Call::Export { room }, due);
            let due = lowest(&[(3, no_ram), (7, room < 14_336)]);
            tally.compare(&side, &Call::Shades { room }, due);
        }
    }
}

/// The readings of captures in every mode, ratio, inversion and 1-D filter, held anywhere over any lit
/// values, running and not; and every combination of bad arguments.
pub fn readings(tally: &mut Tally, random: &mut Random) {
    let mut side = Side::of_noise(0, 0, 9);
    side.image = Vec::new();
    for setting in 0..1024 {
        paint(&mut side.store, (setting % 5) as u8, random.next());
        let taken = setting_of(setting, random);
        let mut registers = pleasant(random);
        registers[0] &= 7;
        let state = State {
            held: true,
            elapsed: random.below(Timing::of(&taken).total()),
            registers,
            taken,
            ..State::RESET
        };
        side.state = state.to_bytes().to_vec();
        tally.compare(&side, &Call::Readings { room: 14_351 }, None);
    }
    for (state, no_state) in records() {
        let held = State::from_bytes(&state).is_some_and(|state| state.held);
        side.state = state;
        for (store, no_store) in FRAMES {
            side.store = lend(store);
            for room in [0, 1, 15, 14_336, 14_350, 14_351, 14_352, 16_384] {
                let due = lowest(&[
                    (1, no_state),
                    (4, no_store),
                    (7, room < 14_351),
                    (11, !held),
                ]);
                tally.compare(&side, &Call::Readings { room }, due);
            }
        }
    }
}

/// Captures begun by a start: the store it leaves of every light at many exposures, inverted and not; and
/// under every mode, ratio, inversion and 1-D filter the readings and the picture, half and whole, which
/// must be the picture afresh of the image.
pub fn starts(tally: &mut Tally, random: &mut Random) {
    let mut side = Side::of_noise(0, 1, 13);
    side.image = lend(16_384);
    let edges = [0, 1, 0x7F, 0xFF, 0x100, 0x101, 0x1FF, 0x555, 0x7FFF, 0x8000];
    let any = std::array::from_fn::<_, 120, _>(|_| random.next() as u16 >> random.below(12));
    for exposure in edges.into_iter().chain([0xFFFE, 0xFFFF]).chain(any) {
        for inverted in [0, 8] {
            let mut taken = pleasant(random);
            (taken[0], taken[4]) = (1, taken[4] & !8 | inverted);
            taken[2..4].copy_from_slice(&exposure.to_be_bytes());
            begin(tally, &mut side, &taken);
        }
    }
    for setting in 0..1024 {
        paint(&mut side.image, (setting % 5) as u8, random.next());
        let taken = setting_of(setting, random);
        let begun = begin(tally, &mut side, &taken);
        tally.compare(&begun, &Call::Readings { room: 14_351 }, None);
        let cycles = random.below(Timing::of(&taken).total());
        let [_, half] = tally.compare(&begun, &Call::Tick { cycles }, None);
        let ended = tally.compare(&half, &Call::Tick { cycles: u32::MAX }, None);
        let fresh = draw(tally, &side, taken);
        for (ended, fresh) in ended.iter().zip(fresh) {
            let plate = &ended.ram[second::PLATE_OFFSET..][..second::PLATE_BYTES];
            if let Some(place) = parted("plate and picture afresh", plate, &fresh.picture) {
                let what = format!("a capture stopped at {cycles}: {place}\n  {}", hex(&taken));
                tally.differences.push(what);
            }
        }
    }
}

/// Starts a capture with such registers over the image lent; the side as the start leaves it.
pub fn begin(tally: &mut Tally, side: &mut Side, taken: &[u8; 54]) -> Side {
    let mut state = State {
        ram_select: 16,
        registers: *taken,
        ..State::RESET
    };
    state.registers[0] &= 6;
    side.state = state.to_bytes().to_vec();
    let start = Call::Write {
        address: 0xA000,
        value: taken[0],
    };
    let [_, begun] = tally.compare(side, &start, None);
    begun
}

/// Room for so many bytes, more often than not enough.
pub fn room_for(bytes: usize, random: &mut Random) -> usize {
    match random.below(4) {
        0 => random.below(bytes as u32) as usize,
        1 => bytes + random.below(1_000) as usize,
        _ => bytes,
    }
}

/// The picture afresh under every mode, ratio, inversion and 1-D filter, and every value of
/// registers 0 to 5.
pub fn pictures(tally: &mut Tally, random: &mut Random) {
    let mut side = Side::of_noise(1, 1, 3);
    for setting in 0..1024 {
        paint(&mut side.image, (setting % 5) as u8, random.next());
        draw(tally, &side, setting_of(setting, random));
    }
    for place in 0..6 {
        for value in 0..=255 {
            paint(&mut side.image, value % 5, random.next());
            let mut registers = pleasant(random);
            registers[place] = value;
            draw(tally, &side, registers);
        }
    }
}

fn draw(tally: &mut Tally, side: &Side, registers: [u8; 54]) -> [Side; 2] {
    let registers = Box::new(registers);
    tally.compare(
        side,
        &Call::Picture {
            of: Lent::Image,
            registers,
        },
        None,
    )
}

/// Such registers under one of 1,024 settings: mode, inversion, ratio and 1-D filter.
pub fn setting_of(setting: u32, random: &mut Random) -> [u8; 54] {
    let mut registers = pleasant(random);
    registers[0] = (setting >> 8 << 1 | 1) as u8;
    registers[1] = registers[1] & 0x1F | (setting << 4 & 0xE0) as u8;
    registers[4] = registers[4] & 7 | (setting << 7) as u8 | (setting >> 1 & 0x78) as u8;
    registers
}

/// Random registers at an exposure that leaves pixels apart.
fn pleasant(random: &mut Random) -> [u8; 54] {
    let mut registers = [0; 54];
    random.fill(&mut registers);
    registers[2] = random.below(3) as u8;
    if random.once_in(2) {
        registers[6..]
            .chunks_exact_mut(3)
            .for_each(|element| element.sort());
    }
    registers
}
