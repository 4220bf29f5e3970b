//! The save: its bytes, the way there and back, its refusals, and every kind of damage.

use super::random::Random;
use crate::{
    crc32, restore, save, Refusal, State, FRAME_BYTES, LAYOUT, RAM_BANK, RECORD_BYTES, SAVE_BYTES,
};

/// The checksum as the paper says it, bit by bit.
fn crc_slow(bytes: &[u8]) -> u32 {
    let mut register = u32::MAX;
    for &byte in bytes {
        register ^= u32::from(byte);
        for _ in 0..8 {
            let dropped = register & 1;
            register >>= 1;
            if dropped == 1 {
                register ^= 0xEDB8_8320;
            }
        }
    }
    !register
}

/// A file's checksum put right, whatever it has before it.
fn sealed(mut file: Vec<u8>) -> Vec<u8> {
    let end = file.len() - 4;
    let checksum = crc_slow(&file[..end]).to_le_bytes();
    file[end..].copy_from_slice(&checksum);
    file
}

struct Saved {
    record: [u8; RECORD_BYTES],
    ram: Vec<u8>,
    store: Vec<u8>,
}

/// A capture held, and memory full of anything.
fn saved(random: &mut Random, banks: usize) -> Saved {
    let mut state = State {
        ram_enabled: true,
        rom_bank: 63,
        ram_select: 0x1F,
        held: true,
        elapsed: 0x7B00,
        started: 0xABCD,
        ended: 0x1234,
        ..State::RESET
    };
    state.registers = random.bytes(54).try_into().unwrap();
    state.registers[0] = 6;
    state.taken = random.bytes(54).try_into().unwrap();
    state.taken[0] = 3;
    assert!(state.can_exist());
    Saved {
        record: state.to_bytes(),
        ram: random.bytes(RAM_BANK * banks),
        store: random.bytes(FRAME_BYTES),
    }
}

fn file_of(saved: &Saved) -> Vec<u8> {
    let mut file = vec![0xA5; SAVE_BYTES + saved.ram.len()];
    let length = save(&saved.record, &saved.ram, &saved.store, &mut file);
    assert_eq!(length, Ok(file.len()));
    file
}

/// What is lent to a reading, each byte of it known.
struct Lent([Vec<u8>; 3]);

impl Lent {
    fn new(banks: usize) -> Self {
        Lent([RECORD_BYTES, RAM_BANK * banks, FRAME_BYTES].map(|length| vec![0xA5; length]))
    }

    fn restore(&mut self, file: &[u8]) -> Result<(), Refusal> {
        let [record, ram, store] = &mut self.0;
        restore(file, record, ram, store)
    }

    fn untouched(&self) -> bool {
        self.0.iter().flatten().all(|&byte| byte == 0xA5)
    }
}

/// Sees that files are refused as 8, and that nothing is changed by any.
fn all_refused<'a>(files: impl Iterator<Item = &'a [u8]>) {
    let mut lent = Lent::new(1);
    for file in files {
        assert_eq!(lent.restore(file), Err(Refusal::File));
    }
    assert!(lent.untouched());
}

#[test]
fn the_checksum_is_that_of_zlib() {
    for (bytes, due) in [
        (&b""[..], 0),
        (b"\0", 0xD202_EF8D),
        (b"a", 0xE8B7_BE43),
        (b"123456789", 0xCBF4_3926),
        (b"The quick brown fox jumps over the lazy dog", 0x414F_A339),
    ] {
        assert_eq!(crc32(bytes), due);
        assert_eq!(crc_slow(bytes), due);
    }
    let bytes = Random::new(291).bytes(300);
    for from in 0..20 {
        for to in from..bytes.len() {
            assert_eq!(crc32(&bytes[from..to]), crc_slow(&bytes[from..to]));
        }
    }
}

#[test]
fn each_byte_stands_where_the_table_says() {
    let mut random = Random::new(292);
    for (banks, length) in [
        (1, 24_708),
        (2, 32_900),
        (4, 49_284),
        (8, 82_052),
        (16, 147_588),
    ] {
        let saved = saved(&mut random, banks);
        let file = file_of(&saved);
        let store = 128 + 8_192 * banks;
        assert_eq!(file.len(), length);
        assert_eq!(
            &file[..7],
            [0x47, 0x58, 0x53, 0x41, 0x56, 0x45, banks as u8]
        );
        assert_eq!(file[7], LAYOUT);
        assert_eq!(&file[7..128], saved.record);
        assert!(file[128..store] == saved.ram);
        assert!(file[store..store + 16_384] == saved.store);
        assert_eq!(
            file[store + 16_384..],
            crc_slow(&file[..length - 4]).to_le_bytes()
        );
    }
}

#[test]
fn what_was_written_is_read_and_bytes_beyond_stay() {
    let mut random = Random::new(293);
    for banks in [1, 2, 4, 8, 16] {
        let saved = saved(&mut random, banks);
        let file = file_of(&saved);
        let mut lent = Lent::new(banks);
        assert_eq!(lent.restore(&file), Ok(()));
        let [record, ram, store] = &lent.0;
        assert!(*record == saved.record && *ram == saved.ram && *store == saved.store);
        let mut room = vec![0x5A; file.len() + 9];
        assert_eq!(save(record, ram, store, &mut room), Ok(file.len()));
        assert!(room[..file.len()] == file && room[file.len()..] == [0x5A; 9]);
    }
}

#[test]
fn writing_is_refused_in_order_and_keeps_the_buffer() {
    let saved = saved(&mut Random::new(294), 1);
    let mut broken = saved.record;
    broken[2] = 64;
    let mut other_layout = saved.record;
    other_layout[0] = LAYOUT - 1;
    let short = &saved.record[..RECORD_BYTES - 1];
    for record in [&saved.record[..], &broken, &other_layout, short, &[]] {
        for ram in [&saved.ram[..], &saved.ram[1..], &[]] {
            for store in [&saved.store[..], &saved.store[1..], &[]] {
                for room in [0, 1, 24_707, 24_708] {
                    let due = if record != saved.record {
                        Err(Refusal::State)
                    } else if ram.len() != RAM_BANK {
                        Err(Refusal::Ram)
                    } else if store.len() != FRAME_BYTES {
                        Err(Refusal::Frame)
                    } else if room < 24_708 {
                        Err(Refusal::Buffer)
                    } else {
                        Ok(24_708)
                    };
                    let mut buffer = vec![0xA5; room];
                    assert_eq!(save(record, ram, store, &mut buffer), due);
                    assert!(due.is_ok() || buffer.iter().all(|&byte| byte == 0xA5));
                }
            }
        }
    }
}

#[test]
fn reading_is_refused_in_order_and_keeps_what_is_lent() {
    let mut random = Random::new(295);
    let good = file_of(&saved(&mut random, 2));
    let mut bad = good.clone();
    bad[20_000] ^= 0x10;
    for file in [&good, &bad] {
        for record in [RECORD_BYTES, RECORD_BYTES - 1, 0, 116] {
            for ram in [2 * RAM_BANK, RAM_BANK, 16 * RAM_BANK, 3 * RAM_BANK, 0] {
                for store in [FRAME_BYTES, FRAME_BYTES + 1, 0] {
                    let allowed = ram != 0 && ram != 3 * RAM_BANK;
                    let due = if record != RECORD_BYTES {
                        Err(Refusal::State)
                    } else if !allowed || file == &good && ram != 2 * RAM_BANK {
                        Err(Refusal::Ram)
                    } else if store != FRAME_BYTES {
                        Err(Refusal::Frame)
                    } else if file == &bad {
                        Err(Refusal::File)
                    } else {
                        Ok(())
                    };
                    let mut lent = Lent([record, ram, store].map(|length| vec![0xA5; length]));
                    assert_eq!(lent.restore(file), due);
                    assert!(due.is_ok() || lent.untouched());
                }
            }
        }
    }
}

#[test]
fn every_truncation_and_every_changed_bit_is_refused() {
    let mut file = file_of(&saved(&mut Random::new(296), 1));
    all_refused((0..file.len()).map(|length| &file[..length]));
    let longer = [&file[..], &[0]].concat();
    all_refused([&longer[..]].into_iter());
    let mut lent = Lent::new(1);
    for bit in 0..8 * file.len() {
        file[bit / 8] ^= 1 << (bit % 8);
        assert_eq!(lent.restore(&file), Err(Refusal::File), "bit {bit}");
        file[bit / 8] ^= 1 << (bit % 8);
    }
    assert!(lent.untouched());
    assert_eq!(lent.restore(&file), Ok(()));
}

#[test]
fn random_damages_are_refused() {
    let mut random = Random::new(297);
    let good = file_of(&saved(&mut random, 1));
    let mut lent = Lent::new(1);
    for _ in 0..10_000 {
        let mut file = good.clone();
        let place = random.below(file.len() as u64) as usize;
        let length = (1 + random.below(600) as usize).min(file.len() - place);
        match random.below(4) {
            0 => file[place..place + length].fill(random.byte()),
            1 => drop(file.drain(place..place + length)),
            2 => file[place..].fill(0),
            _ => {
                let other = random.bytes(length);
                file[place..place + length].copy_from_slice(&other);
            }
        }
        if file != good {
            assert_eq!(lent.restore(&file), Err(Refusal::File));
        }
    }
    assert!(lent.untouched());
}

#[test]
fn a_right_checksum_alone_makes_no_save() {
    let mut random = Random::new(298);
    let good = saved(&mut random, 1);
    let file = file_of(&good);
    // other magics, banks, layouts, and a record that can't exist or is none
    for (place, byte) in [
        (0, b'g'),
        (5, b'e'),
        (6, 0),
        (6, 2),
        (6, 3),
        (6, 255),
        (7, 0),
        (7, 1),
        (7, LAYOUT - 1),
        (7, LAYOUT + 1),
        (8, 2),
        (9, 64),
        (10, 32),
        (11, 2),
        (20, 8),
        (74, 2),
    ] {
        let mut other = file.clone();
        other[place] = byte;
        all_refused([&sealed(other)[..]].into_iter());
    }
    // lengths that no RAM gives, with the banks that they would have
    for banks in [0, 3, 5, 32] {
        let mut other = vec![0; SAVE_BYTES + RAM_BANK * banks];
        other[..128].copy_from_slice(&file[..128]);
        other[6] = banks as u8;
        all_refused([&sealed(other)[..]].into_iter());
    }
    // loose pieces one after the other, as they were put before
    let loose = [&good.record[..], &good.ram, &good.store].concat();
    let first = [
        &good.record[1..9],
        &good.record[13..],
        &good.ram,
        &good.store,
    ]
    .concat();
    all_refused([&loose[..], &first, &loose[1..]].into_iter());
}
