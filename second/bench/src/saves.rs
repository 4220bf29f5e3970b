//! A save written and read, of the least and of the most RAM, with zlib's checksum of as many bytes beside it.

use crate::outside::Outside;
use crate::table::Table;
use crate::timing::{best, here, race, Effort};
use gulxinett::bytes;
use second::{State, FRAME_BYTES, RAM_BANK, RECORD_BYTES, SAVE_BYTES};
use std::hint::black_box;
use std::io;

/// Writes or reads a save with a number in it.
type Action = fn(&mut Lent, u32);

/// What is lent: the three, and a save of them, of each side's own layout.
struct Lent {
    record: [u8; RECORD_BYTES],
    ram: Vec<u8>,
    store: Vec<u8>,
    file: Vec<u8>,
}

impl Lent {
    fn new(banks: usize, record: [u8; RECORD_BYTES]) -> Self {
        let noise = |length: usize| (0..length).map(|place| (place * place / 7) as u8);
        let ram: Vec<u8> = noise(banks * RAM_BANK).collect();
        Lent {
            record,
            file: vec![0; SAVE_BYTES + ram.len()],
            ram,
            store: noise(FRAME_BYTES).collect(),
        }
    }
}

/// Times both on saves of one bank and of sixteen.
pub fn measure(effort: Effort, table: &mut Table, zlib: &mut Option<Outside>) -> io::Result<()> {
    for banks in [1, 16] {
        let pairs: [(&str, [Action; 2]); 2] = [
            ("save", [proved_save, second_save]),
            ("restore", [proved_restore, second_restore]),
        ];
        for (what, actions) in pairs {
            let what = format!("{what}, RAM banks: {banks}");
            compare(&what, banks, effort, actions, table, zlib)?;
        }
    }
    Ok(())
}

fn compare(
    what: &str,
    banks: usize,
    effort: Effort,
    [proved, second]: [Action; 2],
    table: &mut Table,
    zlib: &mut Option<Outside>,
) -> io::Result<()> {
    let mut record = [0; RECORD_BYTES];
    assert_eq!(bytes::reset(&mut record).0, 0);
    let mut archive = Lent::new(banks, record);
    let mut direct = Lent::new(banks, State::RESET.to_bytes());
    proved_save(&mut archive, 0);
    second_save(&mut direct, 0);
    let summed = SAVE_BYTES + banks * RAM_BANK - 4;
    let mut all = vec![
        here(|runs| repeat(proved, &mut archive, runs)),
        here(|runs| repeat(second, &mut direct, runs)),
    ];
    if let Some(zlib) = zlib {
        zlib.tell(&format!("length {summed}\n"))?;
        all.push(zlib.timed());
    }
    let times = race(effort, &mut all);
    table.add(what, &times[0], &times[1], None, None);
    if let Some(zlib) = times.get(2) {
        println!(
            "  zlib's crc32 of as many bytes: {:.2} us, {:.2} GB/s; proved / zlib {:.2}, second / zlib {:.2}",
            best(zlib) / 1e3,
            summed as f64 / best(zlib),
            best(&times[0]) / best(zlib),
            best(&times[1]) / best(zlib)
        );
    }
    Ok(())
}

fn repeat(action: Action, lent: &mut Lent, runs: u32) {
    for number in 0..runs {
        action(black_box(lent), number);
        black_box(&lent);
    }
}

fn proved_save(lent: &mut Lent, number: u32) {
    lent.ram[0x100] = number as u8;
    let answer = bytes::save(&lent.record, &lent.ram, &lent.store, &mut lent.file);
    assert_eq!(answer.0, lent.file.len() as u64);
}

fn second_save(lent: &mut Lent, number: u32) {
    lent.ram[0x100] = number as u8;
    let written = second::save(&lent.record, &lent.ram, &lent.store, &mut lent.file);
    assert_eq!(written, Ok(lent.file.len()));
}

fn proved_restore(lent: &mut Lent, number: u32) {
    lent.ram[0x100] = number as u8;
    let answer = bytes::restore(&lent.file, &mut lent.record, &mut lent.ram, &mut lent.store);
    assert_eq!(answer.0, 0);
}

fn second_restore(lent: &mut Lent, number: u32) {
    lent.ram[0x100] = number as u8;
    let read = second::restore(&lent.file, &mut lent.record, &mut lent.ram, &mut lent.store);
    assert_eq!(read, Ok(()));
}
