//! The save file: every truncation and every changed bit is refused, and a file is there whole or not at all.

mod common;

use common::{begin, frame, registers};
use gulxinett::{
    bytes, picture, write_whole, Cartridge, Refusal, Whole, FRAME_BYTES, LAYOUT, PICTURE_BYTES,
    RAM_BANK, ROM_BANK, SAVE_BYTES, STATE_BYTES,
};
use std::fs;
use std::io::Write;
use std::path::PathBuf;
use std::process::{Command, Stdio};
use std::thread::sleep;
use std::time::Duration;

/// Bytes of a save of one bank.
const ONE_BANK: usize = SAVE_BYTES + RAM_BANK;
/// What lent memory holds before a call.
const HELD: u8 = 0xA5;
/// Damages tried.
const DAMAGES: usize = 10_000;

/// A small seeded generator, so that every run tries the same cases.
struct Random(u64);

impl Random {
    fn next(&mut self) -> u64 {
        self.0 ^= self.0 << 13;
        self.0 ^= self.0 >> 7;
        self.0 ^= self.0 << 17;
        self.0
    }

    fn below(&mut self, limit: usize) -> usize {
        self.next() as usize % limit
    }

    fn bytes(&mut self, length: usize) -> Vec<u8> {
        (0..length).map(|_| (self.next() >> 32) as u8).collect()
    }
}

/// A cartridge with a capture half way over a RAM full of anything.
fn half_way(banks: usize) -> Cartridge {
    let ram = Random(29).bytes(banks * RAM_BANK);
    let mut cartridge = Cartridge::from_battery(ram).unwrap();
    begin(&mut cartridge, 20_000);
    cartridge
}

/// CRC-32 bit by bit.
fn crc(bytes: &[u8]) -> u32 {
    !bytes.iter().fold(u32::MAX, |register, &byte| {
        (0..8).fold(register ^ u32::from(byte), |register, _| {
            (register >> 1) ^ ((register & 1) * 0xEDB8_8320)
        })
    })
}

/// State, RAM and frame store lent to a reading, which must be kept where a file is refused.
struct Lent {
    state: Vec<u8>,
    ram: Vec<u8>,
    store: Vec<u8>,
    kept: [Vec<u8>; 3],
}

impl Lent {
    fn new(state: usize, ram: usize, store: usize) -> Self {
        let [state, ram, store] = [state, ram, store].map(|length| vec![HELD; length]);
        let kept = [state.clone(), ram.clone(), store.clone()];
        Lent {
            state,
            ram,
            store,
            kept,
        }
    }

    /// Reads a file; the answer, and whether nothing was changed.
    fn restore(&mut self, file: &[u8]) -> (u64, bool) {
        let answer = bytes::restore(file, &mut self.state, &mut self.ram, &mut self.store).0;
        let [state, ram, store] = &self.kept;
        let kept = *state == self.state && *ram == self.ram && *store == self.store;
        (answer, kept)
    }
}

#[test]
fn a_file_goes_on_elsewhere() {
    for banks in [1, 2, 4, 8, 16] {
        let one = half_way(banks);
        let file = one.save();
        let mut other = Cartridge::restore(&file).unwrap();
        assert!(other.parts() == one.parts() && other.save() == file);
        other.tick(u32::MAX).unwrap();
        assert!(other.area() == picture(&frame(), &registers()).unwrap());
        assert!(other.battery().len() == banks * RAM_BANK);
        assert!(other.battery()[0x100..][..PICTURE_BYTES] == *other.area());
    }
    let mut rom = vec![0x5A; ROM_BANK];
    rom[0] = 0xA5;
    let mut other = Cartridge::restore_with(&half_way(1).save(), rom).unwrap();
    assert_eq!(other.read(0), Ok(0xA5));
    let refused = Cartridge::restore_with(&half_way(1).save(), vec![0; 5]);
    assert_eq!(refused.map(|_| ()), Err(Refusal::Rom));
}

#[test]
fn each_byte_of_a_file_stands_where_the_table_says() {
    for banks in [1, 2, 4, 8, 16] {
        let cartridge = half_way(banks);
        let (file, parts) = (cartridge.save(), cartridge.parts());
        let store = 128 + banks * RAM_BANK;
        assert_eq!(file.len(), SAVE_BYTES + banks * RAM_BANK);
        assert_eq!(&file[..6], b"GXSAVE");
        assert_eq!(&file[6..8], [banks as u8, LAYOUT]);
        assert_eq!(&file[7..128], parts.state);
        assert!(file[128..store] == parts.ram && file[store..store + FRAME_BYTES] == parts.store);
        assert_eq!(
            file[store + FRAME_BYTES..],
            crc(&file[..store + FRAME_BYTES]).to_le_bytes()
        );
    }
}

#[test]
fn every_truncation_and_every_changed_bit_is_refused() {
    let mut file = half_way(1).save();
    let mut lent = Lent::new(STATE_BYTES, RAM_BANK, FRAME_BYTES);
    for length in 0..ONE_BANK {
        assert_eq!(
            lent.restore(&file[..length]),
            (8 << 32, true),
            "{length} bytes"
        );
    }
    for bit in 0..8 * ONE_BANK {
        file[bit / 8] ^= 1 << (bit % 8);
        assert_eq!(lent.restore(&file), (8 << 32, true), "bit {bit}");
        file[bit / 8] ^= 1 << (bit % 8);
    }
    assert_eq!(lent.restore(&[&file[..], &[0]].concat()), (8 << 32, true));
    assert_eq!(lent.restore(&file), (0, false));
}

#[test]
fn damages_are_refused() {
    let mut random = Random(2929);
    let good = half_way(1).save();
    let mut lent = Lent::new(STATE_BYTES, RAM_BANK, FRAME_BYTES);
    let mut tried = 0;
    while tried < DAMAGES {
        let mut file = good.clone();
        let from = random.below(file.len());
        let to = (from + 1 + random.below(4_000)).min(file.len());
        match random.below(6) {
            // a hole, a tail of a file that was laid out and never filled, a piece gone, one twice, one of another file
            0 => file[from..to].fill(0),
            1 => file[from..].fill(0),
            2 => drop(file.drain(from..to)),
            3 => file.extend_from_within(from..to),
            4 => file[from..to].copy_from_slice(&random.bytes(to - from)),
            _ => (0..1 + random.below(9)).for_each(|_| {
                let bit = random.below(8 * good.len());
                file[bit / 8] ^= 1 << (bit % 8);
            }),
        }
        if file != good {
            assert_eq!(lent.restore(&file), (8 << 32, true));
            tried += 1;
        }
    }
}

#[test]
fn what_other_layouts_left_is_refused() {
    let parts = half_way(1).parts();
    let good = half_way(1).save();
    let mut lent = Lent::new(STATE_BYTES, RAM_BANK, FRAME_BYTES);
    for number in [1, 2] {
        let path = format!(
            "{}/../../tests/data/layout-{number}.state",
            env!("CARGO_MANIFEST_DIR")
        );
        let state = fs::read(path).unwrap();
        // loose pieces one after the other, and in a file of this kind with a right checksum
        let loose = [&state[..], &parts.ram, &parts.store].concat();
        let mut file = [&good[..7], &loose].concat();
        file.extend(crc(&file).to_le_bytes());
        for file in [&loose, &file] {
            assert_eq!(lent.restore(file), (8 << 32, true));
            assert_eq!(Cartridge::restore(file).map(|_| ()), Err(Refusal::File));
        }
    }
    // the loose pieces of this layout, and a file that is of the next
    let loose = [&parts.state[..], &parts.ram, &parts.store].concat();
    let mut next = good.clone();
    next[7] = LAYOUT + 1;
    let end = next.len() - 4;
    let checksum = crc(&next[..end]).to_le_bytes();
    next[end..].copy_from_slice(&checksum);
    for file in [&loose[..], &next, b"", b"GXSAVE"] {
        assert_eq!(lent.restore(file), (8 << 32, true));
        assert_eq!(Cartridge::restore(file).map(|_| ()), Err(Refusal::File));
    }
}

#[test]
fn the_lowest_refusal_is_given() {
    let good = half_way(2).save();
    let mut bad = good.clone();
    bad[9_000] ^= 4;
    for (file, is_save) in [(&good, true), (&bad, false)] {
        for state in [STATE_BYTES, STATE_BYTES + 1, 116, 0] {
            for ram in [2 * RAM_BANK, RAM_BANK, 16 * RAM_BANK, 3 * RAM_BANK, 0] {
                for store in [FRAME_BYTES, FRAME_BYTES - 1, 0] {
                    let allowed = [1, 2, 16].contains(&(ram / RAM_BANK));
                    let due = match (state, ram, store) {
                        _ if state != STATE_BYTES => 1,
                        _ if !allowed || is_save && ram != 2 * RAM_BANK => 3,
                        _ if store != FRAME_BYTES => 4,
                        _ if !is_save => 8,
                        _ => 0,
                    };
                    let answer = Lent::new(state, ram, store).restore(file);
                    assert_eq!(answer, (due << 32, due != 0), "{state} {ram} {store}");
                }
            }
        }
    }
    let parts = half_way(1).parts();
    let mut impossible = parts.state.clone();
    impossible[2] = 64;
    for (state, no_state) in [(&parts.state, false), (&impossible, true)] {
        for (ram, no_ram) in [(&parts.ram[..], false), (&parts.ram[1..], true)] {
            for (store, no_store) in [(&parts.store[..], false), (&parts.store[1..], true)] {
                for room in [0, ONE_BANK - 1, ONE_BANK, ONE_BANK + 9] {
                    let due = match room {
                        _ if no_state => 1 << 32,
                        _ if no_ram => 3 << 32,
                        _ if no_store => 4 << 32,
                        _ if room < ONE_BANK => 7 << 32,
                        _ => ONE_BANK as u64,
                    };
                    let mut out = vec![HELD; room];
                    assert_eq!(bytes::save(state, ram, store, &mut out).0, due);
                    let written = if due >> 32 == 0 { ONE_BANK } else { 0 };
                    assert!(out[written..].iter().all(|&byte| byte == HELD));
                }
            }
        }
    }
}

#[test]
fn a_battery_save_is_the_ram() {
    let ram = Random(131_072).bytes(16 * RAM_BANK);
    let cartridge = Cartridge::from_battery(ram.clone()).unwrap();
    assert!(cartridge.battery() == ram);
    let other = Cartridge::new(vec![0; ROM_BANK], cartridge.battery().to_vec()).unwrap();
    assert!(other.parts() == cartridge.parts());
    for length in [0, RAM_BANK + 1, 3 * RAM_BANK, 16 * RAM_BANK + 16] {
        let refused = Cartridge::from_battery(vec![0; length]).map(|_| ());
        assert_eq!(refused, Err(Refusal::Ram));
    }
}

/// A folder of this test alone.
fn folder(name: &str) -> PathBuf {
    let folder = std::env::temp_dir().join(format!("gulxinett-{name}-{}", std::process::id()));
    fs::create_dir_all(&folder).unwrap();
    folder
}

#[test]
fn a_file_is_written_whole_and_nothing_is_left_beside_it() {
    let folder = folder("whole");
    let path = folder.join("cartridge.save");
    for file in [half_way(1).save(), half_way(2).save(), Vec::new()] {
        write_whole(&path, &file).unwrap();
        assert!(fs::read(&path).unwrap() == file);
        assert_eq!(fs::read_dir(&folder).unwrap().count(), 1);
    }
    // over a folder no file can be put: nothing is left, and the folder stays
    fs::create_dir(folder.join("taken")).unwrap();
    assert!(write_whole(folder.join("taken"), b"new").is_err());
    assert!(write_whole(folder.join("none").join("file"), b"new").is_err());
    assert!(write_whole("/", b"new").is_err());
    assert_eq!(fs::read_dir(&folder).unwrap().count(), 2);
    fs::remove_dir_all(folder).unwrap();
}

#[cfg(unix)]
#[test]
fn links_stay_and_pipes_are_written_straight() {
    use std::os::unix::fs::{symlink, FileTypeExt, PermissionsExt};
    let folder = folder("links");
    let [path, link, nowhere, pipe] = ["file", "link", "nowhere", "pipe"].map(|it| folder.join(it));
    fs::write(&path, b"old").unwrap();
    fs::set_permissions(&path, fs::Permissions::from_mode(0o640)).unwrap();
    symlink("file", &link).unwrap();
    symlink("none", &nowhere).unwrap();
    write_whole(&link, b"new").unwrap();
    assert!(fs::symlink_metadata(&link).unwrap().is_symlink());
    assert_eq!(fs::read(&path).unwrap(), b"new");
    let mode = fs::metadata(&path).unwrap().permissions().mode();
    assert_eq!(mode & 0o777, 0o640);
    assert!(write_whole(&nowhere, b"new").is_err());
    assert!(fs::symlink_metadata(&nowhere).unwrap().is_symlink());
    let made = std::process::Command::new("mkfifo").arg(&pipe).status();
    assert!(made.unwrap().success());
    let reader = std::thread::spawn({
        let pipe = pipe.clone();
        move || fs::read(pipe).unwrap()
    });
    write_whole(&pipe, &[7; 100_000]).unwrap();
    assert!(reader.join().unwrap() == [7; 100_000]);
    assert!(fs::metadata(&pipe).unwrap().file_type().is_fifo());
    write_whole("/dev/null", b"new").unwrap();
    assert_eq!(fs::read_dir(&folder).unwrap().count(), 4);
    fs::remove_dir_all(folder).unwrap();
}

#[test]
fn a_file_in_pieces_is_there_once_it_is_finished() {
    let folder = folder("pieces");
    let path = folder.join("plate.pgm");
    let count = || fs::read_dir(&folder).unwrap().count();
    fs::write(&path, b"old").unwrap();
    for finished in [false, true] {
        let mut whole = Whole::beside(&path).unwrap();
        whole.write_all(b"new ").unwrap();
        whole.write_all(b"file").unwrap();
        assert_eq!((fs::read(&path).unwrap(), count()), (b"old".to_vec(), 2));
        if finished {
            whole.finish().unwrap();
        } else {
            drop(whole);
        }
        let due: &[u8] = if finished { b"new file" } else { b"old" };
        assert_eq!((fs::read(&path).unwrap(), count()), (due.to_vec(), 1));
    }
    fs::remove_dir_all(folder).unwrap();
}

/// Where a writer that is to be killed writes, if this process is one.
const WRITER: &str = "GULXINETT_TEST_WRITER";

/// Not a test by itself: what the next one starts and kills.
#[test]
fn writer() {
    let Some(path) = std::env::var_os(WRITER) else {
        return;
    };
    let files = [half_way(1).save(), half_way(16).save()];
    loop {
        for file in &files {
            write_whole(&path, file).unwrap();
        }
    }
}

#[test]
fn a_kill_leaves_the_old_or_the_new() {
    let folder = folder("killed");
    let path = folder.join("cartridge.save");
    let files = [half_way(1).save(), half_way(16).save()];
    let mut random = Random(30);
    write_whole(&path, &files[0]).unwrap();
    for _ in 0..30 {
        let mut writer = Command::new(std::env::current_exe().unwrap())
            .args(["--exact", "writer"])
            .env(WRITER, &path)
            .stdout(Stdio::null())
            .spawn()
            .unwrap();
        sleep(Duration::from_millis(20 + random.below(40) as u64));
        writer.kill().unwrap();
        writer.wait().unwrap();
        assert!(files.contains(&fs::read(&path).unwrap()));
    }
    fs::remove_dir_all(folder).unwrap();
}
