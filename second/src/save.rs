//! State, RAM and frame store of one moment as one file.

use crate::crc::crc32;
use crate::lent::{check_frame, check_ram};
use crate::refusal::Refusal;
use crate::sizes::{FRAME_BYTES, RAM_BANK};
use crate::state::{State, RECORD_BYTES};

/// What every save starts with.
const MAGIC: &[u8] = b"GXSAVE";
/// Where the record begins, after the magic and the number of banks.
const RECORD: usize = MAGIC.len() + 1;
/// Where the RAM begins.
const RAM: usize = RECORD + RECORD_BYTES;
/// Bytes of the checksum at the end.
const CHECKSUM: usize = 4;

/// Bytes of a save besides its RAM.
pub const SAVE_BYTES: usize = RAM + FRAME_BYTES + CHECKSUM;

/// The three that a save has.
struct Parts<'a> {
    record: &'a [u8],
    ram: &'a [u8],
    store: &'a [u8],
}

/// Writes a save into a lent buffer, whose later bytes stay; returns its length.
pub fn save(record: &[u8], ram: &[u8], store: &[u8], buffer: &mut [u8]) -> Result<usize, Refusal> {
    check_record(record)?;
    check_ram(ram)?;
    check_frame(store)?;
    let length = SAVE_BYTES + ram.len();
    let file = buffer.get_mut(..length).ok_or(Refusal::Buffer)?;
    let (summed, checksum) = file.split_at_mut(length - CHECKSUM);
    summed[..MAGIC.len()].copy_from_slice(MAGIC);
    summed[MAGIC.len()] = (ram.len() / RAM_BANK) as u8;
    summed[RECORD..RAM].copy_from_slice(record);
    summed[RAM..RAM + ram.len()].copy_from_slice(ram);
    summed[RAM + ram.len()..].copy_from_slice(store);
    checksum.copy_from_slice(&crc32(summed).to_le_bytes());
    Ok(length)
}

/// Reads a save into the three; of the record only the length is looked at before.
pub fn restore(
    file: &[u8],
    record: &mut [u8],
    ram: &mut [u8],
    store: &mut [u8],
) -> Result<(), Refusal> {
    if record.len() != RECORD_BYTES {
        return Err(Refusal::State);
    }
    check_ram(ram)?;
    let parts = parts_of(file);
    if parts.as_ref().is_some_and(|p| p.ram.len() != ram.len()) {
        return Err(Refusal::Ram);
    }
    check_frame(store)?;
    let parts = parts.ok_or(Refusal::File)?;
    record.copy_from_slice(parts.record);
    ram.copy_from_slice(parts.ram);
    store.copy_from_slice(parts.store);
    Ok(())
}

/// Refuses bytes that are no record, or one that can't exist.
fn check_record(record: &[u8]) -> Result<(), Refusal> {
    State::from_bytes(record).ok_or(Refusal::State)?.check()
}

/// The parts of a file that is a save; none of any other.
fn parts_of(file: &[u8]) -> Option<Parts<'_>> {
    let ram_bytes = file.len().checked_sub(SAVE_BYTES)?;
    let (summed, checksum) = file.split_at(file.len() - CHECKSUM);
    let (head, memory) = summed.split_at(RAM);
    let (ram, store) = memory.split_at(ram_bytes);
    let (front, record) = head.split_at(RECORD);
    check_ram(ram).ok()?;
    check_record(record).ok()?;
    let banks = (ram_bytes / RAM_BANK) as u8;
    let whole =
        front.strip_prefix(MAGIC) == Some(&[banks]) && checksum == crc32(summed).to_le_bytes();
    whole.then_some(Parts { record, ram, store })
}
