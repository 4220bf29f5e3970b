//! Saves, a battery's or Gulxinett's own, and the plates in them.

use crate::failure::Failure;
use crate::input::Input;
use gulxinett::{
    Cartridge, Refusal, PICTURE_BYTES, PICTURE_OFFSET, RAM_BANK, SAVE_BYTES, SAVE_MAGIC,
};

/// What a save is, for help and refusals.
pub const KINDS: &str = "a save is a battery save, 8,192 bytes times 1, 2, 4, 8 or 16, or a whole save of Gulxinett, which begins with GXSAVE";

/// What a plate is.
pub const PLATES: &str = "a plate is a Netpbm file P5 of 128 by 112 pixels with the greys 255, 170, 85 and 0 alone, as 'plate' writes it";

/// Bytes of the largest save.
const LARGEST: usize = SAVE_BYTES + 16 * RAM_BANK;

/// A save that was read.
pub struct Save {
    pub cartridge: Cartridge,
    /// It is a battery's: the RAM as it is, and nothing else.
    pub battery: bool,
}

impl Save {
    /// The save of a file.
    pub fn of(input: &Input) -> Result<Save, Failure> {
        // one byte more shows that a file is larger
        let file = input.at_most(LARGEST as u64 + 1)?;
        Save::from_bytes(file).map_err(|refusal| Failure::refused(input, refusal, KINDS))
    }

    /// What begins as a save of Gulxinett is one, or none; anything else is a battery's.
    fn from_bytes(file: Vec<u8>) -> Result<Save, Refusal> {
        let battery = !file.starts_with(SAVE_MAGIC);
        let cartridge = if battery {
            Cartridge::from_battery(file)
        } else {
            Cartridge::restore(&file)
        };
        Ok(Save {
            cartridge: cartridge?,
            battery,
        })
    }

    /// Its file as it stands now, of the kind that it was.
    pub fn file(&self) -> Vec<u8> {
        if self.battery {
            self.cartridge.battery().to_vec()
        } else {
            self.cartridge.save()
        }
    }
}

/// The picture area of a plate's file, or of a save.
pub fn area(input: &Input) -> Result<[u8; PICTURE_BYTES], Failure> {
    // one byte more shows that a file is larger
    let file = input.at_most(LARGEST as u64 + 1)?;
    let mut cartridge = Cartridge::default();
    // no save has the length of a plate
    if let Err(refusal) = cartridge.place(&file) {
        let refused = if file.starts_with(b"P5") {
            Failure::refused(input, refusal, PLATES)
        } else {
            Failure::refused(input, Refusal::File, &format!("{PLATES}; {KINDS}"))
        };
        cartridge = Save::from_bytes(file).map_err(|_| refused)?.cartridge;
    }
    let area = cartridge.area().try_into();
    Ok(area.expect("the area has its size"))
}

/// The plate of a picture area.
pub fn plate_of(area: &[u8; PICTURE_BYTES]) -> Vec<u8> {
    let mut ram = vec![0; RAM_BANK];
    ram[PICTURE_OFFSET..PICTURE_OFFSET + PICTURE_BYTES].copy_from_slice(area);
    let cartridge = Cartridge::from_battery(ram).expect("one bank is a RAM");
    cartridge.plate()
}
