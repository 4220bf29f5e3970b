//! What a history is made of.

use second::Frame;
use std::fmt;

/// Memory the caller lends.
#[derive(Clone, Copy, Debug, PartialEq, Eq)]
pub enum Lent {
    Rom,
    Ram,
    Store,
    Image,
}

/// One step of a history: a call on both sides, or a change to what both are lent.
#[derive(Clone, Debug)]
pub enum Call {
    Reset,
    Read {
        address: u16,
    },
    Write {
        address: u16,
        value: u8,
    },
    Tick {
        cycles: u32,
    },
    Inspect,
    /// The picture afresh of the image, or of the bytes that the frame store has, taken as one.
    Picture {
        of: Lent,
        registers: Box<[u8; 54]>,
    },
    /// A frame written as a line into so many bytes.
    Record {
        frame: Frame<Box<[u8]>>,
        room: usize,
    },
    /// The picture area as a file, into so many bytes.
    Export {
        room: usize,
    },
    /// The file lent, placed in the picture area.
    Place,
    /// The picture area as shades, into so many bytes.
    Shades {
        room: usize,
    },
    /// The readings before the dots as a file, into so many bytes.
    Readings {
        room: usize,
    },
    /// A light set and a level, without dithering unless plain is 0, and an exposure, none above FFFF.
    Choose {
        light: u8,
        level: u8,
        plain: u8,
        exposure: u32,
    },
    /// The file lent, read into the image.
    Import,
    /// The file lent, a script, salvaged into so many bytes, with a report into so many.
    Salvage {
        room: usize,
        report: usize,
    },
    /// State, RAM and frame store as a save, into so many bytes.
    Save {
        room: usize,
    },
    /// The file lent, read as a save into state, RAM and frame store.
    Restore,
    /// A plate judged row by row beside the picture of the image, or of the bytes that the frame store has, taken
    /// as one, into so many bytes.
    Judge {
        of: Lent,
        plate: Box<[u8; 3584]>,
        registers: Box<[u8; 54]>,
        room: usize,
    },
    /// A script line carried out, its answer into so many bytes.
    Step {
        line: Box<[u8]>,
        room: usize,
    },
    /// Another image is lent from here on.
    Image {
        kind: u8,
        seed: u64,
    },
    /// Another file, which may be a photograph, is lent from here on.
    Photo {
        seed: u64,
    },
    /// Another file, which may be a plate, is lent from here on.
    Plate {
        seed: u64,
    },
    /// Another file, which may be a script, is lent from here on.
    Script {
        seed: u64,
    },
    /// The picture area as it stands is the file lent from here on.
    Keep,
    /// The save of what there is now is the file lent from here on.
    KeepSave,
    /// The file lent is damaged.
    Damage {
        seed: u64,
    },
    /// Memory of another length is lent from here on.
    Lend {
        what: Lent,
        length: usize,
    },
    /// Other bytes stand for the state from here on.
    Put {
        record: Box<[u8]>,
    },
}

impl Call {
    /// Whether both sides are called, so that there is something to compare.
    pub fn is_call(&self) -> bool {
        !matches!(
            self,
            Call::Image { .. }
                | Call::Photo { .. }
                | Call::Plate { .. }
                | Call::Script { .. }
                | Call::Keep
                | Call::KeepSave
                | Call::Damage { .. }
                | Call::Lend { .. }
                | Call::Put { .. }
        )
    }
}

pub fn hex(bytes: &[u8]) -> String {
    bytes.iter().map(|byte| format!("{byte:02X}")).collect()
}

impl fmt::Display for Call {
    /// Script frames where the script has them, words elsewhere.
    fn fmt(&self, f: &mut fmt::Formatter<'_>) -> fmt::Result {
        match self {
            Call::Reset => write!(f, "00"),
            Call::Read { address } => write!(f, "01{address:04X}"),
            Call::Write { address, value } => write!(f, "02{address:04X}{value:02X}"),
            Call::Tick { cycles } => write!(f, "03{cycles:08X}"),
            Call::Inspect => write!(f, "inspect"),
            Call::Picture { of, registers } => {
                write!(f, "picture of {of:?} under {}", hex(&registers[..]))
            }
            Call::Record { frame, room } => write!(f, "{frame:?} recorded in {room} bytes"),
            Call::Export { room } => write!(f, "export in {room} bytes"),
            Call::Place => write!(f, "placing of the file lent"),
            Call::Shades { room } => write!(f, "shades in {room} bytes"),
            Call::Readings { room } => write!(f, "readings in {room} bytes"),
            Call::Choose {
                light,
                level,
                plain,
                exposure,
            } => write!(
                f,
                "choose light set {light}, level {level}, plain {plain}, exposure {exposure:X}h"
            ),
            Call::Import => write!(f, "import of the file lent"),
            Call::Salvage { room, report } => {
                write!(f, "salvage in {room} bytes, report in {report}")
            }
            Call::Save { room } => write!(f, "save in {room} bytes"),
            Call::Restore => write!(f, "restoring of the file lent"),
            Call::Judge {
                of,
                plate,
                registers,
                room,
            } => write!(
                f,
                "judging of plate {} beside {of:?} under {} in {room} bytes",
                hex(&plate[..]),
                hex(&registers[..])
            ),
            Call::Step { line, room } => {
                write!(f, "step '{}' in {room} bytes", line.escape_ascii())
            }
            Call::Image { kind, seed } => write!(f, "image of kind {kind}, seed {seed}"),
            Call::Photo { seed } => write!(f, "photograph of seed {seed}"),
            Call::Plate { seed } => write!(f, "plate of seed {seed}"),
            Call::Script { seed } => write!(f, "script of seed {seed}"),
            Call::Keep => write!(f, "the picture area kept as the file lent"),
            Call::KeepSave => write!(f, "the save kept as the file lent"),
            Call::Damage { seed } => write!(f, "damage of seed {seed} to the file lent"),
            Call::Lend { what, length } => write!(f, "lend {what:?} of {length} bytes"),
            Call::Put { record } => write!(f, "state {}", hex(record)),
        }
    }
}
