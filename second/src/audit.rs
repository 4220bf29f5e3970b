//! What became of the captures of a recording: a bus script played, with events in place of answers.

use crate::bus::landing;
use crate::crc::crc32;
use crate::grey::{export, GREY_FILE_BYTES};
use crate::picture::PLATE_AREA;
use crate::refusal::Refusal;
use crate::script::{digits, take_apart, Answer, Digits, Frame, Session};
use crate::sizes::RAM_BANK;

/// A recording played line by line, and what has to be remembered of it.
#[derive(Debug)]
pub struct Audit {
    session: Session,
    /// The RAM before the first line.
    first: Vec<u8>,
    /// Lines so far.
    lines: u64,
    /// The last line that lent a row, 0 if none has.
    row: u64,
    /// The checksum of the image, where it was asked for since the last row.
    image: Option<u32>,
    /// Of the capture that is held; of no meaning where none is.
    capture: Capture,
    totals: Totals,
}

/// What is noted of a capture while it is held.
#[derive(Debug, Default)]
struct Capture {
    serial: u16,
    cycles: u64,
    /// Bus writes that landed in the picture area, and the first and last line of these.
    writes: u64,
    first: u64,
    last: u64,
}

/// What the summary counts.
#[derive(Debug, Default)]
struct Totals {
    malformed: u64,
    refused: u64,
    captures: u64,
    whole: u64,
    touched: u64,
    dropped: u64,
}

impl Audit {
    /// A recording that begins as a session does.
    pub fn new() -> Self {
        Audit::of(Session::new())
    }

    /// A recording that begins with a battery save's RAM.
    pub fn with_ram(ram: Vec<u8>) -> Result<Self, Refusal> {
        Session::with_ram(ram).map(Audit::of)
    }

    fn of(session: Session) -> Self {
        Audit {
            first: session.ram.clone(),
            session,
            lines: 0,
            row: 0,
            image: None,
            capture: Capture::default(),
            totals: Totals::default(),
        }
    }

    /// Plays a line, its LF left out and none if it was too long, and appends its event, if it makes one.
    pub fn line(&mut self, line: Option<&[u8]>, out: &mut Vec<u8>) {
        self.lines += 1;
        let frame = line.and_then(take_apart).ok_or(Refusal::Line);
        match frame.and_then(|frame| self.play(frame, out)) {
            Ok(()) => {}
            // No frame is answered so.
            Err(Refusal::Line) => self.totals.malformed += 1,
            Err(_) => self.totals.refused += 1,
        }
    }

    /// Plays a frame; a refused one makes no event.
    fn play(&mut self, frame: Frame<&Digits>, out: &mut Vec<u8>) -> Result<(), Refusal> {
        match frame {
            Frame::Reset => {
                let held = self.session.state.held;
                self.session.play(frame)?;
                if held {
                    self.dropped(out);
                }
            }
            Frame::Read { .. } => {
                self.session.play(frame)?;
            }
            Frame::Write { address, value } => self.write(address, value, out)?,
            Frame::Tick { .. } => {
                let held = self.session.state.held;
                if let Answer::Cycles(cycles) = self.session.play(frame)? {
                    self.capture.cycles += u64::from(cycles);
                }
                if held && !self.session.state.held {
                    self.ended(out);
                }
            }
            Frame::Row { .. } => {
                self.session.play(frame)?;
                self.row = self.lines;
                self.image = None;
            }
        }
        Ok(())
    }

    /// Plays a write: a start, a stop, a resume, or one that lands.
    fn write(&mut self, address: u16, value: u8, out: &mut Vec<u8>) -> Result<(), Refusal> {
        let Session { state, ram, .. } = &self.session;
        let (held, running) = (state.held, state.running());
        let landed = if held {
            landing(state, ram, address)
        } else {
            None
        };
        self.session.play(Frame::Write { address, value })?;
        let state = &self.session.state;
        match (held, running, state.running()) {
            (false, _, _) if state.held => self.started(out),
            (true, true, false) => self.moved(" event stop serial ", out),
            (true, false, true) => self.moved(" event resume serial ", out),
            _ => {
                if let Some(place) = landed {
                    self.landed(place, value, out);
                }
            }
        }
        Ok(())
    }

    /// A capture has started.
    fn started(&mut self, out: &mut Vec<u8>) {
        let Session { state, image, .. } = &self.session;
        self.totals.captures += 1;
        self.capture = Capture {
            serial: state.started,
            ..Capture::default()
        };
        let image = *self.image.get_or_insert_with(|| crc32(image));
        self.event(" event start serial ", out);
        word(out, " image ");
        hex(out, &image.to_be_bytes());
        word(out, " row ");
        number(out, self.row);
        word(out, " registers ");
        hex(out, &state.taken);
        out.push(b'\n');
    }

    /// A capture stands still or runs again, or something else of which the cycles are told.
    fn moved(&self, event: &str, out: &mut Vec<u8>) {
        self.event(event, out);
        word(out, " cycles ");
        number(out, self.capture.cycles);
        out.push(b'\n');
    }

    /// A bus write has landed while a capture is held.
    fn landed(&mut self, place: usize, byte: u8, out: &mut Vec<u8>) {
        let inside = PLATE_AREA.contains(&place);
        if inside {
            let capture = &mut self.capture;
            capture.writes += 1;
            capture.last = self.lines;
            if capture.writes == 1 {
                capture.first = self.lines;
            }
        }
        self.event(" event write serial ", out);
        word(
            out,
            if inside {
                " area inside bank "
            } else {
                " area outside bank "
            },
        );
        bank(out, place / RAM_BANK);
        word(out, " offset ");
        offset(out, place % RAM_BANK);
        word(out, " byte ");
        hex(out, &[byte]);
        out.push(b'\n');
    }

    /// A capture has reached its end.
    fn ended(&mut self, out: &mut Vec<u8>) {
        let mut plate = [0; GREY_FILE_BYTES];
        export(&self.session.ram, &mut plate).expect("RAM and buffer have the right sizes");
        self.event(" event end serial ", out);
        word(out, " cycles ");
        number(out, self.capture.cycles);
        word(out, " plate ");
        hex(out, &crc32(&plate).to_be_bytes());
        let capture = &self.capture;
        if capture.writes == 0 {
            self.totals.whole += 1;
            word(out, " verdict whole");
        } else {
            self.totals.touched += 1;
            word(out, " verdict touched");
            pair(out, " writes ", capture.writes);
            pair(out, " first ", capture.first);
            pair(out, " last ", capture.last);
        }
        out.push(b'\n');
    }

    /// A reset has let go of the capture that was held.
    fn dropped(&mut self, out: &mut Vec<u8>) {
        self.totals.dropped += 1;
        self.moved(" event dropped serial ", out);
    }

    /// What an event about a capture begins with.
    fn event(&self, event: &str, out: &mut Vec<u8>) {
        pair(out, "line ", self.lines);
        pair(out, event, self.capture.serial.into());
    }

    /// Appends what is said at the end of the text.
    pub fn finish(&self, out: &mut Vec<u8>) {
        if self.session.state.held {
            self.moved(" event held serial ", out);
        }
        let mut unchanged = true;
        let banks = self.session.ram.chunks_exact(RAM_BANK);
        for (number, (now, first)) in banks.zip(self.first.chunks_exact(RAM_BANK)).enumerate() {
            unchanged &= !self.changed(number, now, first, out);
        }
        if unchanged {
            pair(out, "line ", self.lines);
            word(out, " event unchanged\n");
        }
        self.summary(out);
    }

    /// Appends the stretches of a bank that have changed, and says whether there is one.
    fn changed(&self, number: usize, now: &[u8], first: &[u8], out: &mut Vec<u8>) -> bool {
        let differs = |&offset: &usize| {
            now[offset] != first[offset] && !(number == 0 && PLATE_AREA.contains(&offset))
        };
        let mut place = 0;
        while let Some(from) = (place..RAM_BANK).find(differs) {
            let rest = (from..RAM_BANK).find(|offset| !differs(offset));
            place = rest.unwrap_or(RAM_BANK);
            pair(out, "line ", self.lines);
            word(out, " event changed bank ");
            bank(out, number);
            word(out, " from ");
            offset(out, from);
            word(out, " to ");
            offset(out, place - 1);
            out.push(b'\n');
        }
        place > 0
    }

    /// Appends the last line.
    fn summary(&self, out: &mut Vec<u8>) {
        let totals = &self.totals;
        pair(out, "line ", self.lines);
        word(out, " event summary");
        for (key, value) in [
            (" malformed ", totals.malformed),
            (" refused ", totals.refused),
            (" captures ", totals.captures),
            (" ended ", totals.whole + totals.touched),
            (" whole ", totals.whole),
            (" touched ", totals.touched),
            (" dropped ", totals.dropped),
            (" held ", self.session.state.held.into()),
        ] {
            pair(out, key, value);
        }
        out.push(b'\n');
    }
}

impl Default for Audit {
    fn default() -> Self {
        Audit::new()
    }
}

/// Appends words with the spaces around them.
fn word(out: &mut Vec<u8>, word: &str) {
    out.extend_from_slice(word.as_bytes());
}

/// Appends a key and its number.
fn pair(out: &mut Vec<u8>, key: &str, value: u64) {
    word(out, key);
    number(out, value);
}

/// Appends a number in decimal, without leading zeros.
fn number(out: &mut Vec<u8>, mut number: u64) {
    let mut digits = [0; 20];
    let mut first = digits.len();
    loop {
        first -= 1;
        digits[first] = b'0' + (number % 10) as u8;
        number /= 10;
        if number == 0 {
            return out.extend_from_slice(&digits[first..]);
        }
    }
}

/// Appends bytes, two digits each.
fn hex(out: &mut Vec<u8>, bytes: &[u8]) {
    bytes
        .iter()
        .for_each(|&byte| out.extend_from_slice(&digits(byte)));
}

/// Appends the number of a bank, one digit.
fn bank(out: &mut Vec<u8>, bank: usize) {
    out.push(digits(bank as u8)[1]);
}

/// Appends an offset in a bank, four digits.
fn offset(out: &mut Vec<u8>, offset: usize) {
    hex(out, &(offset as u16).to_be_bytes());
}
