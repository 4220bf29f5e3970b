//! Files that are colour photographs, nearly so or not at all, read into the image.

use crate::call::Call;
use crate::files::photo::{self, file, PIXELS};
use crate::random::Random;
use crate::sides::Side;
use crate::sweep::{lowest, Tally, FRAMES};

/// The most bytes of a header.
const LONGEST: usize = 256;
/// Bytes of a file far too long.
const HUGE: usize = 10_000_000;
/// Random files compared.
const RANDOM: usize = 20_000;

/// Headers whose every byte is changed in every way, and which are cut everywhere.
const HEADERS: [&[u8]; 5] = [
    b"P6\n128 128\n255\n",
    b"P6 128\t128\x0B255\x0C",
    b"P6\r\n128\r\n128\r\n255\r",
    b"P6\n# scanned\n128 128\n# of 3\r#\n 255\n",
    b"P6 \t\n#1\n#2 128\r\n 128 #no\n255 ",
];

/// Headers that are one, and headers that are none.
const GOOD: [&[u8]; 7] = [
    b"P6 128 128 255 ",
    b"P6\n#\n128\n#\r128\n#128 128 255\n255\n",
    b"P6\t\r\n\x0B\x0C 128\x0B128\x0C255\x0B",
    b"P6 # P5 # 1\n\n128 128 255\t",
    b"P6\n# \x00\xFF\x80\n128 128 255\n",
    b"P6\n128 #one\r#two\n128\r\n255\r",
    b"P6\n128\n128\n255\n",
];
const BAD: [&[u8]; 34] = [
    b"",
    b"P6",
    b"P6#\n128 128 255\n",
    b"P6# 128 128 255\n",
    b"P6 # never ends 128 128 255 ",
    b"P6\n128 128\n255\r\n",
    b"P6\n128 128\n255\n\n",
    b"P6\n128 128\n255",
    b"P6\n128 128\n255#\n",
    b"P6\n128 128\n255 #\n",
    b"P6\n0128 128\n255\n",
    b"P6\n128 0128\n255\n",
    b"P6\n128 128\n0255\n",
    b"P6\n+128 128\n255\n",
    b"P6\n128 +128\n255\n",
    b"P6\n128 128\n+255\n",
    b"P6\n-128 128\n255\n",
    b"P6\n128 128\n65535\n",
    b"P6\n128 128\n254\n",
    b"P6\n128 128\n256\n",
    b"P6\n127 128\n255\n",
    b"P6\n128 127\n255\n",
    b"P6\n1280 128\n255\n",
    b"P6\n128.0 128\n255\n",
    b"P6\n12#\n8 128\n255\n",
    b"P6\n128#\n128\n255\n",
    b"P6\n128128 255\n",
    b"P6128 128 255\n",
    b"P5\n128 128\n255\n",
    b"P3\n128 128\n255\n",
    b"p6\n128 128\n255\n",
    b" P6\n128 128\n255\n",
    b"#\nP6\n128 128\n255\n",
    b"P6\n128\x00128\n255\n",
];

/// What is compared, and how many of the files were read.
struct Photos<'a> {
    tally: &'a mut Tally,
    side: Side,
    read: u64,
}

/// Compares headers good and bad, changed, cut and random, and images and files of other lengths; how
/// many files were read.
pub fn compare(tally: &mut Tally, random: &mut Random) -> u64 {
    let mut side = Side::of_noise(0, 0, 6);
    side.store.clear();
    let mut photos = Photos {
        tally,
        side,
        read: 0,
    };
    photos.named(random);
    photos.lengths_of_headers(random);
    photos.lengths_of_files(random);
    photos.images(random);
    HEADERS
        .iter()
        .for_each(|header| photos.changed(header, random));
    photos.cut(random);
    for _ in 0..RANDOM {
        photos.side.file = photo::random(random);
        photos.as_second();
    }
    photos.read
}

impl Photos<'_> {
    /// Imports the file on both sides, which must be refused so.
    fn import(&mut self, due: Option<u64>) {
        self.read += u64::from(due.is_none());
        self.tally.compare(&self.side, &Call::Import, due);
    }

    /// Imports the file on both sides, whatever the second program says of it.
    fn as_second(&mut self) {
        let read = second::import(&mut self.side.image.clone(), &self.side.file);
        self.import(read.err().map(|refusal| refusal.number().into()));
    }

    /// Imports a file with this header.
    fn headed(&mut self, header: &[u8], random: &mut Random, refused: bool) {
        self.side.file = file(header, PIXELS, random);
        self.import(lowest(&[(8, refused)]));
    }

    fn named(&mut self, random: &mut Random) {
        GOOD.iter()
            .for_each(|header| self.headed(header, random, false));
        BAD.iter()
            .for_each(|header| self.headed(header, random, true));
    }

    /// Headers of 255, 256 and 257 bytes, long by white space or by a comment, in each of the gaps.
    fn lengths_of_headers(&mut self, random: &mut Random) {
        for length in [200, 254, LONGEST - 1, LONGEST, LONGEST + 1, 258, 1_000] {
            for place in [3, 7, 11] {
                for filler in [b' ', b'\n', b'#'] {
                    let mut header = b"P6\n128\n128\n255\n".to_vec();
                    let more = length - header.len();
                    let mut long = vec![filler; more];
                    long[more - 1] = b'\n';
                    header.splice(place..place, long);
                    self.headed(&header, random, length > LONGEST);
                }
            }
        }
    }

    /// Files of other lengths than their header asks for, and far too long ones.
    fn lengths_of_files(&mut self, random: &mut Random) {
        for pixels in [0, 1, 16_384, PIXELS - 1, PIXELS, PIXELS + 1, 2 * PIXELS] {
            self.side.file = file(HEADERS[0], pixels, random);
            self.import(lowest(&[(8, pixels != PIXELS)]));
        }
        for (start, filler) in [
            ("P6 128 128 255 ", 0),
            ("P6 ", b' '),
            ("P6 ", b'#'),
            ("", 0),
        ] {
            self.side.file = start.into();
            self.side.file.resize(HUGE, filler);
            self.import(Some(8));
        }
    }

    /// Images of other lengths: 4 comes before 8, whatever is wrong with the file.
    fn images(&mut self, random: &mut Random) {
        let good = self.side.image.clone();
        for (length, no_image) in FRAMES {
            for (header, pixels, no_file) in [
                (HEADERS[0], PIXELS, false),
                (HEADERS[0], PIXELS - 1, true),
                (HEADERS[0], PIXELS + 1, true),
                (HEADERS[0], 2 * PIXELS, true),
                (BAD[0], 0, true),
                (BAD[0], PIXELS, true),
                (BAD[2], PIXELS, true),
            ] {
                self.side.image.resize(length, 0x3C);
                self.side.file = file(header, pixels, random);
                self.import(lowest(&[(4, no_image), (8, no_file)]));
            }
        }
        self.side.image = good;
    }

    /// Every byte of a header made every other; a byte left out and put in; the header cut.
    fn changed(&mut self, header: &[u8], random: &mut Random) {
        let whole = file(header, PIXELS, random);
        for place in 0..header.len() {
            self.side.file = whole.clone();
            for value in 0..=255 {
                self.side.file[place] = value;
                self.as_second();
            }
            self.side.file = whole.clone();
            self.side.file.remove(place);
            self.as_second();
            for value in *b" \n\r#0128" {
                self.side.file = whole.clone();
                self.side.file.insert(place, value);
                self.as_second();
            }
            self.side.file = [&header[..place], &whole[header.len()..]].concat();
            self.import(Some(8));
        }
    }

    /// A file cut at every length.
    fn cut(&mut self, random: &mut Random) {
        let whole = file(HEADERS[3], PIXELS, random);
        self.side.file = whole;
        self.import(None);
        while self.side.file.pop().is_some() {
            self.import(Some(8));
        }
    }
}
