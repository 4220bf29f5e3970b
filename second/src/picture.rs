//! From light to shade: the sensor's filters, the dithering matrix and the tiles.
//!
//! A store has for each pixel the value 0 to 255 that step 3 has before 128 is subtracted.

use crate::lent::check_frame;
use crate::refusal::Refusal;
use crate::sizes::{FRAME_BYTES, REGISTERS, SENSOR_WIDTH};
use std::ops::Range;

/// Pixels in a row of the picture.
pub const PICTURE_WIDTH: usize = SENSOR_WIDTH;
/// Rows of the picture.
pub const PICTURE_HEIGHT: usize = 112;
/// Pixels of the picture.
pub const PIXELS: usize = PICTURE_WIDTH * PICTURE_HEIGHT;
/// Where the picture lies in RAM bank 0.
pub const PLATE_OFFSET: usize = 0x100;
/// Bytes of the picture: two bits a pixel.
pub const PLATE_BYTES: usize = PIXELS / 4;

/// Where its bytes are in RAM.
pub(crate) const PLATE_AREA: Range<usize> = PLATE_OFFSET..PLATE_OFFSET + PLATE_BYTES;
/// The sensor row that is picture row 0.
pub(crate) const FIRST_ROW: usize = 8;
/// The first register of the matrix.
pub(crate) const MATRIX: usize = 6;

/// The bytes of a picture, as they lie in RAM bank 0 from offset 100h.
pub type Plate = [u8; PLATE_BYTES];

/// Pixels that share two bytes of a tile, and rows of one.
pub(crate) const OCTET: usize = 8;
/// Bytes of a tile of 8 by 8 pixels.
pub(crate) const TILE: usize = 16;
/// Bytes of the tiles beside each other.
const TILE_ROW: usize = TILE * PICTURE_WIDTH / OCTET;
/// Edge ratios in quarters: 50, 75, 100, 125, 200, 300, 400 and 500 per cent.
const RATIOS: [i16; 8] = [2, 3, 4, 5, 8, 12, 16, 20];
/// Fewer pixels than this are drawn one by one: a row is worked out as a whole, which takes as long.
const FEW: usize = 12;

/// The whole picture of an image under the registers taken.
pub fn picture(image: &[u8], registers: &[u8; REGISTERS]) -> Result<Plate, Refusal> {
    check_frame(image)?;
    let mut store = [0; FRAME_BYTES];
    light(&mut store, image, registers);
    let mut plate = [0; PLATE_BYTES];
    draw(&mut plate, &store, registers, 0..PIXELS);
    Ok(plate)
}

/// Steps 1 to 3 before 128 is subtracted, for every pixel of an image.
pub(crate) fn light(store: &mut [u8], image: &[u8], registers: &[u8; REGISTERS]) {
    let exposure = u32::from(u16::from_be_bytes([registers[2], registers[3]]));
    let flip = if registers[4] & 8 != 0 { 255 } else { 0 };
    for (lit, &v) in store.iter_mut().zip(image) {
        // The product is taken in the upper half of 32 bits to divide by 256.
        let exposed = (u32::from(adapt(v) << 8) * exposure) >> 16;
        *lit = (exposed as u16).min(255) as u8 ^ flip;
    }
}

/// Step 1: the sensor's narrower range.
fn adapt(v: u8) -> u16 {
    (128 + (i16::from(v) - 128) * 5 / 8) as u16
}

/// Draws a run of picture pixels, counted row by row, and touches no other bit.
pub(crate) fn draw(
    plate: &mut [u8],
    store: &[u8],
    registers: &[u8; REGISTERS],
    pixels: Range<usize>,
) {
    if pixels.is_empty() {
        return;
    }
    let sensor = Sensor::new(store, registers);
    if pixels.len() < FEW {
        pixels.for_each(|pixel| sensor.draw_pixel(plate, pixel));
    } else {
        sensor.draw_run(plate, pixels);
    }
}

/// The values 0 to 255 of all picture pixels, before the matrix makes shades of them.
pub(crate) fn values(pixels: &mut [u8], store: &[u8], registers: &[u8; REGISTERS]) {
    Sensor::new(store, registers).each_row(0..PICTURE_HEIGHT, |y, values| {
        let row = &mut pixels[y * PICTURE_WIDTH..][..PICTURE_WIDTH];
        for (pixel, &value) in row.iter_mut().zip(values) {
            *pixel = raised(value);
        }
    });
}

/// What step 4 looks at besides the pixel itself.
#[derive(Clone, Copy, PartialEq, Eq)]
enum Edge {
    /// Nothing: the pixel as it is.
    Plain,
    /// Nothing, and the pixel counts as 0.
    Blank,
    /// West and east.
    Across,
    /// North and south.
    Down,
    /// All four.
    Both,
}

/// What step 5 does.
#[derive(Clone, Copy, PartialEq, Eq)]
enum OneD {
    /// The pixel as it is, for the positive setting and where there is no 1-D filter.
    Plain,
    Negative,
    /// The pixel less the one a row below.
    Difference,
}

/// A row of the store.
type Lit = [u8; SENSOR_WIDTH];
/// A row of signed values, which eight bits hold from step 4 on.
type Row = [i8; SENSOR_WIDTH];
/// The two bytes of each octet of a row.
type Planes = [[u8; 2]; PICTURE_WIDTH / OCTET];

/// A store and what the registers taken ask to be made of it.
struct Sensor<'a> {
    store: &'a [u8; FRAME_BYTES],
    edge: Edge,
    /// What a pixel weighs in quarters: its part in the edge value, and 4 if it is added to that.
    centre: i16,
    /// What each of its neighbours weighs, to be subtracted.
    ratio: i16,
    /// What is subtracted besides for lit values to count from 128, where they don't cancel out.
    level: i16,
    one_d: OneD,
    matrix: &'a [u8],
}

impl<'a> Sensor<'a> {
    #[inline(always)]
    fn new(store: &'a [u8], registers: &'a [u8; REGISTERS]) -> Self {
        let mode = registers[1] >> 5 << 1 | registers[4] >> 7;
        let (edge, enhances) = match mode {
            0x1 => (Edge::Blank, false),
            0x2 => (Edge::Across, true),
            0x3 => (Edge::Across, false),
            0xC => (Edge::Down, true),
            0xD => (Edge::Down, false),
            0xE => (Edge::Both, true),
            0xF => (Edge::Both, false),
            _ => (Edge::Plain, false),
        };
        let one_d = match (mode, registers[0] >> 1 & 3) {
            (0 | 2 | 3, 0) => OneD::Negative,
            (0 | 2 | 3, 2 | 3) => OneD::Difference,
            _ => OneD::Plain,
        };
        let ratio = RATIOS[usize::from(registers[4] >> 4 & 7)];
        let neighbours = if edge == Edge::Both { 4 } else { 2 };
        let itself = if enhances { 4 } else { 0 };
        Sensor {
            store: store
                .try_into()
                .expect("the store's size is checked before"),
            edge,
            centre: itself + neighbours * ratio,
            ratio,
            level: 128 * itself,
            one_d,
            matrix: &registers[MATRIX..],
        }
    }

    /// Draws a run of picture pixels by whole rows, and the parts of rows it begins and ends with.
    #[inline(never)]
    fn draw_run(&self, plate: &mut [u8], pixels: Range<usize>) {
        let (first, left) = (pixels.start / PICTURE_WIDTH, pixels.start % PICTURE_WIDTH);
        let (last, right) = (pixels.end / PICTURE_WIDTH, pixels.end % PICTURE_WIDTH);
        if first == last {
            return self.draw_part(plate, first, left..right);
        }
        if left > 0 {
            self.draw_part(plate, first, left..PICTURE_WIDTH);
        }
        self.draw_rows(plate, first + usize::from(left > 0)..last);
        if right > 0 {
            self.draw_part(plate, last, 0..right);
        }
    }

    /// Draws whole picture rows.
    fn draw_rows(&self, plate: &mut [u8], rows: Range<usize>) {
        let thresholds: [_; 4] = std::array::from_fn(|y| Thresholds::new(self.matrix, y));
        self.each_row(rows, |y, values| {
            let planes = thresholds[y % 4].shade(values);
            let tiles = plate[place(0, y)..].chunks_mut(TILE);
            for (tile, plane) in tiles.zip(planes) {
                tile[..2].copy_from_slice(&plane);
            }
        });
    }

    /// Draws some columns of a picture row.
    fn draw_part(&self, plate: &mut [u8], y: usize, columns: Range<usize>) {
        let thresholds = Thresholds::new(self.matrix, y);
        self.each_row(y..y + 1, |y, values| {
            let planes = thresholds.shade(values);
            let octets = columns.start / OCTET..columns.end.div_ceil(OCTET);
            for (octet, plane) in octets.clone().zip(&planes[octets]) {
                let left = columns.start.saturating_sub(octet * OCTET);
                let right = (columns.end - octet * OCTET).min(OCTET);
                let mask = (0xFF_u8 >> left) & (0xFF00_u16 >> right) as u8;
                put(plate, place(octet * OCTET, y), mask, *plane);
            }
        });
    }

    /// Draws one picture pixel.
    #[inline(always)]
    fn draw_pixel(&self, plate: &mut [u8], pixel: usize) {
        let (x, y) = (pixel % PICTURE_WIDTH, pixel / PICTURE_WIDTH);
        let value = self.value(x, y + FIRST_ROW);
        let element = &self.matrix[3 * (4 * (y % 4) + x % 4)..][..3];
        let value = i16::from(raised(value));
        let [black, dark, light] =
            [0, 1, 2].map(|level| ((value - i16::from(element[level])) >> 15) as u8);
        let shade = [black | (!dark & light), black | dark];
        put(plate, place(x, y), 0x80 >> (x % OCTET), shade);
    }

    /// Hands on some picture rows as signed values, each sensor row filtered once.
    fn each_row(&self, rows: Range<usize>, mut each: impl FnMut(usize, &Row)) {
        let mut here = [0; SENSOR_WIDTH];
        let mut below = [0; SENSOR_WIDTH];
        if self.one_d == OneD::Difference {
            self.filter(&mut below, rows.start + FIRST_ROW);
        }
        for y in rows {
            let row = y + FIRST_ROW;
            match self.one_d {
                OneD::Plain => self.filter(&mut here, row),
                OneD::Negative => {
                    self.filter(&mut here, row);
                    here.iter_mut().for_each(|p| *p = 0_i8.saturating_sub(*p));
                }
                OneD::Difference => {
                    here = below;
                    self.filter(&mut below, row + 1);
                    let pairs = here.iter_mut().zip(&below);
                    pairs.for_each(|(p, s)| *p = p.saturating_sub(*s));
                }
            }
            each(y, &here);
        }
    }

    /// A row of the sensor; none that is asked for lies outside 7 to 121.
    fn row(&self, row: usize) -> &Lit {
        let bytes = self.store[row * SENSOR_WIDTH..].first_chunk();
        bytes.expect("the row lies in the store")
    }

    /// Step 4 for a sensor row.
    fn filter(&self, out: &mut Row, row: usize) {
        let (n, p, s) = (self.row(row - 1), self.row(row), self.row(row + 1));
        let beside = |[w, e]: [&Lit; 2], x: usize| i16::from(w[x]) + i16::from(e[x]);
        match self.edge {
            Edge::Plain => (0..SENSOR_WIDTH).for_each(|x| out[x] = lowered(p[x])),
            Edge::Blank => out.fill(0),
            Edge::Across => {
                let wide = widened(p);
                let sides = sides(&wide);
                self.sharpen(out, p, |x| beside(sides, x));
            }
            Edge::Down => self.sharpen(out, p, |x| beside([n, s], x)),
            Edge::Both => {
                let wide = widened(p);
                let sides = sides(&wide);
                self.sharpen(out, p, |x| beside([n, s], x) + beside(sides, x));
            }
        }
    }

    /// Weighs a row's pixels against the sums of those around them.
    #[inline(always)]
    fn sharpen(&self, out: &mut Row, p: &Lit, around: impl Fn(usize) -> i16) {
        for x in 0..SENSOR_WIDTH {
            out[x] = self.weighed(p[x], around(x));
        }
    }

    /// An edge value in quarters, cut toward zero and held to eight bits; the quarters are at most
    /// 1,020 × 20 + 512, and no part of their sum is more than 16 bits hold.
    #[inline(always)]
    fn weighed(&self, p: u8, around: i16) -> i8 {
        let quarters = self.centre * i16::from(p) - self.level - self.ratio * around;
        (quarters / 4).clamp(-128, 127) as i8
    }

    /// Steps 4 and 5 for one sensor pixel.
    #[inline(always)]
    fn value(&self, x: usize, row: usize) -> i8 {
        let value = self.filtered(x, row);
        match self.one_d {
            OneD::Plain => value,
            OneD::Negative => 0_i8.saturating_sub(value),
            OneD::Difference => value.saturating_sub(self.filtered(x, row + 1)),
        }
    }

    /// Step 4 for one sensor pixel; beyond the first and last column these are repeated.
    #[inline(always)]
    fn filtered(&self, x: usize, row: usize) -> i8 {
        let place = row * SENSOR_WIDTH + x;
        let both = |a: usize, b: usize| i16::from(self.store[a]) + i16::from(self.store[b]);
        let (west, east) = (x > 0, x < SENSOR_WIDTH - 1);
        let across = || both(place - usize::from(west), place + usize::from(east));
        let down = || both(place - SENSOR_WIDTH, place + SENSOR_WIDTH);
        let p = self.store[place];
        match self.edge {
            Edge::Plain => lowered(p),
            Edge::Blank => 0,
            Edge::Across => self.weighed(p, across()),
            Edge::Down => self.weighed(p, down()),
            Edge::Both => self.weighed(p, across() + down()),
        }
    }
}

/// A row with its edge pixels repeated: column x is at x + 1.
fn widened(row: &Lit) -> [u8; SENSOR_WIDTH + 2] {
    let mut wide = [0; SENSOR_WIDTH + 2];
    wide[1..=SENSOR_WIDTH].copy_from_slice(row);
    (wide[0], wide[SENSOR_WIDTH + 1]) = (row[0], row[SENSOR_WIDTH - 1]);
    wide
}

/// The pixels west and east of each column of such a row.
fn sides(wide: &[u8; SENSOR_WIDTH + 2]) -> [&Lit; 2] {
    [0, 2].map(|first| wide[first..].first_chunk().expect("it is wide enough"))
}

/// A value less 128.
fn lowered(value: u8) -> i8 {
    (value ^ 0x80) as i8
}

/// A value with 128 added again.
fn raised(value: i8) -> u8 {
    value as u8 ^ 0x80
}

/// Where in the plate the two bytes lie that have a pixel.
fn place(x: usize, y: usize) -> usize {
    TILE * (PICTURE_WIDTH / OCTET * (y / OCTET) + x / OCTET) + 2 * (y % OCTET)
}

/// Where the sixteen tiles lie that have some of a picture row.
pub(crate) fn tile_row(y: usize) -> Range<usize> {
    let first = TILE_ROW * (y / OCTET);
    first..first + TILE_ROW
}

/// Puts the bits of a mask into two bytes of the plate.
fn put(plate: &mut [u8], place: usize, mask: u8, plane: [u8; 2]) {
    for (byte, plane) in plate[place..][..2].iter_mut().zip(plane) {
        *byte = *byte & !mask | plane & mask;
    }
}

/// Step 6: the low and the high bit of a value's shade, found without a branch.
#[inline(always)]
fn shade(value: i8, l: i8, m: i8, h: i8) -> [bool; 2] {
    let (black, dark, light) = (value < l, value < m, value < h);
    [black | (!dark & light), black | dark]
}

/// Columns that are shaded at once: a few times the matrix's four.
const SPAN: usize = 16;

/// The three values of a matrix row, less 128 to meet signed values.
struct Thresholds([[i8; SPAN]; 3]);

impl Thresholds {
    fn new(matrix: &[u8], y: usize) -> Self {
        let row = &matrix[12 * (y % 4)..][..12];
        let spread = |level| std::array::from_fn(|x| lowered(row[3 * (x % 4) + level]));
        Thresholds([0, 1, 2].map(spread))
    }

    /// The low and the high bits of the shades of each octet.
    fn shade(&self, row: &Row) -> Planes {
        let Thresholds([l, m, h]) = self;
        let mut bits = [[0; SENSOR_WIDTH]; 2];
        for first in (0..SENSOR_WIDTH).step_by(SPAN) {
            for i in 0..SPAN {
                let [low, high] = shade(row[first + i], l[i], m[i], h[i]);
                bits[0][first + i] = low.into();
                bits[1][first + i] = high.into();
            }
        }
        std::array::from_fn(|octet| {
            bits.each_ref().map(|bits| {
                let bits = bits[octet * OCTET..].first_chunk();
                gather(u64::from_le_bytes(
                    *bits.expect("the octet lies in the row"),
                ))
            })
        })
    }
}

/// Eight bytes of 0 or 1 as the bits of a byte, the lowest as bit 7.
pub(crate) fn gather(bits: u64) -> u8 {
    // Byte x goes to bit 63 - x, and no two products meet.
    const PLACES: u64 = 0x8040_2010_0804_0201;
    (bits.wrapping_mul(PLACES) >> 56) as u8
}
