//! Colour files, whole and damaged, beside the grammar of their header spelt out.

use super::random::Random;
use crate::{import, Refusal};
use std::collections::BTreeSet;

const BODY: usize = 49_152;
const FRAME: usize = 16_384;
/// What the image holds before.
const BEFORE: u8 = 0xA5;

/// A piece of the grammar.
enum Rule {
    One(fn(u8) -> bool),
    Word(&'static str),
    All(Vec<Rule>),
    Either(Vec<Rule>),
    Any(Box<Rule>),
}

impl Rule {
    /// Every place where the piece can end if it starts at a place.
    fn ends(&self, text: &[u8], from: usize) -> BTreeSet<usize> {
        match self {
            Rule::One(fits) => match text.get(from) {
                Some(&byte) if fits(byte) => BTreeSet::from([from + 1]),
                _ => BTreeSet::new(),
            },
            Rule::Word(word) => match text[from..].starts_with(word.as_bytes()) {
                true => BTreeSet::from([from + word.len()]),
                false => BTreeSet::new(),
            },
            Rule::All(rules) => rules.iter().fold(BTreeSet::from([from]), |places, rule| {
                places
                    .into_iter()
                    .flat_map(|place| rule.ends(text, place))
                    .collect()
            }),
            Rule::Either(rules) => rules
                .iter()
                .flat_map(|rule| rule.ends(text, from))
                .collect(),
            Rule::Any(rule) => {
                let (mut ends, mut new) = (BTreeSet::new(), vec![from]);
                while let Some(place) = new.pop() {
                    if ends.insert(place) {
                        new.extend(rule.ends(text, place));
                    }
                }
                ends
            }
        }
    }
}

fn white() -> Rule {
    Rule::One(|byte| [b' ', b'\t', b'\n', 0x0B, 0x0C, b'\r'].contains(&byte))
}

/// White space, one byte or more, with any number of comments after the first byte.
fn gap() -> Rule {
    let comment = Rule::All(vec![
        Rule::Word("#"),
        Rule::Any(Box::new(Rule::One(|byte| byte != b'\n' && byte != b'\r'))),
        Rule::One(|byte| byte == b'\n' || byte == b'\r'),
    ]);
    let more = Rule::Any(Box::new(Rule::Either(vec![white(), comment])));
    Rule::All(vec![white(), more])
}

fn header() -> Rule {
    Rule::All(vec![
        Rule::Word("P6"),
        gap(),
        Rule::Word("128"),
        gap(),
        Rule::Word("128"),
        gap(),
        Rule::Word("255"),
        white(),
    ])
}

/// Whether a file keeps all the rules; a header that ends beyond 256 bytes is never looked for.
fn fits(header: &Rule, file: &[u8]) -> bool {
    header
        .ends(&file[..file.len().min(256)], 0)
        .into_iter()
        .any(|end| file.len() - end == BODY)
}

/// Imports a file and sees that a refused one leaves the image as it was.
fn accepted(file: &[u8]) -> bool {
    let mut image = vec![BEFORE; FRAME];
    match import(&mut image, file) {
        Ok(()) => {
            let body = &file[file.len() - BODY..];
            let grey = |rgb: &[u8]| (2 * rgb[0] as u32 + 5 * rgb[1] as u32 + rgb[2] as u32) / 8;
            assert!(image.iter().map(|&v| v as u32).eq(body.chunks(3).map(grey)));
            true
        }
        Err(refusal) => {
            assert_eq!(refusal, Refusal::File);
            assert!(image == vec![BEFORE; FRAME]);
            false
        }
    }
}

/// A header with a body of noise, longer or shorter by so much.
fn file(header: &[u8], more: i32) -> Vec<u8> {
    let mut file = header.to_vec();
    let body = (BODY as i32 + more) as usize;
    file.extend((0..body).map(|i| (i * 7 + i / 256) as u8));
    file
}

#[test]
fn headers_by_hand() {
    let grammar = header();
    for (header, good) in [
        ("P6\n128 128\n255\n", true),
        ("P6 128 128 255 ", true),
        ("P6\t128\x0B128\x0C255\r", true),
        ("P6\r\n128 128\r\n255\n", true),
        ("P6 \t\n\x0B\x0C\r128  128\n\n255\t", true),
        ("P6\n# one\n128 # two\r128 #three\n#four\n255\n", true),
        ("P6 #\n128 128 255\n", true),
        ("P6 ##128 128 255\n128 128 255\n", true),
        ("P6\n#\x00\x7F\n128\n128\n255\n", true),
        ("P6 # no end 128 128 255 ", false),
        ("P6#before white space\n128 128 255\n", false),
        ("P6 128#\n128 255\n", false),
        ("P6 128 128#\n 255\n", false),
        ("P6 12#\n8 128 255\n", false),
        ("P6 128 128 255#\n", false),
        ("P6 128 128 255 #\n", false),
        ("P6 128 128 255\r\n", false),
        ("P6 128 128 255", false),
        ("P6128 128 255\n", false),
        ("P6 128128 255\n", false),
        ("P6 128 128255\n", false),
        ("P6 0128 128 255\n", false),
        ("P6 128 +128 255\n", false),
        ("P6 128 128 0255\n", false),
        ("P6 128 128 65535\n", false),
        ("P6 128 128 254\n", false),
        ("P6 127 128 255\n", false),
        ("P6 128 129 255\n", false),
        ("P6 1280 128 255\n", false),
        ("P6 128 1280 255\n", false),
        ("P6 128 128 2550\n", false),
        ("P6 128 128 255\x00", false),
        ("P6\x00128 128 255\n", false),
        ("P6\u{85}128 128 255\n", false),
        ("P6 128 128\n", false),
        ("P5 128 128 255\n", false),
        ("p6 128 128 255\n", false),
        (" P6 128 128 255\n", false),
        ("# c\nP6 128 128 255\n", false),
        ("P 6 128 128 255\n", false),
        ("P6", false),
        ("", false),
    ] {
        let file = file(header.as_bytes(), 0);
        assert_eq!(accepted(&file), good, "{header:?}");
        assert_eq!(fits(&grammar, &file), good, "{header:?}");
    }
}

#[test]
fn white_space_is_six_bytes() {
    for byte in 0..=255 {
        let white = [9, 10, 11, 12, 13, 32].contains(&byte);
        for place in [2, 6, 10, 14] {
            let mut header = *b"P6 128 128 255 ";
            header[place] = byte;
            assert_eq!(accepted(&file(&header, 0)), white, "{byte} at {place}");
        }
        // After a first white space byte, nothing but white space and comments may come.
        let header = [b"P6 ", &[byte][..], b"128 128 255 "].concat();
        assert_eq!(accepted(&file(&header, 0)), white, "{byte}");
        // A comment may have any byte, and ends at LF or CR.
        let header = [b"P6 #", &[byte][..], b"128 128 255\n128 128 255 "].concat();
        let goes_on = ![b'\n', b'\r'].contains(&byte);
        assert_eq!(accepted(&file(&header, 0)), goes_on, "{byte}");
    }
}

#[test]
fn lengths() {
    let good = b"P6\n128 128\n255\n";
    for more in -300..=300 {
        assert_eq!(accepted(&file(good, more)), more == 0, "{more}");
    }
    for length in 0..=good.len() {
        assert!(!accepted(&good[..length]));
    }
    // The header is at most 256 bytes, be it long by a comment or by spaces.
    for length in 200..400_usize {
        let comment = [b"P6 #", &vec![b'x'; length - 17][..], b"\n128 128 255 "].concat();
        let spaces = [&vec![b' '; length - 14][..], b"128 128 255 "].concat();
        let spaces = [b"P6", &spaces[..]].concat();
        for header in [comment, spaces] {
            assert_eq!(header.len(), length);
            assert_eq!(accepted(&file(&header, 0)), length <= 256, "{length}");
        }
    }
}

#[test]
fn the_image_first() {
    let good = file(b"P6\n128 128\n255\n", 0);
    for size in [0, 1, FRAME - 1, FRAME + 1, 2 * FRAME] {
        let mut image = vec![BEFORE; size];
        assert_eq!(import(&mut image, &good), Err(Refusal::Frame));
        assert_eq!(import(&mut image, b""), Err(Refusal::Frame));
        assert!(image == vec![BEFORE; size]);
    }
}

#[test]
fn colours() {
    for (rgb, v) in [
        ([0, 0, 0], 0),
        ([255, 255, 255], 255),
        ([255, 0, 0], 63),
        ([0, 255, 0], 159),
        ([0, 0, 255], 31),
        ([1, 1, 0], 0),
        ([1, 1, 1], 1),
        ([0, 0, 7], 0),
        ([3, 0, 2], 1),
    ] {
        let mut file = b"P6\n128 128\n255\n".to_vec();
        file.extend(rgb.repeat(FRAME));
        let mut image = vec![BEFORE; FRAME];
        assert_eq!(import(&mut image, &file), Ok(()));
        assert!(image == vec![v; FRAME], "{rgb:?}");
    }
    // Every pixel goes to its own place.
    let mut good = file(b"P6\n128 128\n255\n", 0);
    let mut random = Random::new(13);
    good[15..].copy_from_slice(&random.bytes(BODY));
    assert!(accepted(&good));
}

/// A gap, mostly good.
fn random_gap(random: &mut Random) -> Vec<u8> {
    let mut gap = Vec::new();
    if random.below(8) > 0 {
        gap.push(b" \t\n\x0B\x0C\r"[random.below(6) as usize]);
    }
    for _ in 0..random.below(5) {
        match random.below(8) {
            0 | 1 => {
                gap.push(b'#');
                let length = match random.below(6) {
                    0 => random.below(250),
                    _ => random.below(12),
                };
                gap.extend((0..length).map(|_| b"x#0128 \t55"[random.below(10) as usize]));
                gap.push(b"\n\r"[random.below(2) as usize]);
            }
            _ => gap.push(b" \t\n\x0B\x0C\r"[random.below(6) as usize]),
        }
    }
    gap
}

/// Changes, adds, takes away or doubles some bytes.
fn damage(random: &mut Random, header: &mut Vec<u8>) {
    let place = random.below(header.len() as u64) as usize;
    let byte = match random.below(3) {
        0 => random.byte(),
        _ => b"P6 128 255#\n\r\t\x0B\x0C"[random.below(16) as usize],
    };
    match random.below(5) {
        0 => header[place] = byte,
        1 => header.insert(place, byte),
        2 => drop(header.remove(place)),
        3 => header.truncate(place),
        _ => {
            let end = (place + random.below(9) as usize).min(header.len());
            let piece = header[place..end].to_vec();
            header.splice(place..place, piece);
        }
    }
}

#[test]
fn random_headers() {
    let (mut random, grammar) = (Random::new(14), header());
    let mut good = 0;
    for _ in 0..20_000 {
        let mut header = b"P6".to_vec();
        for number in [b"128", b"128", b"255"] {
            header.extend(random_gap(&mut random));
            header.extend(number);
        }
        header.push(b"\n \t#"[random.below(4) as usize]);
        for _ in 0..random.below(3) {
            if !header.is_empty() {
                damage(&mut random, &mut header);
            }
        }
        let more = match random.below(8) {
            0 => random.below(7) as i32 - 3,
            _ => 0,
        };
        let mut file = file(&header, more);
        // What comes after may look like header.
        file[header.len()..][..2].copy_from_slice(match random.below(3) {
            0 => b"# ",
            1 => b"\n5",
            _ => b"xy",
        });
        let fit = fits(&grammar, &file);
        assert_eq!(accepted(&file), fit, "{}", header.escape_ascii());
        good += u32::from(fit);
    }
    assert!((3_000..15_000).contains(&good), "{good}");
}
