//! The recorder: every call made, refused ones too, and every row that changed, as lines; and scripts salvaged.

use gulxinett::{
    bytes, picture, salvage, Cartridge, Refusal, Salvaged, FRAME_BYTES, LINE_BYTES, ROW_BYTES,
    SCRIPT_BYTES,
};

/// The lines of some rows of an image.
fn row_lines(image: &[u8], rows: impl IntoIterator<Item = usize>) -> String {
    let digits = |row: usize| {
        let bytes = &image[ROW_BYTES * row..ROW_BYTES * (row + 1)];
        bytes.iter().map(|byte| format!("{byte:02X}"))
    };
    let line = |row| format!("04{row:02X}{}\n", digits(row).collect::<String>());
    rows.into_iter().map(line).collect()
}

fn text(cartridge: &Cartridge) -> String {
    String::from_utf8(cartridge.recording().to_vec()).expect("a script is digits and LF")
}

#[test]
fn every_call_made_and_every_row_that_changed() {
    let mut cartridge = Cartridge::default();
    cartridge.read(0).unwrap();
    assert_eq!(text(&cartridge), "");
    cartridge.record();
    cartridge.write(0x4000, 0x10).unwrap();
    assert_eq!(cartridge.read(0x8ABC), Err(Refusal::Address));
    assert_eq!(cartridge.write(0xFEDC, 0xBA), Err(Refusal::Address));
    cartridge.tick(0xDEAD_BEEF).unwrap();
    cartridge.record();
    cartridge.reset();
    let mut due = String::from("02400010\n018ABC\n02FEDCBA\n03DEADBEEF\n00\n");
    assert_eq!(text(&cartridge), due);
    assert_eq!(cartridge.lend(&[0; 5]), Err(Refusal::Frame));
    cartridge.inspect().unwrap();
    cartridge.picture().unwrap();
    assert_eq!(text(&cartridge), due);
    let mut image = vec![0; FRAME_BYTES];
    cartridge.lend(&image).unwrap();
    cartridge.lend(&image).unwrap();
    due += &row_lines(&image, 0..128);
    assert_eq!(text(&cartridge), due);
    (image[5 * ROW_BYTES + 127], image[127 * ROW_BYTES]) = (9, 0xAB);
    cartridge.lend(&image).unwrap();
    assert_eq!(text(&cartridge), due + &row_lines(&image, [5, 127]));
}

/// A colour photograph under a header, and its image, worked out here.
fn photograph(header: &str) -> (Vec<u8>, Vec<u8>) {
    let pixels: Vec<u8> = (0..3 * FRAME_BYTES)
        .map(|i| (i * 7 + i / 256) as u8)
        .collect();
    let value = |colour: &[u8]| {
        let [r, g, b] = [0, 1, 2].map(|place| u16::from(colour[place]));
        ((2 * r + 5 * g + b) / 8) as u8
    };
    let image = pixels.chunks_exact(3).map(value).collect();
    ([header.as_bytes(), &pixels].concat(), image)
}

#[test]
fn photographs_lent_are_the_rows_that_changed() {
    let mut cartridge = Cartridge::default();
    cartridge.write(0x4000, 0x10).unwrap();
    cartridge.write(0xA003, 0x80).unwrap();
    for place in 6..54 {
        let value = 0x40 + 0x20 * (place % 3) + place;
        cartridge.write(0xA000 + place, value as u8).unwrap();
    }
    let black = cartridge.picture();
    cartridge.record();
    let (mut file, mut image) = photograph("P6\n# a scan\n128 128\n255\n");
    cartridge.lend_photo(&file).unwrap();
    let registers = &cartridge.state().registers;
    assert!(cartridge.picture() == picture(&image, registers));
    assert!(cartridge.picture() != black);
    let mut due = row_lines(&image, 0..128);
    assert_eq!(text(&cartridge), due);
    let (last, grey) = (file.len() - 3, !image[FRAME_BYTES - 1]);
    file[last..].fill(grey);
    image[FRAME_BYTES - 1] = grey;
    cartridge.lend_photo(&file).unwrap();
    due += &row_lines(&image, [127]);
    assert_eq!(text(&cartridge), due);
    let before = cartridge.clone();
    for header in [
        "",
        "P6#\n128 128 255\n",
        "P6\n0128 128\n255\n",
        "P5\n128 128\n255\n",
    ] {
        let (none, _) = photograph(header);
        assert_eq!(cartridge.lend_photo(&none), Err(Refusal::File));
    }
    for none in [&[], &file[1..], &file[..last], &vec![0; 10_000_000]] {
        assert_eq!(cartridge.lend_photo(none), Err(Refusal::File));
    }
    assert!(cartridge == before);
}

#[test]
fn images_for_photographs_that_are_refused() {
    let (file, _) = photograph("P6 128 128 255 ");
    for length in [0, FRAME_BYTES - 1, FRAME_BYTES + 1] {
        let mut image = vec![0xA5; length];
        for file in [&file[..], &[]] {
            let answer = bytes::import_photo(file, &mut image).result();
            assert_eq!(answer, Err(Refusal::Frame));
        }
        assert!(image == vec![0xA5; length]);
    }
}

#[test]
fn an_image_that_a_script_does_not_begin_with_is_told_before_a_write() {
    let black = vec![0; FRAME_BYTES];
    let image: Vec<u8> = (0..FRAME_BYTES).map(|place| (place * 7) as u8).collect();
    let restored = Cartridge::restore(&Cartridge::default().save()).unwrap();
    let mut lent = Cartridge::default();
    lent.lend(&image).unwrap();
    for (mut cartridge, image) in [(restored, black), (lent, image)] {
        cartridge.record();
        cartridge.tick(1).unwrap();
        cartridge.write(0, 0).unwrap();
        cartridge.write(0, 1).unwrap();
        cartridge.lend(&image).unwrap();
        let rows = row_lines(&image, 0..128);
        assert_eq!(
            text(&cartridge),
            format!("0300000001\n{rows}02000000\n02000001\n")
        );
    }
}

#[test]
fn lines_that_are_refused() {
    let mut room = [0xA5; LINE_BYTES];
    let row = [0; ROW_BYTES];
    let refused = |answer: bytes::Answer| answer.result().unwrap_err();
    assert_eq!(
        refused(bytes::record_row(0x80, &row, &mut room)),
        Refusal::Line
    );
    assert_eq!(
        refused(bytes::record_row(0, &row[1..], &mut [])),
        Refusal::Line
    );
    assert_eq!(
        refused(bytes::record_row(0, &row, &mut room[1..])),
        Refusal::Room
    );
    assert_eq!(refused(bytes::record_reset(&mut room[..2])), Refusal::Room);
    assert_eq!(room, [0xA5; LINE_BYTES]);
    assert_eq!(bytes::record_row(0x7F, &row, &mut room).result(), Ok(261));
}

/// A script must be salvaged so.
fn salvaged(script: &str, text: &str, report: &[u8]) {
    let due = Salvaged {
        text: text.into(),
        report: report.into(),
    };
    assert_eq!(salvage(script.as_bytes()), Ok(due), "{script:?}");
}

#[test]
fn scripts_with_broken_lines_and_twice() {
    salvaged("", "", &[]);
    salvaged("\n", "", &[1]);
    salvaged("00", "00\n", &[0]);
    salvaged("00\nxx\n01a000\n\n01A000", "00\n01A000\n", &[0, 1, 1, 1, 0]);
    salvaged("00\n01A000\n00\n01A000", "00\n01A000\n", &[0, 0, 2, 2]);
    // the later halves are dropped, until none is left
    salvaged("00\n00\n00\n00\n", "00\n", &[0, 2, 2, 2]);
    salvaged("00\n00\n00\n", "00\n00\n00\n", &[0, 0, 0]);
    // halves that don't start with reset are no copies of a script
    salvaged("018000\n018000\n", "018000\n018000\n", &[0, 0]);
}

#[test]
fn recordings_uploaded_twice() -> Result<(), Refusal> {
    let mut cartridge = Cartridge::default();
    cartridge.record();
    cartridge.reset();
    cartridge.lend(&[0x5A; FRAME_BYTES][..])?;
    cartridge.write(0x4000, 0x10)?;
    cartridge.tick(5)?;
    let recording = cartridge.recording();
    assert!(recording.len() > SCRIPT_BYTES);
    assert_eq!(salvage(recording), Err(Refusal::Script));
    // a row that broke off, and a last LF that was lost
    let (some, rest) = recording.split_at(3 + 59 * LINE_BYTES);
    let twice = [some, &rest[..100], b"\n", &some[..some.len() - 1]].concat();
    let due = Salvaged {
        text: some.to_vec(),
        report: [&[0; 60][..], &[1], &[2; 60]].concat(),
    };
    assert_eq!(salvage(&twice), Ok(due.clone()));
    let once = Salvaged {
        report: vec![0; 60],
        ..due.clone()
    };
    assert_eq!(salvage(&due.text), Ok(once));
    Ok(())
}

#[test]
fn scripts_of_the_most_bytes() {
    let (empty, resets) = ([b'\n'; SCRIPT_BYTES + 1], b"00\n".repeat(8_192));
    let due = Salvaged {
        text: vec![],
        report: vec![1; SCRIPT_BYTES],
    };
    assert_eq!(salvage(&empty[1..]), Ok(due));
    assert_eq!(salvage(&empty), Err(Refusal::Script));
    // 13 halvings
    let due = Salvaged {
        text: b"00\n".to_vec(),
        report: [&[0][..], &[2; 8_191]].concat(),
    };
    assert_eq!(salvage(&resets), Ok(due));
}

#[test]
fn salvages_that_are_refused() {
    let clean = |script: &[u8], text: &mut [u8], report: &mut [u8]| {
        bytes::salvage(script, text, report).result()
    };
    let script = b"00\n01A000\nxx\n00\n01A000";
    let (mut text, mut report) = ([0xA5; 11], [0xA5; 6]);
    let long = [b'\n'; SCRIPT_BYTES + 1];
    assert_eq!(clean(&long, &mut [], &mut []), Err(Refusal::Script));
    assert_eq!(clean(&long, &mut text, &mut report), Err(Refusal::Script));
    assert_eq!(
        clean(script, &mut text[..9], &mut report),
        Err(Refusal::Room)
    );
    assert_eq!(
        clean(script, &mut text, &mut report[..4]),
        Err(Refusal::Room)
    );
    assert_eq!((text, report), ([0xA5; 11], [0xA5; 6]));
    let written = clean(script, &mut text, &mut report);
    assert_eq!(written, Ok(5 * 65_536 + 10));
    assert_eq!(text, *b"00\n01A000\n\xA5");
    assert_eq!(report, [0, 0, 1, 2, 2, 0xA5]);
}
