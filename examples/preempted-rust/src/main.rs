//! A capture that is stopped half way, put in a file, and finished by another process.
//!
//! `preempted-rust begin FILE` starts a capture, ticks half of it, stops it and saves everything;
//! `preempted-rust finish FILE` loads it, lends another image, changes the registers and resumes.
//! The finished picture must be the one of the first image under the first registers.

#![forbid(unsafe_code)]

use gulxinett::{
    picture, write_whole, Cartridge, FRAME_BYTES, PICTURE_BYTES, RAM_BANK, REGISTERS, ROM_BANK,
};
use std::error::Error;
use std::process::ExitCode;

const TRIGGER: u16 = 0xA000;
const TOTAL: u32 = 45_246;
const HALF: u32 = TOTAL / 2;

type Outcome<T> = Result<T, Box<dyn Error>>;

fn load(path: &str) -> Outcome<Cartridge> {
    Ok(Cartridge::restore(&std::fs::read(path)?)?)
}

fn save(cartridge: &Cartridge, path: &str) -> Outcome<()> {
    Ok(write_whole(path, &cartridge.save())?)
}

/// Writes registers 1 to 53, then register 0.
fn write_registers(cartridge: &mut Cartridge, registers: &[u8; REGISTERS]) -> Outcome<()> {
    for (address, value) in (TRIGGER..).zip(*registers).skip(1) {
        cartridge.write(address, value)?;
    }
    Ok(cartridge.write(TRIGGER, registers[0])?)
}

/// The first scene: rings of light around a corner.
fn first_image() -> Vec<u8> {
    (0..FRAME_BYTES)
        .map(|i| ((i % 128).pow(2) + (i / 128).pow(2)) / 40)
        .map(|v| v as u8)
        .collect()
}

/// The second scene: stripes.
fn second_image() -> Vec<u8> {
    (0..FRAME_BYTES)
        .map(|i| if i / 8 % 2 == 1 { 255 } else { 0 })
        .collect()
}

/// Horizontal enhancement at 75 per cent, exposure 0300h, a rising matrix.
fn first_registers() -> [u8; REGISTERS] {
    let mut registers = [0; REGISTERS];
    registers[..5].copy_from_slice(&[3, 0x20, 0x03, 0x00, 0x10]);
    for (element, values) in registers[6..].chunks_exact_mut(3).enumerate() {
        let least = 0x88 + 3 * element as u8;
        values.copy_from_slice(&[least, least + 0x18, least + 0x30]);
    }
    registers
}

fn second_registers() -> [u8; REGISTERS] {
    let mut registers = [0x55; REGISTERS];
    registers[0] = 7;
    registers
}

fn ensure(holds: bool, otherwise: &str) -> Outcome<()> {
    if holds {
        Ok(())
    } else {
        Err(otherwise.into())
    }
}

fn begin(path: &str) -> Outcome<()> {
    let mut cartridge = Cartridge::new(vec![0xFF; ROM_BANK], vec![0; RAM_BANK])?;
    let registers = first_registers();
    cartridge.lend(&first_image())?;
    cartridge.write(0x4000, 0x10)?;
    write_registers(&mut cartridge, &registers)?;
    ensure(
        cartridge.tick(HALF)? == HALF,
        "the capture did not run half way",
    )?;
    cartridge.write(TRIGGER, registers[0] & 6)?;
    ensure(cartridge.tick(1_000_000)? == 0, "a stopped capture ran on")?;
    save(&cartridge, path)?;
    println!("begin: a capture ran {HALF} of {TOTAL} cycles and was stopped");
    println!("begin: state, RAM and frame store saved");
    Ok(())
}

fn finish(path: &str) -> Outcome<()> {
    let mut cartridge = load(path)?;
    let wanted = picture(&first_image(), &first_registers())?;
    ensure(
        cartridge.area() != wanted,
        "the picture was whole before the capture ended",
    )?;
    let (image, registers) = (second_image(), second_registers());
    cartridge.lend(&image)?;
    write_registers(&mut cartridge, &registers)?;
    println!("finish: resumed with another image and other registers");
    let cycles = cartridge.tick(u32::MAX)?;
    println!("finish: the capture ended after {cycles} more cycles");
    ensure(
        cycles == TOTAL - HALF,
        "that is not the rest of the capture",
    )?;
    ensure(
        cartridge.area() == wanted,
        "the picture is not that of the first image under the first registers",
    )?;
    let unwanted = picture(&image, &registers)?;
    ensure(
        cartridge.area() != unwanted,
        "the picture is that of the second image",
    )?;
    println!(
        "finish: all {PICTURE_BYTES} bytes are those of the first image under the first registers"
    );
    Ok(())
}

fn main() -> ExitCode {
    let arguments: Vec<String> = std::env::args().skip(1).collect();
    let words: Vec<&str> = arguments.iter().map(String::as_str).collect();
    let outcome = match words[..] {
        ["begin", path] => begin(path),
        ["finish", path] => finish(path),
        _ => {
            eprintln!("usage: preempted-rust begin FILE | preempted-rust finish FILE");
            return ExitCode::from(2);
        }
    };
    match outcome {
        Ok(()) => ExitCode::SUCCESS,
        Err(reason) => {
            eprintln!("preempted-rust: {reason}");
            ExitCode::FAILURE
        }
    }
}
