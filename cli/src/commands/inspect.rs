//! `inspect`: what stands in a save, and whether a matrix rises.

use super::Command;
use crate::failure::Failure;
use crate::output;
use crate::registers::{self, registers};
use crate::saves::Save;
use crate::words::Words;
use gulxinett::{inspect, reset, State, RAM_BANK, REGISTERS};
use std::fmt::Write;

pub const COMMAND: Command = Command {
    name: "inspect",
    about: "what stands in a save, and whether a matrix rises",
    help: &[
        "\
usage: gulxinett inspect [SAVE]
       gulxinett inspect --registers HEX|CHOICE

Prints what stands in a save, a key and its value to a line: its kind and its banks of RAM; of a save of
Gulxinett also the captures started and ended, the capture held with its cycles and the registers it took, the
registers as last written, and the first element of their matrix whose three values don't rise or stay level.
A battery save is RAM alone and says nothing of these. With --registers it looks at a matrix alone.

options:
  --registers WORD    the registers, or a choice of the desk, in place of a save

",
        registers::NAMED,
        "
Exit status: 0 done, 1 a file that is refused, or can't be read or written, 2 wrong words.

example:
  gulxinett inspect worker.save
",
    ],
    options: &["--registers"],
    failed: 1,
    run,
};

fn run(words: Words) -> Result<u8, Failure> {
    let Some(named) = words.text("--registers")? else {
        return output::say(&of_save(&Save::of(&words.file()?)?)?);
    };
    if !words.files().is_empty() {
        return Err(Failure::usage(
            "a save or --registers is inspected, not both",
        ));
    }
    let mut state = reset();
    // the matrix alone is looked at, and other registers can't make a record that can't exist
    state.registers[6..].copy_from_slice(&registers(named)?[6..]);
    output::say(&of_matrix(&state)?)
}

/// What stands in a save.
fn of_save(save: &Save) -> Result<String, Failure> {
    let banks = save.cartridge.battery().len() / RAM_BANK;
    if save.battery {
        return Ok(format!("kind battery\nbanks {banks}\n"));
    }
    let state = save.cartridge.state();
    let capture = match (state.held, state.registers[0] & 1) {
        (false, _) => "none".to_owned(),
        (true, 0) => format!("stopped after {} cycles", state.elapsed),
        (true, _) => format!("running after {} cycles", state.elapsed),
    };
    let writing = if state.ram_enabled { "on" } else { "off" };
    let lines = [
        ("kind", "save".to_owned()),
        ("banks", banks.to_string()),
        ("ram-writing", writing.to_owned()),
        ("rom-bank", state.rom_bank.to_string()),
        ("ram-select", format!("{:02X}", state.ram_select)),
        ("started", state.started.to_string()),
        ("ended", state.ended.to_string()),
        ("capture", capture),
        ("registers", digits(&state.registers)),
    ];
    let mut said = String::new();
    for (key, value) in lines {
        line(&mut said, key, &value);
    }
    if state.held {
        line(&mut said, "taken", &digits(&state.taken));
    }
    Ok(said + &of_matrix(state)?)
}

/// Whether the matrix of a state rises.
fn of_matrix(state: &State) -> Result<String, Failure> {
    let element = inspect(state).map_err(|refusal| Failure::Undone(refusal.to_string()))?;
    Ok(match element {
        None => "matrix rises\n".to_owned(),
        Some(element) => format!(
            "matrix reversed at row {} column {}\n",
            element.row, element.column
        ),
    })
}

fn line(said: &mut String, key: &str, value: &str) {
    writeln!(said, "{key} {value}").expect("a text takes every line");
}

fn digits(registers: &[u8; REGISTERS]) -> String {
    registers.iter().map(|byte| format!("{byte:02X}")).collect()
}
