//! The museum desk: contrast levels and exposure instead of registers.

use crate::levels::{CONTRAST_LEVELS, LEVELS, LIGHT_SETS, MATRIX_BYTES};
use crate::picture::MATRIX;
use crate::refusal::Refusal;
use crate::state::State;

/// The exposure when none is named: the first value the ROM sets.
const UNNAMED_EXPOSURE: u16 = 0x1000;

/// Sets the matrix and exposure registers, and nothing else; a capture held is not affected.
pub fn choose(
    state: &mut State,
    light: u8,
    level: u8,
    dithering_off: bool,
    exposure: Option<u16>,
) -> Result<(), Refusal> {
    state.check()?;
    let chosen = matrix(light.into(), level.into()).ok_or(Refusal::Choice)?;
    let registers = &mut state.registers[MATRIX..];
    registers.copy_from_slice(chosen);
    if dithering_off {
        for element in registers.chunks_exact_mut(3) {
            element.copy_from_slice(&chosen[..3]);
        }
    }
    let exposure = exposure.unwrap_or(UNNAMED_EXPOSURE);
    state.registers[2..4].copy_from_slice(&exposure.to_be_bytes());
    Ok(())
}

/// The matrix of a light set and level; none if there is no such one.
fn matrix(light: usize, level: usize) -> Option<&'static [u8]> {
    let place = MATRIX_BYTES * (LIGHT_SETS * level + light);
    (light < LIGHT_SETS && level < LEVELS).then(|| &CONTRAST_LEVELS[place..][..MATRIX_BYTES])
}
