//! Random files of each kind that a call reads: right ones, nearly right ones, and none at all.

pub mod photo;
pub mod plate;
pub mod save;
pub mod script;
