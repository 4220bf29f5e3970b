//! How large everything is that is lent or kept.

/// Bytes in one ROM bank.
pub const ROM_BANK: usize = 16_384;
/// Bytes in one RAM bank.
pub const RAM_BANK: usize = 8_192;
/// Pixels in a row of the sensor.
pub const SENSOR_WIDTH: usize = 128;
/// Rows of the sensor.
pub const SENSOR_HEIGHT: usize = 128;
/// Bytes in an image and in the frame store.
pub const FRAME_BYTES: usize = SENSOR_WIDTH * SENSOR_HEIGHT;
/// Camera registers.
pub const REGISTERS: usize = 54;
