//! The records of the stream: two bytes of length, one of kind, one of the numbers' type, then the numbers.

/// A kind of record with the type of its numbers, as the two bytes after the length say it.
pub mod kind {
    pub const HEADER: u16 = 0x0002;
    pub const BGNLIB: u16 = 0x0102;
    pub const LIBNAME: u16 = 0x0206;
    pub const UNITS: u16 = 0x0305;
    pub const ENDLIB: u16 = 0x0400;
    pub const BGNSTR: u16 = 0x0502;
    pub const STRNAME: u16 = 0x0606;
    pub const ENDSTR: u16 = 0x0700;
    pub const BOUNDARY: u16 = 0x0800;
    pub const PATH: u16 = 0x0900;
    pub const SREF: u16 = 0x0a00;
    pub const AREF: u16 = 0x0b00;
    pub const TEXT: u16 = 0x0c00;
    pub const LAYER: u16 = 0x0d02;
    pub const DATATYPE: u16 = 0x0e02;
    pub const WIDTH: u16 = 0x0f03;
    pub const XY: u16 = 0x1003;
    pub const ENDEL: u16 = 0x1100;
    pub const SNAME: u16 = 0x1206;
    pub const NODE: u16 = 0x1500;
    pub const TEXTTYPE: u16 = 0x1602;
    pub const STRING: u16 = 0x1906;
    pub const PATHTYPE: u16 = 0x2102;
    pub const NODETYPE: u16 = 0x2a02;
    pub const PROPATTR: u16 = 0x2b02;
    pub const PROPVALUE: u16 = 0x2c06;
    pub const BOX: u16 = 0x2d00;
    pub const BOXTYPE: u16 = 0x2e02;
}

/// The property that a pin's load has, and that of the net's weights, at its first pin.
pub const LOAD: i16 = 1;
pub const WEIGHTS: i16 = 2;

/// Excess-64 floating point of base 16: a sign, seven bits of exponent and 56 of fraction. For numbers above zero.
pub fn real(number: f64) -> [u8; 8] {
    let (mut fraction, mut exponent) = (number, 64u8);
    while fraction >= 1.0 {
        fraction /= 16.0;
        exponent += 1;
    }
    while fraction < 1.0 / 16.0 {
        fraction *= 16.0;
        exponent -= 1;
    }
    let mut bytes = ((fraction * 2f64.powi(56)) as u64).to_be_bytes();
    bytes[0] = exponent;
    bytes
}

/// The number of such eight bytes.
pub fn from_real(bytes: [u8; 8]) -> f64 {
    let fraction = u64::from_be_bytes(bytes) & ((1 << 56) - 1);
    let exponent = i32::from(bytes[0] & 0x7f) - 64;
    let number = fraction as f64 * 2f64.powi(4 * exponent - 56);
    match bytes[0] & 0x80 {
        0 => number,
        _ => -number,
    }
}
