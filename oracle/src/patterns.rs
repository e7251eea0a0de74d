//! Floats by their pattern: the ones next to a float, and powers of two.

/// Patterns counted along the number line, where both zeros are 0.
pub fn near(x: f64, steps: i64) -> f64 {
    let bits = x.to_bits() as i64;
    let at = if bits < 0 { i64::MIN.wrapping_sub(bits) } else { bits } + steps;
    f64::from_bits(if at < 0 { i64::MIN.wrapping_sub(at) } else { at } as u64)
}

pub fn near_f32(x: f32, steps: i32) -> f32 {
    let bits = x.to_bits() as i32;
    let at = if bits < 0 { i32::MIN.wrapping_sub(bits) } else { bits } + steps;
    f32::from_bits(if at < 0 { i32::MIN.wrapping_sub(at) } else { at } as u32)
}

/// 2^power made from the exponent bits, for normal numbers: nothing promises the last bit of powi.
pub const fn two_to(power: i32) -> f64 {
    f64::from_bits(((1023 + power) as u64) << 52)
}

pub const fn two_to_f32(power: i32) -> f32 {
    f32::from_bits(((127 + power) as u32) << 23)
}
