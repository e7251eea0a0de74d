//! Stands for bbx_core::sample::Sample; leaves out f32, simd and every constant and method that no file here reads.

use std::ops::{Add, AddAssign, Div, Mul, Neg, Sub, SubAssign};

use crate::math::Real;

pub trait Sample:
    Copy
    + PartialOrd
    + Add<Output = Self>
    + Sub<Output = Self>
    + Mul<Output = Self>
    + Div<Output = Self>
    + Neg<Output = Self>
    + AddAssign
    + SubAssign
{
    const ZERO: Self;
    const ONE: Self;
    const TAU: Self;
    fn from_f64(value: f64) -> Self;
    fn to_f64(self) -> f64;
}

impl Sample for f64 {
    const ZERO: Self = 0.0;
    const ONE: Self = 1.0;
    // The original's own literal in math.rs, so that these bits are the built Rust's.
    const TAU: Self = <f64 as Real>::TAU;
    fn from_f64(value: f64) -> Self {
        value
    }
    fn to_f64(self) -> f64 {
        self
    }
}
