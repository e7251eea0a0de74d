//! Stands for bbx_core::sample::Sample where `simd` is on: the oracle's stand-in, and the lanes that polyblep.rs names.

use std::array::from_fn;
use std::ops::{Add, Div, Mul, Sub};
use std::simd::{Simd, StdFloat};

use crate::single;

pub const SIMD_LANES: usize = 4;

pub trait Sample: single::Sample {
    type Simd: Copy
        + StdFloat
        + Add<Output = Self::Simd>
        + Sub<Output = Self::Simd>
        + Mul<Output = Self::Simd>
        + Div<Output = Self::Simd>;
    fn simd_splat(value: Self) -> Self::Simd;
    fn simd_from_slice(values: &[Self]) -> Self::Simd;
    fn simd_to_array(lanes: Self::Simd) -> [Self; SIMD_LANES];
    fn simd_select_lt(a: Self::Simd, b: Self::Simd, yes: Self::Simd, no: Self::Simd) -> Self::Simd;
    fn simd_select_gt(a: Self::Simd, b: Self::Simd, yes: Self::Simd, no: Self::Simd) -> Self::Simd;
}

type Four = Simd<f64, SIMD_LANES>;

impl Sample for f64 {
    type Simd = Four;
    fn simd_splat(value: f64) -> Four {
        Four::splat(value)
    }
    fn simd_from_slice(values: &[f64]) -> Four {
        Four::from_slice(values)
    }
    fn simd_to_array(lanes: Four) -> [f64; SIMD_LANES] {
        lanes.to_array()
    }
    fn simd_select_lt(a: Four, b: Four, yes: Four, no: Four) -> Four {
        chosen(f64::lt, a, b, yes, no)
    }
    fn simd_select_gt(a: Four, b: Four, yes: Four, no: Four) -> Four {
        chosen(f64::gt, a, b, yes, no)
    }
}

/// Lane by lane, since the names of std::simd's own masks change from version to version.
fn chosen(test: fn(&f64, &f64) -> bool, a: Four, b: Four, yes: Four, no: Four) -> Four {
    Four::from_array(from_fn(|i| if test(&a[i], &b[i]) { yes[i] } else { no[i] }))
}
