//! The rounded triangle, from 02's words under R-11. This is ours and not the original's, which has no such waveform:
//! beside its `poly_blamp` and `polyblamp_triangle` the same tests, "both branches plus one third before the
//! multiplication by dt, and factor 4".
//!
//! What those words change is a `Rule`, so that the rest of the text can be held to the original: under its rule the
//! same functions must give its bits (`check`).

use crate::math::{self, Real};

const THIRD: f64 = 1.0 / 3.0;

/// What becomes of a bracket before the multiplication by dt, and by what both corrections are multiplied.
pub struct Rule {
    bracket: fn(f64) -> f64,
    factor: f64,
}

pub const ROUNDED: Rule = Rule { bracket: |sum| sum + THIRD, factor: 4.0 };

/// The original's rule adds nothing, not even 0.0, so that the sign of a zero cannot hang on it.
pub const ORIGINAL: Rule = Rule { bracket: |sum| sum, factor: 8.0 };

impl Rule {
    /// The correction at a corner.
    pub fn blamp(&self, t: f64, dt: f64) -> f64 {
        if t < dt {
            let x = t / dt;
            let x2 = x * x;
            let x3 = x2 * x;
            (self.bracket)(x2 - x3 * THIRD - x) * dt
        } else if t > 1.0 - dt {
            let x = (t - 1.0) / dt;
            let x2 = x * x;
            let x3 = x2 * x;
            (self.bracket)(x3 * THIRD + x2 + x) * dt
        } else {
            0.0
        }
    }

    /// One sample at a phase and a step in cycles.
    pub fn triangle(&self, phase: f64, dt: f64) -> f64 {
        let naive = if phase < 0.5 { 4.0 * phase - 1.0 } else { 3.0 - 4.0 * phase };
        let half = phase + 0.5;
        let high = self.blamp(half - math::floor(half), dt);
        naive + self.factor * self.blamp(phase, dt) - self.factor * high
    }

    /// The same at a phase and a step in radians, brought to cycles as the original brings its own.
    pub fn in_radians(&self, phase: f64, increment: f64) -> f64 {
        self.triangle((phase % <f64 as Real>::TAU) * <f64 as Real>::INV_TAU, increment * <f64 as Real>::INV_TAU)
    }
}
