//! Rows of the sine: u in cycles, 0 to 1; then what the original's waveform gives there. Two u64 a row, floats as bits.
//!
//! Ours is another sine, so these rows are measured, not compared by bits. Nothing is refused, and there is no number.

use crate::chance::Chance;
use crate::math::Real;
use crate::patterns::near;
use crate::random::XorShiftRng;
use crate::rows::{self, Part};
use crate::waveform::{generate_waveform_sample, Waveform, DEFAULT_DUTY_CYCLE};

/// Points of our table in a cycle.
const POINTS: u64 = 4096;

pub const PART: Part = Part {
    name: "sine",
    word: 8,
    words: 2,
    more_at: None,
    answer_at: None,
    ops: &["sine"],
    edges,
    random: |chance| rows::each(chance, random),
    answer,
};

/// `generate_waveform_sample` of Sine, which is `math::sin` of the phase: u * TAU radians, rounded once.
fn answer(row: &[u64]) -> Vec<u64> {
    let phase = f64::from_bits(row[0]) * <f64 as Real>::TAU;
    let value = generate_waveform_sample(Waveform::Sine, phase, 0.0, DEFAULT_DUTY_CYCLE, &mut XorShiftRng::new(0));
    vec![value.to_bits()]
}

/// Each point of the table, the floats beside it, and the middle of each step, where a straight line is farthest off.
fn edges() -> Vec<Vec<u64>> {
    let mut list = vec![-0.0, f64::from_bits(1), f64::MIN_POSITIVE];
    for k in 0..=POINTS {
        let at = k as f64 / POINTS as f64;
        list.extend([near(at, -1), at, near(at, 1), (k as f64 + 0.5) / POINTS as f64]);
    }
    list.retain(|u| (0.0..=1.0).contains(u));
    list.into_iter().map(|u| vec![u.to_bits()]).collect()
}

fn random(chance: &mut Chance) -> Vec<u64> {
    let u = match chance.below(4) {
        0 => chance.scaled(-60, -1),
        _ => chance.dense(),
    };
    vec![u.to_bits()]
}
