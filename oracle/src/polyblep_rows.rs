//! Rows of polyblep: op, phase (t), dt, duty; then answer and value. Six u64 a row, every float as its bits.
//!
//! Only polyblep_pulse reads the duty; it is 0 elsewhere. The last two ops are the rounded triangle's, which is ours
//! (rounded.rs): they judge nothing, take any two floats, and a value that is a NaN is 7FF8000000000000.

use crate::chance::Chance;
use crate::patterns::{near, two_to};
use crate::polyblep;
use crate::rounded;
use crate::rows::{self, Part};

pub const PART: Part = Part {
    name: "polyblep",
    word: 8,
    words: 6,
    more_at: None,
    answer_at: Some(4),
    ops: &[
        "poly_blep",
        "poly_blamp",
        "polyblep_saw",
        "polyblep_square",
        "polyblep_pulse",
        "polyblamp_triangle",
        "rounded_blamp",
        "rounded",
    ],
    edges,
    random: |chance| rows::one_in(13, rows::each(chance.beside(), random_rounded), rows::each(chance, random)),
    answer,
};

pub const PULSE: u64 = 4;
/// Those of the original, and of its lanes.
pub const OPS: u64 = 6;
const ROUNDED_BLAMP: u64 = 6;
const ROUNDED: u64 = 7;

pub const TINY: f64 = f64::from_bits(1);
pub const LARGEST_SUBNORMAL: f64 = f64::from_bits(0x000F_FFFF_FFFF_FFFF);

fn given(op: u64, t: f64, dt: f64, duty: f64) -> Vec<u64> {
    let read = if op == PULSE { duty } else { 0.0 };
    vec![op, t.to_bits(), dt.to_bits(), read.to_bits()]
}

fn float(word: u64) -> f64 {
    f64::from_bits(word)
}

/// 01's domain of the original's calls, tested by number: -0 counts as 0, a NaN is outside.
fn in_domain(row: &[u64]) -> bool {
    let (t, dt, duty) = (float(row[1]), float(row[2]), float(row[3]));
    let unit = 0.0..=1.0;
    unit.contains(&t) && (0.0..=4.0).contains(&dt) && (row[0] != PULSE || unit.contains(&duty))
}

/// Number and value.
fn answer(row: &[u64]) -> Vec<u64> {
    let (t, dt, duty) = (float(row[1]), float(row[2]), float(row[3]));
    if row[0] >= OPS {
        let value = rounded_answer(row[0], t, dt);
        assert!(value.is_finite() || !in_domain(row), "an answer in the domain is not finite at {row:?}");
        return vec![0, value.to_bits()];
    }
    if !in_domain(row) {
        return vec![9, 0];
    }
    let value: f64 = match row[0] {
        0 => polyblep::poly_blep(t, dt),
        1 => polyblep::poly_blamp(t, dt),
        2 => polyblep::polyblep_saw(t, dt),
        3 => polyblep::polyblep_square(t, dt),
        4 => polyblep::polyblep_pulse(t, dt, duty),
        5 => polyblep::polyblamp_triangle(t, dt),
        op => panic!("no op {op}"),
    };
    assert!(value.is_finite(), "an answer in the domain is not finite at {row:?}");
    vec![0, value.to_bits()]
}

/// The replay cannot see a NaN's payload, so there is one NaN only.
fn rounded_answer(op: u64, t: f64, dt: f64) -> f64 {
    let value = match op {
        ROUNDED_BLAMP => rounded::ROUNDED.blamp(t, dt),
        ROUNDED => rounded::ROUNDED.triangle(t, dt),
        op => panic!("no op {op}"),
    };
    if value.is_nan() {
        f64::NAN
    } else {
        value
    }
}

// The edges.

/// Where other things than the duty are crossed.
pub const DUTY: f64 = 0.25;
/// What a duty is crossed with.
pub const PULSE_STEPS: [f64; 7] = [0.0, two_to(-53), 440.0 / 48000.0, 0.5, 0.75, 1.0, 4.0];

fn phases_inside() -> Vec<f64> {
    let mut list = vec![0.0, -0.0, TINY, LARGEST_SUBNORMAL, f64::MIN_POSITIVE, two_to(-60)];
    // One float above 2^-54 the sum with 0.5 rounds up, where - 0.5 + 1 rounds down: square is not pulse.
    list.extend([two_to(-54), near(two_to(-54), 1), two_to(-53), 0.125, near(0.5, -1), 0.5, near(0.5, 1), 0.875]);
    list.extend([near(1.0, -2), near(1.0, -1), 1.0]);
    list
}

pub fn phases_outside() -> Vec<f64> {
    let mut list = vec![-TINY, -two_to(-53), -1.0, near(1.0, 1), 2.0, f64::MAX];
    list.extend(not_finite());
    list
}

pub fn steps_inside() -> Vec<f64> {
    let mut list = vec![0.0, -0.0, TINY, LARGEST_SUBNORMAL, f64::MIN_POSITIVE];
    // 1 - 2^-54 is half way and rounds to 1; from the next float on 1 - dt lies below 1.
    list.extend([two_to(-54), near(two_to(-54), 1), two_to(-53), two_to(-52), 440.0 / 48000.0]);
    list.extend([0.125, 0.25, near(0.5, -1), 0.5, near(0.5, 1), 0.75, near(1.0, -1), 1.0, near(1.0, 1)]);
    list.extend([1.5, 2.0, near(4.0, -1), 4.0]);
    list
}

pub fn steps_outside() -> Vec<f64> {
    let mut list = vec![-TINY, -0.25, near(4.0, 1), 5.0, f64::MAX, -f64::MAX];
    list.extend(not_finite());
    list
}

pub fn duties_inside() -> Vec<f64> {
    let mut list = vec![0.0, -0.0, TINY, f64::MIN_POSITIVE, two_to(-53), 0.25, near(0.5, -1), 0.5, near(0.5, 1)];
    list.extend([near(1.0, -1), 1.0]);
    list
}

/// Not finite, with several of the patterns that are NaN.
pub fn not_finite() -> Vec<f64> {
    let mut list = vec![f64::INFINITY, f64::NEG_INFINITY];
    let patterns = [0x7FF8_0000_0000_0000, 0xFFF8_0000_0000_0000, 0x7FF0_0000_0000_0001, u64::MAX];
    list.extend(patterns.map(f64::from_bits));
    list
}

/// The phases where a test of a call changes its outcome for this dt (and duty), as near as they can be computed.
fn turning_points(op: u64, dt: f64, duty: f64) -> Vec<f64> {
    let own = [dt, 1.0 - dt];
    match op {
        0..=2 | ROUNDED_BLAMP => own.to_vec(),
        PULSE => [own, [duty + dt, duty - dt], [duty, duty + dt - 1.0], [1.0 + duty - dt, duty]].concat(),
        _ => [own, [dt + 0.5, dt - 0.5], [0.5 - dt, 1.5 - dt], [0.5, 0.5]].concat(),
    }
}

/// Each such phase with its two neighbours, those from 0 to 1.
fn around(points: &[f64]) -> Vec<f64> {
    let all = points.iter().flat_map(|&point| [near(point, -1), point, near(point, 1)]);
    all.filter(|t| (0.0..=1.0).contains(t)).collect()
}

/// The phases at which a call is asked with this dt, those of every range and its own.
pub fn phases_at(op: u64, dt: f64) -> Vec<f64> {
    [phases_inside(), around(&turning_points(op, dt, DUTY))].concat()
}

/// Those at which a pulse is asked with this dt and duty.
pub fn phases_of_pulse(dt: f64, duty: f64) -> Vec<f64> {
    [vec![0.0, -0.0, TINY, 0.125, 1.0], around(&turning_points(PULSE, dt, duty))].concat()
}

fn edges() -> Vec<Vec<u64>> {
    let mut rows: Vec<_> = (0..OPS).flat_map(edges_of).collect();
    for duty in duties_inside() {
        for dt in PULSE_STEPS {
            rows.extend(phases_of_pulse(dt, duty).into_iter().map(|t| given(PULSE, t, dt, duty)));
        }
    }
    for duty in phases_outside() {
        rows.extend([0.0, 0.125, 1.0].map(|t| given(PULSE, t, 0.25, duty)));
    }
    rows.extend([ROUNDED_BLAMP, ROUNDED].into_iter().flat_map(edges_of));
    rows
}

fn edges_of(op: u64) -> Vec<Vec<u64>> {
    let mut rows = Vec::new();
    for dt in steps_inside() {
        rows.extend(phases_at(op, dt).into_iter().map(|t| given(op, t, dt, DUTY)));
    }
    for t in phases_outside() {
        rows.extend([0.0, 0.25, 1.0, f64::NAN].map(|dt| given(op, t, dt, DUTY)));
    }
    for dt in steps_outside() {
        rows.extend([-0.0, 0.125, 1.0, near(1.0, 1)].map(|t| given(op, t, dt, DUTY)));
    }
    rows
}

// The random rows: one in eight refused.

fn random(chance: &mut Chance) -> Vec<u64> {
    let refused = chance.below(8) == 0;
    loop {
        let op = chance.below(OPS);
        let mut row = inside(op, chance);
        if refused {
            spoil(&mut row, chance);
        }
        if in_domain(&row) != refused {
            return row;
        }
    }
}

/// Any two floats, most often in the domain of the others.
fn random_rounded(chance: &mut Chance) -> Vec<u64> {
    let op = chance.pick(&[ROUNDED_BLAMP, ROUNDED]);
    let mut row = inside(op, chance);
    if chance.below(8) == 0 {
        spoil(&mut row, chance);
    }
    row
}

fn inside(op: u64, chance: &mut Chance) -> Vec<u64> {
    let dt = random_step(chance);
    let duty = random_phase(chance);
    given(op, phase_about(op, dt, duty, chance), dt, duty)
}

/// Also below 0 and above 1, where a turning point lies there.
pub fn phase_about(op: u64, dt: f64, duty: f64, chance: &mut Chance) -> f64 {
    match chance.below(3) {
        // A few floats beside such a phase, or anywhere within dt / 2 of it, where a correction may act.
        0 => near(chance.pick(&turning_points(op, dt, duty)), chance.between(-3, 3)),
        1 => chance.pick(&turning_points(op, dt, duty)) + dt * (chance.unit() - 0.5),
        _ => random_phase(chance),
    }
}

/// 0 to 1; also what a duty is drawn by.
pub fn random_phase(chance: &mut Chance) -> f64 {
    match chance.below(8) {
        0..=3 => chance.dense(),
        4 => chance.scaled(-60, -1),
        // Every pattern from 0 to 1, all equally likely.
        5 => f64::from_bits(chance.between(0, 0x3FF0_0000_0000_0000) as u64),
        6 => near(chance.pick(&[0.5, 1.0]), -(chance.below(4) as i64)),
        _ => chance.pick(&phases_inside()),
    }
}

/// 0 to 4; the first line is what notes and rates give.
pub fn random_step(chance: &mut Chance) -> f64 {
    match chance.below(8) {
        0..=2 => 20000.0 * chance.dense() * chance.dense() / chance.pick(&[8000.0, 44100.0, 48000.0, 192000.0]),
        3 => 0.5 * chance.dense(),
        4 => 4.0 * chance.dense(),
        5 => chance.scaled(-60, 1),
        6 => f64::from_bits(chance.between(0, 0x4010_0000_0000_0000) as u64),
        _ => chance.pick(&steps_inside()),
    }
}

/// Outside 0 to 1, mostly outside 0 to 4 too.
pub fn random_outside(chance: &mut Chance) -> u64 {
    // Any pattern but the positive ones up to the limit: negative, above, infinity, NaN.
    let limit = if chance.below(2) == 0 { 0x3FF0_0000_0000_0000 } else { 0x4010_0000_0000_0000 };
    let anything = chance.between(limit + 1, i64::MAX) as u64 | (chance.below(2) << 63);
    match chance.below(3) {
        0 => chance.pick(&phases_outside()).to_bits(),
        1 => chance.pick(&steps_outside()).to_bits(),
        _ => anything,
    }
}

/// One field moved out of its range; the caller draws again where that field is not read by the call.
fn spoil(row: &mut [u64], chance: &mut Chance) {
    let bad = random_outside(chance);
    match chance.below(3) {
        0 => row[1] = bad,
        1 => row[2] = bad,
        _ if row[0] == PULSE => row[3] = bad,
        _ => {}
    }
}
