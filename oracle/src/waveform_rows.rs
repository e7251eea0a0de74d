//! Rows of the waveforms, all but sine: op, waveform (1 to 4, in the original's order, or 6, the rounded triangle,
//! which is ours: rounded.rs), duty, phase, step, scale, samples asked for; then answer, phase after, eight slots. 17
//! u64 a row, every float as its bits.
//!
//! `fill` and `block` count in radians: one sample by `generate_waveform_sample`, whose phase grows and is not reduced;
//! up to eight by `process_waveform_scalar`, which reduces. `sample` takes a phase and a step of it in cycles, which
//! are judged. Of a sine (0) there are only the rows that `sample`, and `sine` at a phase alone, refuse: a sine that is
//! played is measured (`sine_rows`). Only Pulse has a duty; the word of a rounded triangle's is anything, and is not
//! read. The slots are eight numbers, 42 each before the call, of which the first are written.

use crate::chance::Chance;
use crate::math::Real;
use crate::patterns::{near, two_to};
use crate::polyblep::{polyblamp_triangle, polyblep_pulse, polyblep_saw, polyblep_square};
use crate::random::XorShiftRng;
use crate::rounded;
use crate::rows::{self, says, Part};
use crate::waveform::{generate_waveform_sample, process_waveform_scalar, Waveform, DEFAULT_DUTY_CYCLE};

pub const PART: Part = Part {
    name: "waveform",
    word: 8,
    words: 17,
    more_at: None,
    answer_at: Some(7),
    ops: &["fill", "block", "sample", "sine"],
    edges,
    random: |chance| rows::one_in(9, rows::each(chance.beside(), random_rounded), rows::each(chance, random)),
    answer,
};

const FILL: u64 = 0;
const BLOCK: u64 = 1;
const SAMPLE: u64 = 2;
const ALONE: u64 = 3;

pub const SINE: u64 = 0;
pub const SQUARE: u64 = 1;
pub const SAWTOOTH: u64 = 2;
pub const TRIANGLE: u64 = 3;
pub const PULSE: u64 = 4;
pub const ROUNDED: u64 = 6;
/// Those of the original.
const SHAPES: [u64; 4] = [SQUARE, SAWTOOTH, TRIANGLE, PULSE];

/// A shape and its duty.
pub type Wave = (u64, f64);

const SLOTS: u64 = 8;
pub const UNWRITTEN: f64 = 42.0;
pub const TINY: f64 = f64::from_bits(1);
pub const TAU: f64 = <f64 as Real>::TAU;
const RATES: [f64; 5] = [8000.0, 16384.0, 44100.0, 48000.0, 192000.0];
/// Cycles a sample of the highest note at the lowest rate.
const HIGHEST_STEP: f64 = 12543.855_468_75 / 8000.0;
pub const FREQUENCIES: [f64; 8] = [0.0, TINY, f64::MIN_POSITIVE, 1e-3, 440.0, 12543.853_515_625, 20000.0, 19999.999];

/// A row's given words; a scale and a length are given only where a block has them.
fn given(op: u64, shape: u64, duty: f64, phase: f64, step: f64, scale: f64, length: u64) -> Vec<u64> {
    let [shape, duty] = wave_words((shape, duty));
    let (scale, length) = if op == BLOCK { (scale, length) } else { (1.0, 1) };
    vec![op, shape, duty, phase.to_bits(), step.to_bits(), scale.to_bits(), length]
}

/// A waveform's two words. Only Pulse reads a duty; that of a rounded triangle is kept, to show that it is not read.
pub fn wave_words((shape, duty): Wave) -> [u64; 2] {
    [shape, if [PULSE, ROUNDED].contains(&shape) { duty.to_bits() } else { 0 }]
}

/// The original's waveform; none for the rounded triangle.
fn waveform(shape: u64) -> Option<Waveform> {
    match shape {
        SINE => Some(Waveform::Sine),
        SQUARE => Some(Waveform::Square),
        SAWTOOTH => Some(Waveform::Sawtooth),
        TRIANGLE => Some(Waveform::Triangle),
        PULSE => Some(Waveform::Pulse),
        ROUNDED => None,
        _ => panic!("no shape {shape}"),
    }
}

/// What a block of the original is driven with. It has no rounded triangle; as a Triangle it goes through the same
/// phases.
pub fn driven(shape: u64) -> Waveform {
    waveform(shape).unwrap_or(Waveform::Triangle)
}

/// Whether the original's blocks play this waveform: all but a pulse of another duty and the rounded triangle.
pub fn is_a_block((shape, duty): Wave) -> bool {
    shape != ROUNDED && (shape != PULSE || duty == DEFAULT_DUTY_CYCLE)
}

/// The loop of the original's block about single samples: the original's, which take any duty, or ours. The phase grows
/// by the increment; it is not reduced after them.
pub fn one_by_one(output: &mut [f64], (shape, duty): Wave, phase: &mut f64, increment: f64, scale: f64) {
    let (waveform, rng) = (waveform(shape), &mut XorShiftRng::new(0));
    for sample in output {
        let value = match waveform {
            Some(waveform) => generate_waveform_sample(waveform, *phase, increment, duty, rng),
            None => rounded::ROUNDED.in_radians(*phase, increment),
        };
        *sample = value * scale;
        *phase += increment;
    }
}

/// 01's refusals of a single sample: the duty, then phase and dt; a sine alone has neither duty nor dt. The other two
/// refuse nothing.
fn refusal(row: &[u64]) -> Option<u64> {
    let [duty, phase, dt] = [2, 3, 4].map(|at| f64::from_bits(row[at]));
    let unit = 0.0..=1.0;
    match row[0] {
        SAMPLE if row[1] == PULSE && !unit.contains(&duty) => Some(6),
        SAMPLE if !unit.contains(&phase) || !(0.0..=4.0).contains(&dt) => Some(9),
        ALONE if !unit.contains(&phase) => Some(9),
        _ => None,
    }
}

/// Answer, phase after (0 of a single sample), slots.
fn answer(row: &[u64]) -> Vec<u64> {
    let mut slots = [UNWRITTEN; SLOTS as usize];
    let number = refusal(row);
    let output = &mut slots[..row[6] as usize];
    let after = match row[0] {
        SAMPLE | ALONE => {
            output[0] = number.map_or_else(|| single(row), |_| 0.0);
            0.0
        }
        FILL => fill(row, output),
        _ => block(row, output),
    };
    assert!(slots.iter().all(|x| x.is_finite()) && after.is_finite(), "not finite at {row:?}");
    let mut words = vec![says(number.unwrap_or(0), 0, 0), after.to_bits()];
    words.extend(slots.map(f64::to_bits));
    words
}

/// One sample, and the phase after it; the original's loop agrees where it has the waveform.
fn fill(row: &[u64], output: &mut [f64]) -> f64 {
    let [duty, mut phase, step] = [2, 3, 4].map(|at| f64::from_bits(row[at]));
    let (mut same, mut reduced) = ([0.0], phase);
    one_by_one(output, (row[1], duty), &mut phase, step, 1.0);
    process_waveform_scalar(&mut same, driven(row[1]), &mut reduced, step, &mut XorShiftRng::new(0), 1.0);
    let agrees = same[0].to_bits() == output[0].to_bits();
    assert!(agrees || !is_a_block((row[1], duty)), "the loop parts ways at {row:?}");
    phase
}

/// The original's block, and the phase after it. Of a rounded triangle that is a Triangle's, and the samples are ours.
fn block(row: &[u64], output: &mut [f64]) -> f64 {
    let [duty, phase, step, scale] = [2, 3, 4, 5].map(|at| f64::from_bits(row[at]));
    assert!(row[1] == ROUNDED || is_a_block((row[1], duty)), "the original's block has one duty only");
    let (mut reduced, mut grown) = (phase, phase);
    process_waveform_scalar(output, driven(row[1]), &mut reduced, step, &mut XorShiftRng::new(0), scale);
    if row[1] == ROUNDED {
        one_by_one(output, (ROUNDED, duty), &mut grown, step, scale);
        assert_eq!(Real::rem_euclid(grown, TAU).to_bits(), reduced.to_bits(), "the phase parts ways at {row:?}");
    }
    reduced
}

/// The function that the original's waveform calls at a normalised phase and step, or ours.
fn single(row: &[u64]) -> f64 {
    let [duty, phase, dt] = [2, 3, 4].map(|at| f64::from_bits(row[at]));
    match row[1] {
        SQUARE => polyblep_square(phase, dt),
        SAWTOOTH => polyblep_saw(phase, dt),
        TRIANGLE => polyblamp_triangle(phase, dt),
        PULSE => polyblep_pulse(phase, dt, duty),
        ROUNDED => rounded::ROUNDED.triangle(phase, dt),
        _ => panic!("a sine that is not refused: {row:?}"),
    }
}

// The edges.

/// Radians: whole and half cycles with the floats beside them, up to the last start phase.
pub fn phases() -> Vec<f64> {
    let mut list = vec![0.0, -0.0, TINY, f64::MIN_POSITIVE, two_to(-53), 1.0, 999.99, near(1000.0, -1)];
    for halves in [1.0, 2.0, 3.0, 318.0] {
        let at = halves * TAU / 2.0;
        list.extend([near(at, -1), at, near(at, 1)]);
    }
    list
}

fn steps() -> Vec<f64> {
    let mut list = vec![-0.0, TAU / 2.0, near(TAU, -1), TAU, 20.0];
    for frequency in FREQUENCIES {
        list.extend([8000.0, 44100.0, 192000.0].map(|rate| frequency / rate * TAU));
    }
    list
}

pub fn duties() -> Vec<f64> {
    vec![0.0, -0.0, TINY, 0.25, near(0.5, -1), 0.5, near(0.5, 1), near(1.0, -1), 1.0]
}

pub fn not_a_unit() -> Vec<f64> {
    vec![-TINY, -1.0, near(1.0, 1), 2.0, f64::INFINITY, f64::NEG_INFINITY, f64::NAN, f64::from_bits(u64::MAX)]
}

fn edges() -> Vec<Vec<u64>> {
    let mut rows = [edges_of_fill(&SHAPES), edges_of_filled_duty(), edges_of_block(&SHAPES)].concat();
    rows.extend([edges_of_sample(&SHAPES), edges_of_sampled_duty(), edges_of_sine()].concat());
    rows.extend(edges_of_rounded());
    rows
}

fn edges_of_fill(shapes: &[u64]) -> Vec<Vec<u64>> {
    let mut rows = Vec::new();
    for &shape in shapes {
        for phase in phases() {
            rows.extend([0.0, 440.0 / 48000.0 * TAU, 20.0].map(|step| given(FILL, shape, 0.25, phase, step, 1.0, 1)));
        }
        rows.extend(steps().into_iter().map(|step| given(FILL, shape, 0.25, 0.01, step, 1.0, 1)));
    }
    rows
}

fn edges_of_filled_duty() -> Vec<Vec<u64>> {
    let mut rows = Vec::new();
    for duty in duties() {
        for phase in [0.0, 1.0, duty * TAU, near(TAU, -1), 999.99] {
            rows.push(given(FILL, PULSE, duty, phase, 0.05, 1.0, 1));
        }
    }
    rows
}

/// Lengths 0, 1 and 8; also phases below 0 and far away, which a block of ours takes as they are and reduces.
fn edges_of_block(shapes: &[u64]) -> Vec<Vec<u64>> {
    let mut rows = Vec::new();
    let far = [-TINY, -1.0, -TAU, near(-TAU, -1), near(-TAU, 1), -999.99, 1e6, -1e6, 1e300, -1e300];
    for phase in phases().into_iter().chain(far) {
        rows.push(given(BLOCK, SAWTOOTH, 0.5, phase, 0.1, 1.0, 0));
        let step = 440.0 / 44100.0 * TAU;
        rows.extend(shapes.iter().map(|&shape| given(BLOCK, shape, 0.5, phase, step, 0.5, SLOTS)));
    }
    for &shape in shapes {
        for step in steps() {
            rows.push(given(BLOCK, shape, 0.5, 6.0, step, 1.0, SLOTS));
        }
        for scale in [0.0, -0.0, TINY, 0.1, near(1.0, -1), 1.0] {
            rows.extend([0, 1, SLOTS].map(|length| given(BLOCK, shape, 0.5, 3.0, 0.3, scale, length)));
        }
        rows.push(given(BLOCK, shape, 0.5, 3.0, -0.75, 1.0, SLOTS));
    }
    rows
}

fn edges_of_sample(shapes: &[u64]) -> Vec<Vec<u64>> {
    let mut rows = Vec::new();
    for &shape in shapes {
        for phase in [0.0, -0.0, 0.125, 0.5, 1.0].into_iter().chain(not_a_unit()) {
            for dt in [0.0, 0.25, 4.0, near(4.0, 1), -TINY, f64::NAN] {
                rows.push(given(SAMPLE, shape, 0.25, phase, dt, 1.0, 1));
            }
        }
    }
    rows
}

fn edges_of_sampled_duty() -> Vec<Vec<u64>> {
    let mut rows = Vec::new();
    for duty in duties().into_iter().chain(not_a_unit()) {
        rows.extend([0.0, 0.25, 1.5].map(|phase| given(SAMPLE, PULSE, duty, phase, 0.125, 1.0, 1)));
    }
    rows
}

/// Phases outside 0 to 1; of a sample also with a dt that is outside too, and such a dt alone.
fn edges_of_sine() -> Vec<Vec<u64>> {
    let not_a_step = [-TINY, near(4.0, 1), f64::INFINITY, f64::NAN];
    let mut rows: Vec<_> = not_a_step.map(|dt| given(SAMPLE, SINE, 0.0, 0.25, dt, 1.0, 1)).into();
    for phase in not_a_unit() {
        rows.extend([0.25, f64::NAN].map(|dt| given(SAMPLE, SINE, 0.0, phase, dt, 1.0, 1)));
        rows.push(given(ALONE, SINE, 0.0, phase, 0.0, 1.0, 1));
    }
    rows
}

/// The rounded triangle as the others; with any duty, since none is read; and where its value is told: at a corner, at
/// the crest of a note, and far outside -1 to 1.
fn edges_of_rounded() -> Vec<Vec<u64>> {
    let shapes = [ROUNDED];
    let mut rows = [edges_of_fill(&shapes), edges_of_block(&shapes), edges_of_sample(&shapes)].concat();
    for duty in duties().into_iter().chain(not_a_unit()) {
        rows.extend([0.0, 0.25, 1.5].map(|phase| given(SAMPLE, ROUNDED, duty, phase, 0.125, 1.0, 1)));
        rows.push(given(FILL, ROUNDED, duty, 3.0, 0.3, 1.0, 1));
        rows.push(given(BLOCK, ROUNDED, duty, 3.0, 0.3, 0.5, SLOTS));
    }
    let told = [(0.0, 0.25), (0.5, 0.0202), (0.0, HIGHEST_STEP), (0.5, HIGHEST_STEP), (1.0, 4.0)];
    rows.extend(told.map(|(phase, dt)| given(SAMPLE, ROUNDED, 0.0, phase, dt, 1.0, 1)));
    rows
}

// The random rows.

fn random(chance: &mut Chance) -> Vec<u64> {
    if chance.below(32) == 0 {
        return random_sine(chance);
    }
    let shape = chance.pick(&SHAPES);
    random_of(shape, chance)
}

/// Of a rounded triangle, with any duty.
fn random_rounded(chance: &mut Chance) -> Vec<u64> {
    let mut row = random_of(ROUNDED, chance);
    any_duty(&mut row[2], chance);
    row
}

/// A duty that is not read, often one that would be refused.
pub fn any_duty(word: &mut u64, chance: &mut Chance) {
    if chance.below(2) == 0 {
        *word = chance.pick(&not_a_unit()).to_bits();
    }
}

fn random_of(shape: u64, chance: &mut Chance) -> Vec<u64> {
    let op = chance.pick(&[FILL, FILL, BLOCK, BLOCK, BLOCK, SAMPLE]);
    let duty = match op {
        BLOCK => DEFAULT_DUTY_CYCLE,
        _ if chance.below(4) == 0 => chance.pick(&duties()),
        _ => chance.dense(),
    };
    if op == SAMPLE {
        return random_sample(shape, duty, chance);
    }
    let step = random_step(chance);
    let scale = if chance.below(2) == 0 { 1.0 } else { chance.dense() };
    let length = chance.pick(&[0, 1, SLOTS, SLOTS, SLOTS]);
    given(op, shape, duty, random_phase(duty, step, chance), step, scale, length)
}

/// One in four is refused, most often.
fn random_sample(shape: u64, duty: f64, chance: &mut Chance) -> Vec<u64> {
    let mut row = given(SAMPLE, shape, duty, chance.dense(), 4.0 * chance.dense() * chance.dense(), 1.0, 1);
    if chance.below(4) == 0 {
        let at = chance.pick(if shape == PULSE { &[2, 3, 4] } else { &[3, 4] });
        row[at] = chance.pick(&not_a_unit()).to_bits();
    }
    row
}

/// A phase outside 0 to 1, at all magnitudes.
fn random_sine(chance: &mut Chance) -> Vec<u64> {
    let op = chance.pick(&[SAMPLE, ALONE]);
    let phase = match chance.below(4) {
        0 => chance.pick(&not_a_unit()),
        1 => -chance.scaled(-60, 60),
        _ => near(1.0, 1) + chance.scaled(-52, 60),
    };
    let dt = if op == SAMPLE { 4.0 * chance.dense() } else { 0.0 };
    given(op, SINE, 0.0, phase, dt, 1.0, 1)
}

/// 0 up to 1,000; some near a corner of the shape, or within a step of one.
pub fn random_phase(duty: f64, step: f64, chance: &mut Chance) -> f64 {
    let cycles = chance.below(159) as f64;
    let corner = (cycles + chance.pick(&[0.0, 0.5, 1.0, duty])) * TAU;
    match chance.below(8) {
        0 => near(corner, chance.between(-3, 3)).max(0.0),
        1 | 2 => (corner + step * (2.0 * chance.unit() - 1.0)).max(0.0),
        3 => chance.pick(&phases()),
        4 => chance.scaled(-60, 8),
        5 => TAU * chance.dense(),
        _ => 999.99 * chance.dense(),
    }
}

fn random_step(chance: &mut Chance) -> f64 {
    match chance.below(8) {
        0 => chance.pick(&steps()),
        1 => 20.0 * chance.dense(),
        2 => chance.scaled(-60, 3),
        _ => 20000.0 * chance.dense() * chance.dense() / chance.pick(&RATES) * TAU,
    }
}
