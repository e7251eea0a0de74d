//! Rows of the accumulator: op, given phase, increment, a, b; then answer, value, phase and increment after.
//!
//! Nine u32 a row, every float as its bits. a and b are frequency and rate of set_frequency, a is the argument of
//! set_increment and set_phase, else 0. A NaN in a given state is 7FC00000, and comes back so.

use crate::chance::Chance;
use crate::patterns::{near_f32 as near, two_to_f32 as two_to};
use crate::rows::{self, Part};
use crate::{opened, phase};

pub const PART: Part = Part {
    name: "phase",
    word: 4,
    words: 9,
    more_at: None,
    answer_at: Some(5),
    ops: &["set_frequency", "set_increment", "increment", "next", "phase", "set_phase", "reset", "new"],
    edges,
    random: |chance| rows::each(chance, random),
    answer,
};

const SET_FREQUENCY: u64 = 0;
const SET_INCREMENT: u64 = 1;
const INCREMENT: u64 = 2;
const NEXT: u64 = 3;
const PHASE: u64 = 4;
const SET_PHASE: u64 = 5;
const RESET: u64 = 6;
const NEW: u64 = 7;

const TINY: f32 = f32::from_bits(1);
const LARGEST_SUBNORMAL: f32 = f32::from_bits(0x007F_FFFF);

/// A row's given words.
fn given(op: u64, phase: f32, increment: f32, a: f32, b: f32) -> Vec<u64> {
    vec![op, state_bits(phase), state_bits(increment), a.to_bits() as u64, b.to_bits() as u64]
}

/// The replay cannot see a NaN's payload, so a state has one NaN only.
fn state_bits(x: f32) -> u64 {
    if x.is_nan() {
        0x7FC0_0000
    } else {
        x.to_bits() as u64
    }
}

fn float(word: u64) -> f32 {
    f32::from_bits(word as u32)
}

/// 01's domain, tested by number (-0 counts as 0): a given state is judged by every call, then the arguments.
fn in_domain(row: &[u64]) -> bool {
    let (phase, increment, a, b) = (float(row[1]), float(row[2]), float(row[3]), float(row[4]));
    let state = (0.0..=1.0).contains(&phase) && increment.is_finite();
    match row[0] {
        NEW => true,
        SET_FREQUENCY => state && a.is_finite() && b.is_finite() && b > 0.0 && (a / b).is_finite(),
        SET_INCREMENT | SET_PHASE => state && a.is_finite(),
        _ => state,
    }
}

/// Number, value shown, phase after, increment after.
fn answer(row: &[u64]) -> Vec<u64> {
    if !in_domain(row) {
        return vec![9, 0, row[1], row[2]];
    }
    let from_opened = ask_opened(row);
    let shown = ask_untouched(row).unwrap_or(from_opened);
    assert_eq!(shown, from_opened, "the two copies part ways at {row:?}");
    [&[0][..], &shown].concat()
}

/// The call on one copy's type; both copies have the same methods.
macro_rules! call {
    ($accumulator:expr, $row:expr) => {{
        let (a, b) = (float($row[3]), float($row[4]));
        match $row[0] {
            SET_FREQUENCY => $accumulator.set_frequency(a, b),
            SET_INCREMENT => $accumulator.set_increment(a),
            SET_PHASE => $accumulator.set_phase(a),
            RESET => $accumulator.reset(),
            INCREMENT | NEXT | PHASE | NEW => {}
            op => panic!("no op {op}"),
        }
        match $row[0] {
            INCREMENT => $accumulator.increment(),
            NEXT => $accumulator.next(),
            PHASE => $accumulator.phase(),
            _ => 0.0,
        }
    }};
}

/// Value, phase and increment after, as bits, so that -0 is not 0.
type Shown = [u64; 3];

fn shown(value: f32, phase: f32, increment: f32) -> Shown {
    [value, phase, increment].map(|x| x.to_bits() as u64)
}

fn ask_opened(row: &[u64]) -> Shown {
    let mut accumulator = match row[0] {
        NEW => opened::phase::PhaseAccumulator::new(),
        _ => opened::phase::PhaseAccumulator::opened(float(row[1]), float(row[2])),
    };
    let value: f32 = call!(accumulator, row);
    let (phase, increment) = accumulator.fields();
    shown(value, phase, increment)
}

/// None where the untouched copy cannot be brought into the given state: its own calls never leave a phase of -0.
fn ask_untouched(row: &[u64]) -> Option<Shown> {
    let mut accumulator = phase::PhaseAccumulator::new();
    if row[0] != NEW {
        let phase = float(row[1]);
        // 1 is what a small negative number wraps to; all below is its own fraction.
        accumulator.set_phase(if phase == 1.0 { -two_to(-30) } else { phase });
        accumulator.set_increment(float(row[2]));
        if accumulator.phase().to_bits() != phase.to_bits() {
            assert_eq!(phase.to_bits(), 0x8000_0000, "only -0 is out of reach");
            return None;
        }
    }
    let value: f32 = call!(accumulator, row);
    Some(shown(value, accumulator.phase(), accumulator.increment()))
}

// The edges.

fn phases_inside() -> Vec<f32> {
    let mut list = vec![0.0, -0.0, TINY, LARGEST_SUBNORMAL, f32::MIN_POSITIVE, two_to(-30), two_to(-24)];
    list.extend([0.25, near(0.5, -1), 0.5, near(0.5, 1), 0.75, near(1.0, -2), near(1.0, -1), 1.0]);
    list
}

fn phases_outside() -> Vec<f32> {
    let mut list = vec![-TINY, -f32::MIN_POSITIVE, -two_to(-30), -0.25, -1.0, near(1.0, 1), 2.0];
    list.extend([f32::MAX, -f32::MAX, f32::INFINITY, f32::NEG_INFINITY, f32::NAN]);
    list
}

/// Finite numbers of cycles, both signs: wrap's every case, whole numbers and their neighbours, where fractions end.
fn cycles() -> Vec<f32> {
    let mut sizes = vec![0.0, TINY, LARGEST_SUBNORMAL, f32::MIN_POSITIVE, two_to(-60), two_to(-30)];
    // -2^-25 is half way between 1 - 2^-24 and 1: the fraction rounds to 1; one float further down it does not.
    for power in [-25, -24, -23] {
        sizes.extend([near(two_to(power), -1), two_to(power), near(two_to(power), 1)]);
    }
    sizes.extend([440.0 / 48000.0, 0.25, near(0.5, -1), 0.5, near(0.5, 1), 0.75]);
    for whole in [1.0, 2.0, 3.0, 1024.0] {
        sizes.extend([near(whole, -1), whole, near(whole, 1)]);
    }
    // From 2^23 on every f32 is whole; just below there are halves.
    for power in [22, 23, 24] {
        sizes.extend([near(two_to(power), -1), two_to(power), near(two_to(power), 1)]);
    }
    sizes.extend([two_to(31), two_to(32), two_to(63), two_to(64), near(f32::MAX, -1), f32::MAX]);
    sizes.iter().flat_map(|&size| [size, -size]).collect()
}

/// Not finite, with several of the patterns that are NaN.
fn not_finite() -> Vec<f32> {
    let mut list = vec![f32::INFINITY, f32::NEG_INFINITY];
    list.extend([0x7FC0_0000, 0xFFC0_0000, 0x7F80_0001, 0xFFFF_FFFF].map(f32::from_bits));
    list
}

fn states() -> Vec<(f32, f32)> {
    let mut list = Vec::new();
    let all_phases: Vec<f32> = phases_inside().into_iter().chain(phases_outside()).collect();
    let all_increments: Vec<f32> = cycles().into_iter().chain(not_finite()).collect();
    for &phase in &all_phases {
        list.extend([0.0, -0.25, f32::MAX, f32::NAN].map(|increment| (phase, increment)));
    }
    for &increment in &all_increments {
        list.extend([-0.0, 0.75, 1.0, near(1.0, 1), -0.25].map(|phase| (phase, increment)));
    }
    list
}

fn edges() -> Vec<Vec<u64>> {
    let mut rows = vec![given(NEW, 0.0, 0.0, 0.0, 0.0)];
    for (phase, increment) in states() {
        for op in [INCREMENT, PHASE, RESET, NEXT] {
            rows.push(given(op, phase, increment, 0.0, 0.0));
        }
        for op in [SET_INCREMENT, SET_PHASE] {
            rows.push(given(op, phase, increment, -0.25, 0.0));
        }
        rows.push(given(SET_FREQUENCY, phase, increment, 440.0, 48000.0));
    }
    for phase in phases_inside() {
        rows.extend(cycles().into_iter().map(|increment| given(NEXT, phase, increment, 0.0, 0.0)));
    }
    for cycles in cycles().into_iter().chain(not_finite()) {
        for (phase, increment) in [(0.0, 0.0), (-0.0, -0.0), (1.0, -f32::MAX), (near(1.0, 1), 0.5)] {
            rows.push(given(SET_INCREMENT, phase, increment, cycles, 0.0));
            rows.push(given(SET_PHASE, phase, increment, cycles, 0.0));
        }
    }
    for frequency in frequencies() {
        rows.extend(rates().into_iter().map(|rate| given(SET_FREQUENCY, 0.5, 0.25, frequency, rate)));
    }
    rows
}

fn frequencies() -> Vec<f32> {
    let sizes = [0.0, TINY, LARGEST_SUBNORMAL, f32::MIN_POSITIVE, 0.5, 1.0, 440.0, 12543.854, 20000.0, two_to(24)];
    let mut list: Vec<f32> = sizes.iter().flat_map(|&size| [size, -size]).collect();
    list.extend([near(f32::MAX, -1), f32::MAX, -f32::MAX]);
    list.extend(not_finite());
    list
}

fn rates() -> Vec<f32> {
    // The largest float over one just below 1 is where a quotient stops being finite.
    let mut list = vec![TINY, LARGEST_SUBNORMAL, f32::MIN_POSITIVE, near(f32::MIN_POSITIVE, 1), 0.5];
    list.extend([near(1.0, -1), 1.0, near(1.0, 1), 3.0, 8000.0, 16384.0, 44100.0, 48000.0, 192000.0, f32::MAX]);
    list.extend([0.0, -0.0, -TINY, -1.0, -48000.0, -f32::MAX]);
    list.extend(not_finite());
    list
}

// The random rows: one in eight refused.

fn random(chance: &mut Chance) -> Vec<u64> {
    let refused = chance.below(8) == 0;
    loop {
        let mut row = inside(chance);
        if refused {
            spoil(&mut row, chance);
        }
        if in_domain(&row) != refused {
            return row;
        }
    }
}

fn inside(chance: &mut Chance) -> Vec<u64> {
    let op = chance.below(7);
    let phase = random_phase(chance);
    let increment = random_cycles(phase, chance);
    let (a, b) = match op {
        SET_FREQUENCY => (random_frequency(chance), random_rate(chance)),
        SET_INCREMENT | SET_PHASE => (random_cycles(0.0, chance), 0.0),
        _ => (0.0, 0.0),
    };
    given(op, phase, increment, a, b)
}

fn random_phase(chance: &mut Chance) -> f32 {
    match chance.below(8) {
        0..=3 => chance.dense() as f32,
        // Every pattern from 0 to 1, all equally likely.
        4 => f32::from_bits(chance.between(0, 0x3F80_0000) as u32),
        5 => near(1.0, -(chance.below(4) as i32)),
        6 => near(0.5, chance.between(-3, 3) as i32),
        _ => chance.pick(&phases_inside()),
    }
}

/// A finite number of cycles; some bring the phase that it is added to near a whole number.
fn random_cycles(phase: f32, chance: &mut Chance) -> f32 {
    let sign = chance.pick(&[1.0, -1.0]);
    let size = match chance.below(8) {
        0 | 1 => chance.dense() as f32,
        2 => chance.scaled(-30, 3) as f32,
        3 => chance.scaled(18, 26) as f32,
        4 => f32::from_bits(chance.between(0, 0x7F7F_FFFF) as u32),
        5 => chance.pick(&cycles()),
        _ => return near(chance.between(-4, 4) as f32 - phase, chance.between(-3, 3) as i32),
    };
    sign * size
}

fn random_frequency(chance: &mut Chance) -> f32 {
    match chance.below(4) {
        0 | 1 => 20000.0 * chance.dense() as f32,
        2 => -20000.0 * chance.dense() as f32,
        _ => random_cycles(0.0, chance),
    }
}

fn random_rate(chance: &mut Chance) -> f32 {
    match chance.below(4) {
        0 | 1 => chance.between(8000, 192000) as f32,
        2 => chance.pick(&[44100.0, 48000.0, 88200.0, 96000.0, 192000.0]),
        _ => f32::from_bits(chance.between(1, 0x7F7F_FFFF) as u32),
    }
}

/// One field moved out of its range; the caller draws again where that field is not read by the call.
fn spoil(row: &mut [u64], chance: &mut Chance) {
    match chance.below(5) {
        0 => row[1] = state_bits(chance.pick(&phases_outside())),
        // Any pattern above 1, infinity and NaN among them, or any below 0.
        1 => {
            let sign = chance.pick(&[0, 0x8000_0000]);
            row[1] = state_bits(f32::from_bits(chance.between(0x3F80_0001, 0x7FFF_FFFF) as u32 | sign));
        }
        2 => row[2] = state_bits(chance.pick(&not_finite())),
        3 => row[3] = chance.pick(&not_finite()).to_bits() as u64,
        _ => {
            let bad = chance.pick(&rates());
            row[4] = if row[0] == SET_FREQUENCY { bad.to_bits() as u64 } else { row[4] };
        }
    }
}
