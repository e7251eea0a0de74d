//! Rows of the lanes, the simd half of polyblep: op, four t or phases, four dt (of an apply call phase_inc and three
//! zeros), duty, four samples; then answer and four values. 19 u64 a row, every float as its bits.
//!
//! What a call does not take is 0. A refused apply call gives its samples as they came; a refused correction gives four
//! +0. A NaN among given samples is 7FF8000000000000; the replay cannot see the payload of another.

use std::array::from_fn;
use std::collections::HashSet;

use lanes::Four;

use crate::chance::Chance;
use crate::patterns::{near, two_to};
use crate::polyblep_rows::{
    duties_inside, not_finite, phase_about, phases_at, phases_of_pulse, phases_outside, random_outside, random_phase,
    random_step, steps_inside, steps_outside, DUTY, LARGEST_SUBNORMAL, OPS, PULSE, PULSE_STEPS, TINY,
};
use crate::rows::{self, Part};

pub const PART: Part = Part {
    name: "lanes",
    word: 8,
    words: 19,
    more_at: None,
    answer_at: Some(SAMPLES + 4),
    ops: &[
        "poly_blep_simd",
        "poly_blamp_simd",
        "apply_polyblep_saw",
        "apply_polyblep_square",
        "apply_polyblep_pulse",
        "apply_polyblamp_triangle",
    ],
    edges,
    random: |chance| rows::each(chance, random),
    answer,
};

/// The two corrections come before the four calls that apply them, whose numbers are those of the waveforms.
pub const SAW: u64 = 2;
pub const SQUARE: u64 = 3;

/// Where four words of a row begin, and the duty.
const T: usize = 1;
const DT: usize = 5;
const DUTY_AT: usize = 9;
const SAMPLES: usize = 10;

/// A call's arguments; the dt of an apply call are four times its phase_inc.
#[derive(Clone, Copy)]
pub struct Call {
    pub op: u64,
    pub t: Four,
    pub dt: Four,
    pub duty: f64,
    pub samples: Four,
}

impl Call {
    pub fn of(row: &[u64]) -> Self {
        let four = |at: usize| from_fn(|i| f64::from_bits(row[at + i]));
        let (op, dt) = (row[0], four(DT));
        let dt = if op < SAW { dt } else { [dt[0]; 4] };
        Self { op, t: four(T), dt, duty: f64::from_bits(row[DUTY_AT]), samples: four(SAMPLES) }
    }

    fn words(&self) -> Vec<u64> {
        let applied = self.op >= SAW;
        let dt = if applied { [self.dt[0], 0.0, 0.0, 0.0] } else { self.dt };
        let duty = if self.op == PULSE { self.duty } else { 0.0 };
        let samples = if applied { self.samples.map(|x| if x.is_nan() { f64::NAN } else { x }) } else { [0.0; 4] };
        let floats = [&self.t[..], &dt, &[duty], &samples].concat();
        [vec![self.op], floats.into_iter().map(f64::to_bits).collect()].concat()
    }

    /// 01's and 02's domain, tested by number in every lane: -0 counts as 0, a NaN is outside.
    fn in_domain(&self) -> bool {
        let unit = 0.0..=1.0;
        self.t.iter().all(|t| unit.contains(t))
            && self.dt.iter().all(|dt| (0.0..=4.0).contains(dt))
            && (self.op != PULSE || unit.contains(&self.duty))
            && (self.op < SAW || self.samples.iter().all(|x| x.is_finite()))
    }

    /// What the original's lanes answer.
    pub fn values(&self) -> Four {
        let Call { op, t, dt, duty, samples } = *self;
        match op {
            0 => lanes::poly_blep_simd(t, dt),
            1 => lanes::poly_blamp_simd(t, dt),
            SAW => lanes::apply_polyblep_saw(samples, t, dt[0]),
            SQUARE => lanes::apply_polyblep_square(samples, t, dt[0]),
            PULSE => lanes::apply_polyblep_pulse(samples, t, dt[0], duty),
            5 => lanes::apply_polyblamp_triangle(samples, t, dt[0]),
            _ => panic!("no op {op}"),
        }
    }

    /// The call on the samples that its waveform has before it is corrected.
    pub fn on_naive(self) -> Self {
        let naive = |phase| match self.op {
            SAW => 2.0 * phase - 1.0,
            SQUARE => step(phase < 0.5),
            PULSE => step(phase < self.duty),
            _ if phase < 0.5 => 4.0 * phase - 1.0,
            _ => 3.0 - 4.0 * phase,
        };
        Self { samples: self.t.map(naive), ..self }
    }
}

fn step(is_high: bool) -> f64 {
    if is_high {
        1.0
    } else {
        -1.0
    }
}

/// Number and values.
fn answer(row: &[u64]) -> Vec<u64> {
    let call = Call::of(row);
    if !call.in_domain() {
        return [&[9], &row[SAMPLES..]].concat();
    }
    let values = call.values();
    assert!(values.iter().all(|x| x.is_finite()), "an answer in the domain is not finite at {row:?}");
    [&[0], &values.map(f64::to_bits)[..]].concat()
}

// The edges: the points of polyblep's, four in a row, no two lanes alike.

fn samples_inside() -> Vec<f64> {
    let small = [0.0, -0.0, TINY, -TINY, LARGEST_SUBNORMAL, -f64::MIN_POSITIVE, -two_to(-53)];
    let large = [0.25, -1.0, near(1.0, 1), -2.5, two_to(53), f64::MAX, -f64::MAX];
    [small, large].concat()
}

/// What is outside is put in the place of one of these.
fn plain(op: u64) -> Call {
    let dt = if op < SAW { [0.25, 0.5, 1.0, 4.0] } else { [0.25; 4] };
    Call { op, t: [0.5, 0.125, 0.0, 1.0], dt, duty: DUTY, samples: [-0.5, f64::MAX, -0.0, 1.5] }
}

fn edges() -> Vec<Vec<u64>> {
    let mut calls: Vec<Call> = (0..SAW).flat_map(corrections).collect();
    calls.extend((SAW..OPS).flat_map(applied));
    calls.extend((0..OPS).flat_map(outside));
    calls.iter().map(Call::words).collect()
}

/// Every point in each of the four places.
fn corrections(op: u64) -> Vec<Call> {
    let steps = steps_inside().into_iter();
    let points: Vec<_> = steps.flat_map(|dt| distinct(phases_at(op, dt)).map(move |t| (t, dt))).collect();
    let groups = fours(&points, |a, b| alike(a.0, b.0) || alike(a.1, b.1));
    let turned = groups.into_iter().flat_map(|group| (0..4).map(move |by| from_fn(|i| group[(i + by) % 4])));
    turned.map(|group: [_; 4]| Call { t: group.map(|p| p.0), dt: group.map(|p| p.1), ..plain(op) }).collect()
}

/// Four phases at each dt, and of a pulse at each duty, on naive samples; where the duty is the plain one also on
/// samples of all kinds, each kind in each place. A large sample hides its correction.
fn applied(op: u64) -> Vec<Call> {
    let mut given: Vec<_> = steps_inside().into_iter().map(|dt| (dt, DUTY, phases_at(op, dt))).collect();
    if op == PULSE {
        let crossed = duties_inside().into_iter().flat_map(|duty| PULSE_STEPS.map(|dt| (dt, duty)));
        given.extend(crossed.map(|(dt, duty)| (dt, duty, phases_of_pulse(dt, duty))));
    }
    let groups = given.into_iter().flat_map(|(dt, duty, phases)| {
        let phases: Vec<_> = distinct(phases).collect();
        fours(&phases, |&a, &b| alike(a, b)).into_iter().map(move |group| (dt, duty, group))
    });
    let (mut calls, kinds) = (Vec::new(), samples_inside());
    for (turn, (dt, duty, group)) in groups.enumerate() {
        let turned = |by: usize| {
            let samples = from_fn(|i| kinds[(i + by) % kinds.len()]);
            Call { op, t: from_fn(|i| group[(i + by) % 4]), dt: [dt; 4], duty, samples }
        };
        calls.push(turned(turn).on_naive());
        if duty == DUTY {
            calls.push(turned(turn + 1));
        }
    }
    calls.push(uncorrected(op));
    calls
}

/// Where no correction is due: a sample of -0 becomes +0 where 0 is added to it.
fn uncorrected(op: u64) -> Call {
    Call { t: [0.1875, 0.3125, 0.6875, 0.8125], dt: [0.03125; 4], samples: [-0.0, 0.0, -0.0, -TINY], ..plain(op) }
}

/// One lane outside in each place, by its t, its dt or its sample, and two in any two places; a dt and a duty of all.
fn outside(op: u64) -> Vec<Call> {
    let mut calls = Vec::new();
    for place in 0..4 {
        calls.extend(phases_outside().into_iter().map(|bad| with_t(plain(op), place, bad)));
        calls.extend(steps_outside().into_iter().map(|bad| with_dt(plain(op), place, bad)));
        for other in 0..place {
            calls.push(with_t(with_t(plain(op), place, 1.5), other, -1.0));
            calls.push(with_dt(with_dt(plain(op), place, 5.0), other, -1.0));
            calls.push(with_t(with_dt(plain(op), place, 5.0), other, -1.0));
        }
    }
    if op >= SAW {
        calls.extend(samples_outside(op));
    }
    if op == PULSE {
        calls.extend(phases_outside().into_iter().map(|duty| Call { duty, ..plain(op) }));
    }
    calls
}

fn samples_outside(op: u64) -> Vec<Call> {
    let mut calls = Vec::new();
    for place in 0..4 {
        calls.extend(not_finite().into_iter().map(|bad| with_sample(plain(op), place, bad)));
        for other in 0..4 {
            calls.push(with_sample(with_t(plain(op), place, 1.5), other, f64::NAN));
            calls.push(with_sample(with_sample(plain(op), place, f64::INFINITY), other, f64::NEG_INFINITY));
        }
    }
    calls
}

fn with_t(mut call: Call, place: usize, t: f64) -> Call {
    call.t[place] = t;
    call
}

/// An apply call has one dt for all.
fn with_dt(mut call: Call, place: usize, dt: f64) -> Call {
    call.dt[place] = dt;
    if call.op < SAW {
        call
    } else {
        Call { dt: [dt; 4], ..call }
    }
}

fn with_sample(mut call: Call, place: usize, sample: f64) -> Call {
    call.samples[place] = sample;
    call
}

/// Each once.
fn distinct(floats: Vec<f64>) -> impl Iterator<Item = f64> {
    let mut seen = HashSet::new();
    floats.into_iter().filter(move |x| seen.insert(x.to_bits()))
}

fn alike(x: f64, y: f64) -> bool {
    x.to_bits() == y.to_bits()
}

/// All of these, four at a time, no two of four alike; where the rest cannot fill four, with some once more.
fn fours<T: Copy>(points: &[T], alike: impl Fn(&T, &T) -> bool) -> Vec<[T; 4]> {
    let (mut left, mut groups) = (points.to_vec(), Vec::new());
    while let Some(&first) = left.first() {
        let mut group = [first; 4];
        left.remove(0);
        for filled in 1..4 {
            let fits = |point: &T| !group[..filled].iter().any(|other| alike(point, other));
            let point = left.iter().position(fits).map(|at| left.remove(at));
            group[filled] = point.unwrap_or_else(|| *points.iter().find(|point| fits(point)).expect("too few points"));
        }
        groups.push(group);
    }
    groups
}

// The random rows: one in eight refused.

fn random(chance: &mut Chance) -> Vec<u64> {
    let refused = chance.below(8) == 0;
    loop {
        let mut call = inside(chance.below(OPS), chance);
        if refused {
            call = (0..chance.between(1, 2)).fold(call, |call, _| spoilt(call, chance));
        }
        if call.in_domain() != refused {
            return call.words();
        }
    }
}

fn inside(op: u64, chance: &mut Chance) -> Call {
    let duty = random_phase(chance);
    let dt = if op < SAW { [(); 4].map(|_| random_step(chance)) } else { [random_step(chance); 4] };
    let t = dt.map(|dt| loop {
        let t = phase_about(op, dt, duty, chance);
        if (0.0..=1.0).contains(&t) {
            break t;
        }
    });
    let samples = [(); 4].map(|_| random_sample(chance));
    let call = Call { op, t, dt, duty, samples };
    if chance.below(2) == 0 {
        call.on_naive()
    } else {
        call
    }
}

fn random_sample(chance: &mut Chance) -> f64 {
    let sign = chance.pick(&[1.0, -1.0]);
    match chance.below(4) {
        0 => chance.pick(&samples_inside()),
        // Every finite pattern, all equally likely.
        1 => sign * f64::from_bits(chance.between(0, f64::MAX.to_bits() as i64) as u64),
        _ => sign * chance.scaled(-54, 3),
    }
}

/// One number moved out of its range; the caller draws again where the call does not take it.
fn spoilt(call: Call, chance: &mut Chance) -> Call {
    let (place, bad) = (chance.below(4) as usize, f64::from_bits(random_outside(chance)));
    match chance.below(4) {
        0 => with_t(call, place, bad),
        1 => with_dt(call, place, bad),
        2 => with_sample(call, place, chance.pick(&not_finite())),
        _ => Call { duty: bad, ..call },
    }
}
