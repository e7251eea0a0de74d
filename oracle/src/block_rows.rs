//! Rows of the two block calls: op, waveform (0 Sine to 4 Pulse, in the original's order, or 6, the rounded triangle,
//! which is ours: rounded.rs), duty, rate, frequency, depth, start phase, samples asked for; then answer, phase after,
//! and every sample. Ten u64 a row and one for each sample asked for, every float as its bits.
//!
//! `set` is the oscillator too, made with other settings, then given its waveform and a note's frequency; `cleared` has
//! been given a note's frequency that would be refused, and that was cleared. `reset` is set back from the start phase,
//! the oscillator after it was set. Only the LFO has a depth; elsewhere it is 1. Only Pulse has a duty; the word of a
//! rounded triangle's is anything, and is not read. The samples are 42 each before the call.

use crate::block::Block;
use crate::blocks::generators::oscillator::OscillatorBlock;
use crate::blocks::modulators::lfo::LfoBlock;
use crate::chance::Chance;
use crate::check_copies::run;
use crate::envelope_rows::{random_rate, RATES};
use crate::math::Real;
use crate::opened;
use crate::patterns::near;
use crate::rows::{self, says, Part};
use crate::waveform::{Waveform, DEFAULT_DUTY_CYCLE};
use crate::waveform_rows::{any_duty, driven, duties, is_a_block, not_a_unit, one_by_one, phases, random_phase};
use crate::waveform_rows::{wave_words, Wave, FREQUENCIES, TAU, TINY, UNWRITTEN};
use crate::waveform_rows::{PULSE, ROUNDED, SAWTOOTH, SINE, SQUARE, TRIANGLE};

pub const PART: Part = Part {
    name: "blocks",
    word: 8,
    words: 10,
    more_at: Some(7),
    answer_at: Some(8),
    ops: &["oscillator", "lfo", "oscillator, set", "oscillator, reset", "lfo, reset", "oscillator, cleared"],
    edges,
    random: |chance| rows::one_in(11, rows::each(chance.beside(), random_rounded), rows::each(chance, random)),
    answer,
};

const OSCILLATOR: u64 = 0;
const LFO: u64 = 1;
const SET: u64 = 2;
const SET_AND_RESET: u64 = 3;
const LFO_RESET: u64 = 4;
const CLEARED: u64 = 5;

fn is_lfo(op: u64) -> bool {
    [LFO, LFO_RESET].contains(&op)
}

fn is_reset(op: u64) -> bool {
    [SET_AND_RESET, LFO_RESET].contains(&op)
}

/// A frequency that would be refused.
const UNHEARD: f64 = -1.0;

/// Pulse occurs twice: with the duty of the original's block, and with another.
const WAVES: [Wave; 6] =
    [(SINE, 0.0), (SQUARE, 0.0), (SAWTOOTH, 0.0), (TRIANGLE, 0.0), (PULSE, DEFAULT_DUTY_CYCLE), (PULSE, 0.3)];

const LENGTHS: [u64; 6] = [0, 1, 63, 64, 65, LONGEST];
const LONGEST: u64 = 1000;

/// A row's given words, by their names.
#[derive(Clone, Copy)]
struct Asked {
    op: u64,
    wave: Wave,
    rate: u64,
    frequency: f64,
    depth: f64,
    phase: f64,
    length: u64,
}

impl Asked {
    fn words(self) -> Vec<u64> {
        let [shape, duty] = wave_words(self.wave);
        let depth = if is_lfo(self.op) { self.depth } else { 1.0 };
        // The replay cannot see a NaN's payload, and a phase is compared by its bits.
        let phase = if self.phase.is_nan() { f64::NAN } else { self.phase };
        let [frequency, depth, phase] = [self.frequency, depth, phase].map(f64::to_bits);
        vec![self.op, shape, duty, self.rate, frequency, depth, phase, self.length]
    }
}

fn float(row: &[u64], at: usize) -> f64 {
    f64::from_bits(row[at])
}

/// The phase that the block call starts from.
fn start(row: &[u64]) -> f64 {
    if is_reset(row[0]) {
        0.0
    } else {
        float(row, 6)
    }
}

fn highest(op: u64) -> f64 {
    if is_lfo(op) {
        100.0
    } else {
        20000.0
    }
}

/// 01's refusals: rate and duty, then the rest.
fn refusal(row: &[u64]) -> Option<u64> {
    let unit = 0.0..=1.0;
    if !(8000..=192000).contains(&row[3]) || row[1] == PULSE && !unit.contains(&float(row, 2)) {
        return Some(6);
    }
    let sounds = (0.0..=highest(row[0])).contains(&float(row, 4)) && unit.contains(&float(row, 5));
    (!sounds || !(0.0..1000.0).contains(&start(row))).then_some(9)
}

/// Answer, phase after, samples.
fn answer(row: &[u64]) -> Vec<u64> {
    let (said, phase, samples) = match refusal(row) {
        Some(number) => (says(number, 0, 0), start(row).to_bits(), vec![UNWRITTEN.to_bits(); row[7] as usize]),
        None => {
            let (samples, phase) = ask(row);
            (says(0, 0, row[7]), phase, samples)
        }
    };
    assert!(refusal(row).is_some() || f64::from_bits(phase).is_finite());
    assert!(samples.iter().all(|&sample| f64::from_bits(sample).is_finite()), "not finite at {row:?}");
    [vec![said, phase], samples].concat()
}

/// Every sample and the phase after, as bits.
type Played = (Vec<u64>, u64);

/// The original's block, which has one duty only and no rounded triangle: those are made sample by sample. Where both
/// can be asked they agree, and in the phase after always.
fn ask(row: &[u64]) -> Played {
    let by_samples = sample_by_sample(row);
    let by_block = if is_lfo(row[0]) { lfo(row) } else { oscillator(row) };
    let same = by_block.0 == by_samples.0 || !is_a_block((row[1], float(row, 2)));
    assert!(same && by_block.1 == by_samples.1, "the block parts ways at {row:?}");
    by_samples
}

/// The opened copy from the given phase; from +0, where it starts or is set back to, the untouched copy must agree.
fn oscillator(row: &[u64]) -> Played {
    let (frequency, waveform) = (float(row, 4), driven(row[1]));
    let is_set = [SET, SET_AND_RESET].contains(&row[0]);
    // Noise stops the program.
    let (own, first) = if is_set { (UNHEARD, Waveform::Noise) } else { (frequency, waveform) };
    let mut plain = OscillatorBlock::<f64>::new(own, first, None);
    let mut open = opened::oscillator::OscillatorBlock::<f64>::new(own, first, None);
    if is_set {
        (plain.set_waveform(waveform), open.set_waveform(waveform));
        (plain.set_midi_frequency(frequency), open.set_midi_frequency(frequency));
    } else if row[0] == CLEARED {
        (plain.set_midi_frequency(UNHEARD), open.set_midi_frequency(UNHEARD));
        (plain.clear_midi_frequency(), open.clear_midi_frequency());
    }
    open.set_opened_phase(float(row, 6));
    let samples = played(row, &mut plain, &mut open);
    (samples, open.opened_phase().to_bits())
}

/// The LFO's samples and phase, by both copies as above.
fn lfo(row: &[u64]) -> Played {
    let (frequency, depth, waveform) = (float(row, 4), float(row, 5), driven(row[1]));
    let mut plain = LfoBlock::<f64>::new(frequency, depth, waveform, None);
    let mut open = opened::lfo::LfoBlock::<f64>::new(frequency, depth, waveform, None);
    open.set_opened_phase(float(row, 6));
    let samples = played(row, &mut plain, &mut open);
    (samples, open.opened_phase().to_bits())
}

/// The opened copy's samples. Before a reset the untouched one plays some, which leave it at another phase.
fn played(row: &[u64], plain: &mut impl Block<f64>, open: &mut impl Block<f64>) -> Vec<u64> {
    let (rate, length) = (row[3] as f64, row[7] as usize);
    if is_reset(row[0]) {
        run(plain, rate, 5);
        (plain.reset(), open.reset());
    }
    let samples = run(open, rate, length);
    assert!(start(row).to_bits() != 0 || samples == run(plain, rate, length));
    samples
}

/// The block's increment, its loop and its reduction, about single samples.
fn sample_by_sample(row: &[u64]) -> Played {
    let (wave, mut phase) = ((row[1], float(row, 2)), start(row));
    let mut samples = vec![0.0; row[7] as usize];
    one_by_one(&mut samples, wave, &mut phase, float(row, 4) / row[3] as f64 * TAU, float(row, 5));
    (samples.into_iter().map(f64::to_bits).collect(), Real::rem_euclid(phase, TAU).to_bits())
}

// The edges.

/// A row to vary: 440 Hz (LFO 2.2 Hz) at 44,100 Hz, three samples from 1 radian on.
fn usual(op: u64, wave: Wave) -> Asked {
    Asked { op, wave, rate: 44100, frequency: at_op(op, 440.0), depth: 0.75, phase: 1.0, length: 3 }
}

/// The oscillator's frequency, or for the LFO a 200th of it: both end at the highest allowed.
fn at_op(op: u64, frequency: f64) -> f64 {
    if is_lfo(op) {
        frequency / 200.0
    } else {
        frequency
    }
}

fn frequencies(op: u64) -> Vec<f64> {
    let mut list = vec![0.0, -0.0, TINY, near(highest(op), -1), highest(op)];
    list.extend(FREQUENCIES.map(|frequency| at_op(op, frequency)));
    list
}

fn depths() -> Vec<f64> {
    vec![0.0, -0.0, TINY, 0.1, near(1.0, -1), 1.0]
}

fn not_a_rate() -> Vec<u64> {
    vec![0, 7999, 192001, u32::MAX as u64]
}

fn not_a_frequency(op: u64) -> Vec<f64> {
    vec![-TINY, -1.0, near(highest(op), 1), f64::INFINITY, f64::NEG_INFINITY, f64::NAN, f64::from_bits(u64::MAX)]
}

fn not_a_phase() -> Vec<f64> {
    vec![-TINY, -1.0, 1000.0, 1e300, f64::INFINITY, f64::NEG_INFINITY, f64::NAN]
}

fn edges() -> Vec<Vec<u64>> {
    let mut rows = Vec::new();
    for op in [OSCILLATOR, LFO] {
        rows.extend(WAVES.into_iter().flat_map(|wave| edges_of_wave(usual(op, wave))));
        // With no sample there is the reduction alone.
        rows.extend(phases().into_iter().map(|phase| Asked { phase, length: 0, ..usual(op, WAVES[0]) }));
        rows.extend(edges_of_duty(op));
    }
    for wave in WAVES {
        rows.extend(depths().into_iter().map(|depth| Asked { depth, ..usual(LFO, wave) }));
        rows.extend([0, 1, 64].map(|length| Asked { length, ..usual(SET, wave) }));
    }
    rows.extend([SET_AND_RESET, LFO_RESET, CLEARED].into_iter().flat_map(edges_of_states));
    rows.extend([OSCILLATOR, LFO, SET].into_iter().flat_map(edges_of_refusals));
    rows.extend(edges_of_documents());
    rows.extend(edges_of_rounded());
    rows.into_iter().map(Asked::words).collect()
}

/// Every length, pitch and start phase.
fn edges_of_wave(usual: Asked) -> Vec<Asked> {
    let mut rows = edges_of_length(usual);
    rows.extend(edges_of_pitch(usual));
    rows.extend(phases().into_iter().map(|phase| Asked { phase, ..usual }));
    rows
}

/// Set back or cleared: each shape, and some settings that are refused. After a reset no start phase is refused.
fn edges_of_states(op: u64) -> Vec<Asked> {
    let mut rows = Vec::new();
    for wave in WAVES {
        rows.extend([0, 1, 5].map(|length| Asked { length, ..usual(op, wave) }));
    }
    rows.extend(edges_of_settings(usual(op, (TRIANGLE, 0.0))));
    rows
}

/// Start phases, and settings that are refused.
fn edges_of_settings(usual: Asked) -> Vec<Asked> {
    let mut rows: Vec<Asked> = [0.0, -0.0, 999.99, 1000.0, -1.0, f64::NAN].map(|phase| Asked { phase, ..usual }).into();
    rows.extend([UNHEARD, f64::NAN].map(|frequency| Asked { frequency, ..usual }));
    rows.extend([Asked { rate: 7999, ..usual }, Asked { depth: 2.0, ..usual }]);
    rows
}

/// The rounded triangle as the others, in every op; with any duty, since none is read.
fn edges_of_rounded() -> Vec<Asked> {
    let mut rows = Vec::new();
    for op in [OSCILLATOR, LFO] {
        rows.extend(edges_of_wave(usual(op, (ROUNDED, 0.0))));
        let odd = duties().into_iter().chain(not_a_unit());
        rows.extend(odd.map(|duty| Asked { phase: 6.2, ..usual(op, (ROUNDED, duty)) }));
    }
    rows.extend(depths().into_iter().map(|depth| Asked { depth, ..usual(LFO, (ROUNDED, f64::NAN)) }));
    for op in 0..PART.ops.len() as u64 {
        let usual = usual(op, (ROUNDED, f64::NAN));
        rows.extend([0, 1, 5].map(|length| Asked { length, ..usual }));
        rows.extend(edges_of_settings(usual));
    }
    rows
}

/// The usual one at every length but the longest; the fastest, from the last phase, at every length.
fn edges_of_length(usual: Asked) -> Vec<Asked> {
    let fastest = Asked { rate: 8000, frequency: highest(usual.op), phase: 999.99, ..usual };
    let mut rows: Vec<Asked> = LENGTHS.map(|length| Asked { length, ..fastest }).into();
    rows.extend(LENGTHS.into_iter().filter(|&length| length < LONGEST).map(|length| Asked { length, ..usual }));
    rows
}

fn edges_of_pitch(usual: Asked) -> Vec<Asked> {
    let mut rows = Vec::new();
    for frequency in frequencies(usual.op) {
        rows.extend(RATES.map(|rate| Asked { rate, frequency, phase: 6.0, ..usual }));
    }
    rows
}

fn edges_of_duty(op: u64) -> Vec<Asked> {
    let mut rows = Vec::new();
    for duty in duties() {
        let phases = [0.0, 1.0, duty * TAU, near(TAU, -1), 999.99];
        rows.extend(phases.map(|phase| Asked { phase, ..usual(op, (PULSE, duty)) }));
    }
    rows
}

/// Each setting outside its domain; two of them, where 6 goes before 9; at every length.
fn edges_of_refusals(op: u64) -> Vec<Asked> {
    let mut rows = Vec::new();
    for wave in [(SINE, 0.0), (TRIANGLE, 0.0), (PULSE, 0.3)] {
        let usual = usual(op, wave);
        rows.extend(not_a_rate().into_iter().map(|rate| Asked { rate, ..usual }));
        rows.extend(not_a_frequency(op).into_iter().map(|frequency| Asked { frequency, ..usual }));
        rows.extend(not_a_phase().into_iter().map(|phase| Asked { phase, ..usual }));
        rows.extend([0.0, f64::NAN].map(|phase| Asked { rate: 7999, frequency: f64::NAN, phase, ..usual }));
        if is_lfo(op) {
            rows.extend(not_a_unit().into_iter().map(|depth| Asked { depth, ..usual }));
        }
    }
    for duty in not_a_unit() {
        rows.extend([1.0, 1000.0].map(|phase| Asked { phase, ..usual(op, (PULSE, duty)) }));
    }
    rows.extend(LENGTHS.map(|length| Asked { length, frequency: -1.0, ..usual(op, (SQUARE, 0.0)) }));
    rows
}

/// Two rows that docs/DIFFERENCES.md names: the LFO's triangle, which passes its depth at sample 27, and a sine at the
/// middle of a step near the crest, where ours is farthest off.
fn edges_of_documents() -> [Asked; 2] {
    let triangle = usual(LFO, (TRIANGLE, 0.0));
    let crest = Asked { phase: 1016.5 / 4096.0 * TAU, ..usual(OSCILLATOR, (SINE, 0.0)) };
    [Asked { rate: 8000, frequency: 100.0, depth: 1.0, length: 65, ..triangle }, Asked { length: 1, ..crest }]
}

// The random rows.

fn random(chance: &mut Chance) -> Vec<u64> {
    random_of(&[SINE, SQUARE, SAWTOOTH, TRIANGLE, PULSE, PULSE], chance)
}

/// Of a rounded triangle, with any duty.
fn random_rounded(chance: &mut Chance) -> Vec<u64> {
    let mut row = random_of(&[ROUNDED], chance);
    any_duty(&mut row[2], chance);
    row
}

fn random_of(shapes: &[u64], chance: &mut Chance) -> Vec<u64> {
    let op = chance.pick(&[OSCILLATOR, OSCILLATOR, LFO, LFO, SET, SET_AND_RESET, LFO_RESET, CLEARED]);
    let shape = chance.pick(shapes);
    let duty = random_duty(chance);
    let rate = random_rate(chance);
    let frequency = random_frequency(op, rate, chance);
    let phase = random_phase(duty, frequency / rate as f64 * TAU, chance).min(near(1000.0, -1));
    let (depth, length) = (random_depth(shape, chance), random_length(chance));
    let asked = Asked { op, wave: (shape, duty), rate, frequency, depth, phase, length };
    match chance.below(8) {
        0 => spoilt(asked, chance).words(),
        _ => asked.words(),
    }
}

/// One setting moved out of its domain.
fn spoilt(asked: Asked, chance: &mut Chance) -> Asked {
    let (shape, _) = asked.wave;
    let unit = chance.pick(&not_a_unit());
    match chance.below(6) {
        0 if shape == PULSE => Asked { wave: (PULSE, unit), ..asked },
        1 if is_lfo(asked.op) => Asked { depth: unit, ..asked },
        0..=2 => Asked { rate: chance.pick(&not_a_rate()), ..asked },
        3 => Asked { frequency: chance.pick(&not_a_frequency(asked.op)), ..asked },
        _ => Asked { phase: chance.pick(&not_a_phase()), ..asked },
    }
}

/// In one row of two the duty is that of the original's block.
fn random_duty(chance: &mut Chance) -> f64 {
    match chance.below(8) {
        0 => chance.pick(&duties()),
        1..=3 => chance.dense(),
        _ => DEFAULT_DUTY_CYCLE,
    }
}

/// At all magnitudes; some with a whole number of samples in a cycle, which meet the corners again and again.
fn random_frequency(op: u64, rate: u64, chance: &mut Chance) -> f64 {
    let samples = (rate as f64 / highest(op)).ceil() + chance.below(100) as f64;
    match chance.below(8) {
        0 => chance.pick(&frequencies(op)),
        1 => highest(op) * chance.dense(),
        2 => chance.scaled(-60, 5),
        3 => near(rate as f64 / samples, chance.between(-1, 0)),
        _ => highest(op) * chance.dense() * chance.dense(),
    }
}

/// The depth of a sine is never tiny: a sine is measured, and a millionth of its depth must be a float.
fn random_depth(shape: u64, chance: &mut Chance) -> f64 {
    match chance.below(4) {
        0 if shape != SINE => chance.pick(&depths()),
        1 => chance.scaled(-60, -1),
        2 => 1.0,
        _ => chance.dense(),
    }
}

/// Mostly short; one in nine or so of hundreds of samples.
fn random_length(chance: &mut Chance) -> u64 {
    match chance.below(16) {
        0 => chance.pick(&LENGTHS),
        1 => chance.below(LONGEST + 1),
        2..=4 => chance.pick(&[63, 64, 65]),
        _ => chance.below(40),
    }
}
