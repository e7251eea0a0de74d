//! Rows of the envelope: op, the four settings, rate, samples asked for, the given state; then answer, the state
//! after, eight slots. 24 u64 a row, every float as its bits.
//!
//! A state is stage (0 to 4), level, stage_time, release_level. The slots are eight numbers, 42 each before the call,
//! of which the first are lent to `process`. A NaN in a given state is 7FF8000000000000, and comes back so.

use crate::block::Block;
use crate::chance::Chance;
use crate::check_copies::run;
use crate::context::DspContext;
use crate::opened::envelope::EnvelopeStage::{self, Attack, Decay, Idle, Release, Sustain};
use crate::parameter::ModulationValues;
use crate::patterns::near;
use crate::rows::{says, Part};
use crate::{blocks, opened};

pub const PART: Part = Part {
    name: "envelope",
    word: 8,
    words: 24,
    more_at: None,
    answer_at: Some(11),
    ops: &["note_on", "note_off", "reset", "process", "new"],
    edges,
    random: |chance| Box::new(Runs::new(chance)),
    answer,
};

const NOTE_ON: u64 = 0;
const NOTE_OFF: u64 = 1;
const RESET: u64 = 2;
const PROCESS: u64 = 3;
const NEW: u64 = 4;

const SLOTS: u64 = 8;
const UNWRITTEN: f64 = 42.0;
const TINY: f64 = f64::from_bits(1);
const FLOOR: f64 = 1e-6;

const STAGES: [EnvelopeStage; 5] = [Idle, Attack, Decay, Sustain, Release];
pub const RATES: [u64; 5] = [8000, 16384, 44100, 48000, 192000];

/// Attack, decay, sustain, release.
pub type Settings = [f64; 4];

/// Stage, level, stage_time, release_level.
pub type State = (EnvelopeStage, f64, f64, f64);

const FRESH: State = (Idle, 0.0, 0.0, 0.0);

/// A row's given words. Only `process` takes a rate and a length, and `new` no state.
fn given(op: u64, settings: Settings, rate: u64, length: u64, state: State) -> Vec<u64> {
    let (rate, length) = if op == PROCESS { (rate, length) } else { (0, 0) };
    let mut row = vec![op];
    row.extend(settings.map(f64::to_bits));
    row.extend([rate, length]);
    row.extend(state_words(if op == NEW { FRESH } else { state }));
    row
}

pub fn state_words((stage, level, stage_time, release_level): State) -> [u64; 4] {
    let place = STAGES.iter().position(|&one| one == stage).unwrap();
    [place as u64, state_bits(level), state_bits(stage_time), state_bits(release_level)]
}

/// The replay cannot see a NaN's payload, so a state has one NaN only.
fn state_bits(x: f64) -> u64 {
    if x.is_nan() {
        0x7FF8_0000_0000_0000
    } else {
        x.to_bits()
    }
}

fn settings_of(row: &[u64]) -> Settings {
    [1, 2, 3, 4].map(|at| f64::from_bits(row[at]))
}

/// The state that four words are.
pub fn state_of(words: &[u64]) -> State {
    let [level, stage_time, release_level] = [1, 2, 3].map(|at| f64::from_bits(words[at]));
    (STAGES[words[0] as usize], level, stage_time, release_level)
}

/// 01's refusals: settings and rate, which only `process` reads, then the state.
fn refusal(row: &[u64]) -> Option<u64> {
    let usable = settings_of(row).iter().all(|x| !x.is_nan()) && (8000..=192000).contains(&row[5]);
    let (_, level, stage_time, release_level) = state_of(&row[7..11]);
    let unit = 0.0..=1.0;
    let sound = unit.contains(&level) && unit.contains(&release_level) && (0.0..=11.0).contains(&stage_time);
    match row[0] {
        NEW => None,
        PROCESS if !usable => Some(6),
        _ if !sound => Some(9),
        _ => None,
    }
}

/// Answer, state after, slots.
fn answer(row: &[u64]) -> Vec<u64> {
    let mut slots = [UNWRITTEN; SLOTS as usize];
    let (said, after) = match refusal(row) {
        Some(number) => (says(number, 0, 0), [row[7], row[8], row[9], row[10]]),
        None => (says(0, 0, row[6]), ask(row, &mut slots[..row[6] as usize])),
    };
    let mut words = vec![said];
    words.extend(after);
    words.extend(slots.map(f64::to_bits));
    words
}

/// The opened copy from the given state; the untouched copy reaches states only along runs.
fn ask(row: &[u64], output: &mut [f64]) -> [u64; 4] {
    let mut block = opened_block(settings_of(row));
    let (stage, level, stage_time, release_level) = state_of(&row[7..11]);
    block.set_fields(stage, level, stage_time, release_level);
    match row[0] {
        NOTE_ON => block.note_on(),
        NOTE_OFF => block.note_off(),
        RESET => block.reset(),
        PROCESS => {
            let context = DspContext { sample_rate: row[5] as f64, buffer_size: output.len() };
            block.process(&[], &mut [output], &ModulationValues::none(), &context);
        }
        _ => {}
    }
    state_words(block.fields())
}

pub fn opened_block([attack, decay, sustain, release]: Settings) -> opened::envelope::EnvelopeBlock<f64> {
    opened::envelope::EnvelopeBlock::new(attack, decay, sustain, release)
}

// The edges.

fn times() -> Vec<f64> {
    let mut list = vec![f64::NEG_INFINITY, -1.0, -0.0, 0.0, TINY, near(0.001, -1), 0.001, near(0.001, 1), 0.02];
    list.extend([near(10.0, -1), 10.0, near(10.0, 1), f64::MAX, f64::INFINITY]);
    list
}

fn sustains() -> Vec<f64> {
    let mut list = vec![f64::NEG_INFINITY, -1.0, -TINY, -0.0, 0.0, TINY, FLOOR, 0.1, 0.3, 0.5];
    list.extend([near(1.0, -1), 1.0, near(1.0, 1), 2.0, f64::INFINITY]);
    list
}

fn levels_inside() -> Vec<f64> {
    vec![0.0, -0.0, TINY, near(FLOOR, -1), FLOOR, near(FLOOR, 1), 0.5, near(1.0, -1), 1.0]
}

fn levels_outside() -> Vec<f64> {
    vec![-TINY, near(1.0, 1), 2.0, -1.0, f64::INFINITY, f64::NEG_INFINITY, f64::NAN]
}

fn stage_times_inside() -> Vec<f64> {
    vec![0.0, -0.0, TINY, 1.0 / 48000.0, 0.001, 1.0, near(11.0, -1), 11.0]
}

fn stage_times_outside() -> Vec<f64> {
    vec![-TINY, -1.0, near(11.0, 1), f64::INFINITY, f64::NAN]
}

fn not_numbers() -> [f64; 4] {
    [0x7FF8_0000_0000_0000, 0xFFF8_0000_0000_0000, 0x7FF0_0000_0000_0001, u64::MAX].map(f64::from_bits)
}

/// The ops that take a state.
const ON_A_STATE: [u64; 4] = [NOTE_ON, NOTE_OFF, RESET, PROCESS];

/// Settings to vary one at a time, and states in the middle of a stage.
const PLAIN: Settings = [0.02, 0.05, 0.3, 0.1];
const MIDST: [State; 5] = [
    (Idle, 0.0, 0.0, 0.0),
    (Attack, 0.25, 0.005, 0.5),
    (Decay, 0.75, 0.0125, 0.0),
    (Sustain, 0.3, 0.0, 0.0),
    (Release, 0.3, 0.04, 0.5),
];

fn edges() -> Vec<Vec<u64>> {
    [edges_of_settings(), edges_of_states(), edges_of_refusals()].concat()
}

/// Where the clamps begin to act, and each stage at its last float of time.
fn edges_of_settings() -> Vec<Vec<u64>> {
    let mut rows = Vec::new();
    for (at, stage) in [(0, Attack), (1, Decay), (3, Release)] {
        for time in times() {
            let settings = with(at, time);
            rows.push(given(NEW, settings, 0, 0, FRESH));
            let end = time.clamp(0.001, 10.0);
            for moment in [near(end, -1), end, near(end, 1), end / 2.0] {
                rows.push(given(PROCESS, settings, 48000, 4, (stage, 0.5, moment, 0.75)));
            }
        }
    }
    for sustain in sustains() {
        let settings = with(2, sustain);
        rows.push(given(NEW, settings, 0, 0, FRESH));
        rows.extend([Idle, Sustain].map(|stage| given(PROCESS, settings, 44100, 2, (stage, 1.0, 0.5, 0.25))));
        for moment in [0.0, -0.0, TINY, 0.025, near(0.05, -1), 0.05, 11.0] {
            rows.push(given(PROCESS, settings, 44100, 3, (Decay, 1.0, moment, 0.0)));
        }
    }
    for rate in RATES.into_iter().chain([8001, 191999, 0, 1, 7999, 192001, u32::MAX as u64]) {
        rows.extend(MIDST.map(|state| given(PROCESS, PLAIN, rate, SLOTS, state)));
    }
    for length in 0..=SLOTS {
        rows.extend(MIDST.map(|state| given(PROCESS, PLAIN, 8000, length, state)));
    }
    rows
}

/// Every call from the ends of each field's range, inside and outside; the release from each level.
fn edges_of_states() -> Vec<Vec<u64>> {
    let mut states = Vec::new();
    for level in levels_inside().into_iter().chain(levels_outside()) {
        states.extend([(Attack, level, 0.01, 0.5), (Release, 0.5, 0.05, level)]);
    }
    for stage_time in stage_times_inside().into_iter().chain(stage_times_outside()) {
        states.push((Decay, 0.5, stage_time, 0.5));
    }
    states.extend(MIDST);
    let mut rows = Vec::new();
    for state in states {
        rows.extend(ON_A_STATE.map(|op| given(op, PLAIN, 16384, 2, state)));
    }
    for level in levels_inside() {
        for moment in [0.0, -0.0, TINY, near(0.1, -1), 0.1] {
            rows.push(given(PROCESS, PLAIN, 192000, 2, (Release, 1.0, moment, level)));
        }
    }
    rows
}

/// A NaN among the settings, alone and over a bad state; a bad rate over a bad state.
fn edges_of_refusals() -> Vec<Vec<u64>> {
    let mut rows = Vec::new();
    for at in 0..4 {
        for nan in not_numbers() {
            rows.extend(ON_A_STATE.map(|op| given(op, with(at, nan), 48000, SLOTS, MIDST[1])));
        }
        let bad = (Attack, near(1.0, 1), 0.0, 0.0);
        rows.extend(ON_A_STATE.map(|op| given(op, with(at, f64::NAN), 48000, SLOTS, bad)));
        rows.push(given(PROCESS, PLAIN, 7999, SLOTS, bad));
    }
    rows
}

fn with(at: usize, setting: f64) -> Settings {
    let mut settings = PLAIN;
    settings[at] = setting;
    settings
}

// The random rows: half along runs, where the untouched copy goes beside the opened one.

struct Runs {
    chance: Chance,
    settings: Settings,
    rate: u64,
    plain: blocks::modulators::envelope::EnvelopeBlock<f64>,
    open: opened::envelope::EnvelopeBlock<f64>,
}

impl Iterator for Runs {
    type Item = Vec<u64>;
    fn next(&mut self) -> Option<Vec<u64>> {
        let row = match self.chance.below(8) {
            0 => refused(&mut self.chance),
            1..=3 => inside(&mut self.chance),
            _ => self.along(),
        };
        Some(row)
    }
}

impl Runs {
    fn new(mut chance: Chance) -> Self {
        let settings = random_settings(&mut chance);
        let [attack, decay, sustain, release] = settings;
        let plain = blocks::modulators::envelope::EnvelopeBlock::new(attack, decay, sustain, release);
        let rate = random_rate(&mut chance);
        Self { chance, settings, rate, plain, open: opened_block(settings) }
    }

    /// The next call of a run.
    fn along(&mut self) -> Vec<u64> {
        if self.chance.below(30) == 0 {
            *self = Self::new(Chance::new(self.chance.word()));
        }
        let some = self.chance.below(2000);
        match self.chance.below(6) {
            0 => self.go_on(some),
            1 => self.go_near_the_change(),
            _ => {}
        }
        let op = match self.chance.below(20) {
            0 | 1 => NOTE_ON,
            2 | 3 => NOTE_OFF,
            4 if self.chance.below(4) == 0 => RESET,
            _ => PROCESS,
        };
        let length = self.chance.below(2 * SLOTS).min(SLOTS);
        let row = given(op, self.settings, self.rate, length, self.open.fields());
        match op {
            NOTE_ON => (self.plain.note_on(), self.open.note_on()),
            NOTE_OFF => (self.plain.note_off(), self.open.note_off()),
            RESET => (self.plain.reset(), self.open.reset()),
            _ => (self.go_on(length), ()),
        };
        row
    }

    /// Both copies, some samples on.
    fn go_on(&mut self, length: u64) {
        let samples = run(&mut self.plain, self.rate as f64, length as usize);
        assert_eq!(samples, run(&mut self.open, self.rate as f64, length as usize));
    }

    /// To the last samples of a stage, if they are not far away.
    fn go_near_the_change(&mut self) {
        let (stage, level, stage_time, release_level) = self.open.fields();
        let mut ahead = opened_block(self.settings);
        ahead.set_fields(stage, level, stage_time, release_level);
        let far = (1..4000).find(|_| {
            run(&mut ahead, self.rate as f64, 1);
            ahead.fields().0 != stage
        });
        let back = self.chance.below(SLOTS);
        self.go_on(far.map_or(0, |samples: u64| samples.saturating_sub(back)));
    }
}

/// Any state within the limits, any settings.
fn inside(chance: &mut Chance) -> Vec<u64> {
    let (settings, rate) = (random_settings(chance), random_rate(chance));
    let stage = chance.pick(&STAGES);
    let time = settings[match stage {
        Attack => 0,
        Decay => 1,
        _ => 3,
    }]
    .clamp(0.001, 10.0);
    let stage_time = match chance.below(6) {
        0 => 11.0 * chance.dense(),
        1 => chance.pick(&stage_times_inside()),
        2 => near(time, chance.between(-3, 3)),
        3 => (time - chance.below(12) as f64 / rate as f64).max(0.0),
        _ => time * chance.dense(),
    };
    let state = (stage, random_level(chance), stage_time, random_level(chance));
    let op = chance.pick(&[NOTE_ON, NOTE_OFF, RESET, NEW, PROCESS, PROCESS, PROCESS, PROCESS, PROCESS, PROCESS]);
    given(op, settings, rate, chance.below(SLOTS + 1), state)
}

/// A state with one field moved out of its range.
fn refused(chance: &mut Chance) -> Vec<u64> {
    loop {
        let mut row = inside(chance);
        let at = chance.pick(&[1, 2, 3, 4, 5, 8, 9, 10]);
        row[at] = match at {
            5 if row[0] == PROCESS => chance.pick(&[0, 7999, 192001, u32::MAX as u64]),
            5 => continue,
            8 | 10 => state_bits(chance.pick(&levels_outside())),
            9 => state_bits(chance.pick(&stage_times_outside())),
            _ => chance.pick(&not_numbers()).to_bits(),
        };
        if row[0] != NEW && refusal(&row).is_some() {
            return row;
        }
    }
}

pub fn random_settings(chance: &mut Chance) -> Settings {
    let sustain = match chance.below(4) {
        0 => chance.pick(&sustains()),
        1 => chance.pick(&[0.0, -0.0, 0.1, 0.3, near(1.0, -1), 1.0]),
        _ => chance.dense(),
    };
    [random_time(chance), random_time(chance), sustain, random_time(chance)]
}

/// Mostly short, so that a run comes to the end of its stages.
fn random_time(chance: &mut Chance) -> f64 {
    match chance.below(8) {
        0 => chance.pick(&times()),
        1 => 12.0 * chance.dense(),
        2 => 1.0 / chance.between(2, 900) as f64,
        _ => chance.scaled(-11, -6),
    }
}

pub fn random_rate(chance: &mut Chance) -> u64 {
    match chance.below(4) {
        0 => chance.between(8000, 192000) as u64,
        _ => chance.pick(&RATES),
    }
}

fn random_level(chance: &mut Chance) -> f64 {
    match chance.below(8) {
        0 => chance.pick(&levels_inside()),
        1 => chance.scaled(-24, -18),
        2 => near(FLOOR, chance.between(-3, 3)),
        _ => chance.dense(),
    }
}
