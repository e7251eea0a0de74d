//! Rows of the voice: op, the given state, note, velocity; then answer, what it gives (what a lift says, active or how
//! many are held), the state after. 31 u32 a row, floats as their bits.
//!
//! What a lift says is read from the bool that the original returns and from its own state: no change, released, or
//! fell back to a note.
//!
//! A state is the active note (256 for none), gate, how many keys are held, 16 notes and 16 velocities of four bytes a
//! word, low byte first, velocity, frequency. What the original's stack keeps past its length cannot be seen, and ours
//! must be 0 there. A NaN in a given state is 7FC00000, and comes back so.

use crate::chance::Chance;
use crate::check_copies::same_voice;
use crate::opened;
use crate::patterns::near_f32;
use crate::rows::Part;
use crate::voice::{midi_note_to_frequency, VoiceState};

pub const PART: Part = Part {
    name: "voice",
    word: 4,
    words: 31,
    more_at: None,
    answer_at: Some(16),
    ops: &["note_on", "note_off", "reset", "is_active", "held_note_count", "new"],
    edges,
    random: |chance| Box::new(Runs::new(chance)),
    answer,
};

pub const NOTE_ON: u64 = 0;
pub const NOTE_OFF: u64 = 1;
pub const RESET: u64 = 2;
const IS_ACTIVE: u64 = 3;
const HELD_NOTE_COUNT: u64 = 4;
const NEW: u64 = 5;

/// The ops that take a state.
const ON_A_STATE: [u64; 5] = [NOTE_ON, NOTE_OFF, RESET, IS_ACTIVE, HELD_NOTE_COUNT];

pub const NONE: u32 = 256;

/// What a lift says; the note that the voice fell back to is added to the last.
pub const NO_CHANGE: u64 = 0;
pub const RELEASED: u64 = 1;
const FELL_BACK: u64 = 256;

const TINY: f32 = f32::from_bits(1);
const HIGHEST: f32 = 12544.0;

#[derive(Clone, Copy)]
pub struct State {
    pub active: u32,
    pub gate: bool,
    pub count: u32,
    pub notes: [u8; 16],
    pub velocities: [u8; 16],
    pub velocity: f32,
    pub frequency: f32,
}

/// Silent and new.
const FRESH: State =
    State { active: NONE, gate: false, count: 0, notes: [0; 16], velocities: [0; 16], velocity: 0.0, frequency: 440.0 };

/// A row's given words. `note_on` takes note and velocity, `note_off` the note; `new` takes nothing.
fn given(op: u64, state: State, note: u8, velocity: u8) -> Vec<u64> {
    if op == NEW {
        return [&[NEW][..], &[0; 15]].concat();
    }
    let note = if op <= NOTE_OFF { note } else { 0 };
    let velocity = if op == NOTE_ON { velocity } else { 0 };
    let mut row = vec![op];
    row.extend(state_words(state));
    row.extend([note as u64, velocity as u64]);
    row
}

fn state_words(state: State) -> Vec<u64> {
    let mut words = vec![state.active as u64, state.gate as u64, state.count as u64];
    for bytes in [state.notes, state.velocities] {
        words.extend(bytes.chunks_exact(4).map(|four| u32::from_le_bytes(four.try_into().unwrap()) as u64));
    }
    words.extend([state.velocity, state.frequency].map(state_bits));
    words
}

/// The replay cannot see a NaN's payload, so a state has one NaN only.
fn state_bits(x: f32) -> u64 {
    if x.is_nan() {
        0x7FC0_0000
    } else {
        x.to_bits() as u64
    }
}

fn state_of(row: &[u64]) -> State {
    let bytes = |from: usize| std::array::from_fn(|i| (row[from + i / 4] >> (8 * (i % 4))) as u8);
    let [velocity, frequency] = [12, 13].map(|at| f32::from_bits(row[at] as u32));
    let [active, count] = [1, 3].map(|at| row[at] as u32);
    State { active, gate: row[2] == 1, count, notes: bytes(4), velocities: bytes(8), velocity, frequency }
}

/// The shelf's limits.
fn is_state(state: State) -> bool {
    let sounding = state.active != NONE;
    let held = (state.count as usize).min(16);
    let filled = |bytes: [u8; 16]| bytes[..held].iter().all(|&x| x <= 127) && bytes[held..].iter().all(|&x| x == 0);
    (state.active <= 127 || !sounding)
        && state.gate == sounding
        && state.count <= 16
        && filled(state.notes)
        && filled(state.velocities)
        && (0.0..=1.0).contains(&state.velocity)
        && 0.0 < state.frequency
        && state.frequency <= HIGHEST
}

/// 01's refusals: note or velocity above 127, a state outside the limits.
fn is_refused(row: &[u64]) -> bool {
    row[0] != NEW && !(row[14] <= 127 && row[15] <= 127 && is_state(state_of(row)))
}

/// Number, what is answered, state after.
fn answer(row: &[u64]) -> Vec<u64> {
    if is_refused(row) {
        return [&[9, 0], &row[1..14]].concat();
    }
    let mut pair = if row[0] == NEW { Pair::new() } else { Pair::at(state_of(row)) };
    let value = pair.call(row[0], row[14] as u8, row[15] as u8);
    [&[0, value][..], &state_words(pair.state())].concat()
}

/// The untouched copy and the opened one: the same calls of both.
pub struct Pair {
    plain: VoiceState,
    open: opened::voice::VoiceState,
}

impl Pair {
    pub fn new() -> Self {
        Self { plain: VoiceState::new(), open: opened::voice::VoiceState::new() }
    }

    /// From a state within the limits; the untouched copy gets its held keys by striking them.
    pub fn at(state: State) -> Self {
        let mut pair = Self::new();
        let held: Vec<(u8, u8)> = state.notes.into_iter().zip(state.velocities).take(state.count as usize).collect();
        held.iter().for_each(|&(note, velocity)| pair.plain.note_on(note, velocity));
        pair.open.set_held(&held);
        let active = (state.active != NONE).then_some(state.active as u8);
        (pair.plain.active_note, pair.open.active_note) = (active, active);
        (pair.plain.gate, pair.open.gate) = (state.gate, state.gate);
        (pair.plain.velocity, pair.open.velocity) = (state.velocity, state.velocity);
        (pair.plain.frequency, pair.open.frequency) = (state.frequency, state.frequency);
        same_voice(&pair.plain, &pair.open);
        pair
    }

    /// What both answer to a call, 0 where it answers nothing.
    pub fn call(&mut self, op: u64, note: u8, velocity: u8) -> u64 {
        let Self { plain, open } = self;
        match op {
            NOTE_ON => (plain.note_on(note, velocity), open.note_on(note, velocity)),
            RESET => (plain.reset(), open.reset()),
            _ => ((), ()),
        };
        let [value, same] = match op {
            NOTE_OFF => {
                let sounded = [plain.active_note, open.active_note].map(|active| active == Some(note));
                let released = [plain.note_off(note), open.note_off(note)];
                let sounding = [plain.active_note, open.active_note];
                [0, 1].map(|copy| said(sounded[copy], released[copy], sounding[copy]))
            }
            IS_ACTIVE => [plain.is_active() as u64, open.is_active() as u64],
            HELD_NOTE_COUNT => [plain.held_note_count() as u64, open.held_note_count() as u64],
            _ => [0, 0],
        };
        assert_eq!(value, same);
        same_voice(plain, open);
        value
    }

    pub fn state(&self) -> State {
        let held = self.open.held();
        holding(held, self.open.active_note, self.open.gate, self.open.velocity, self.open.frequency)
    }
}

/// What a lift says: whether the lifted note sounded, whether the original returned true, and what sounds after it.
fn said(sounded: bool, released: bool, sounding: Option<u8>) -> u64 {
    match (released, sounded, sounding) {
        (true, ..) => RELEASED,
        (false, true, Some(note)) => FELL_BACK + note as u64,
        (false, true, None) => panic!("no note sounds after a lift, and the original did not return true"),
        (false, false, _) => NO_CHANGE,
    }
}

/// The state that holds these keys, the unused pairs 0.
fn holding(held: &[(u8, u8)], active: Option<u8>, gate: bool, velocity: f32, frequency: f32) -> State {
    let active = active.map_or(NONE, u32::from);
    let mut state = State { active, gate, count: held.len() as u32, velocity, frequency, ..FRESH };
    for (i, &(note, velocity)) in held.iter().enumerate() {
        (state.notes[i], state.velocities[i]) = (note, velocity);
    }
    state
}

// The edges.

/// These keys held and this note sounding, at a velocity of a half.
fn sounding(held: &[(u8, u8)], active: Option<u8>) -> State {
    let frequency = active.map_or(440.0, midi_note_to_frequency);
    holding(held, active, active.is_some(), 0.5, frequency)
}

/// Within the limits: some that runs reach, some that they do not.
fn states() -> Vec<State> {
    let full: Vec<(u8, u8)> = (0..16).map(|i| (8 * i + 7, 127 - i)).collect();
    let twice: Vec<(u8, u8)> = (0..16).map(|i| (60 + i % 2, i)).collect();
    vec![
        FRESH,
        sounding(&[], None),
        sounding(&[(60, 100)], Some(60)),
        sounding(&[(55, 90), (60, 100), (64, 110)], Some(64)),
        // The one that sounds is not the last, or not held.
        sounding(&[(55, 90), (60, 100), (64, 110)], Some(55)),
        sounding(&[(55, 90), (64, 110)], Some(60)),
        sounding(&[], Some(60)),
        // Held keys and no sound.
        sounding(&[(55, 90), (60, 100)], None),
        // One key held more than once.
        sounding(&[(60, 1), (60, 2), (64, 3), (60, 4), (60, 5)], Some(60)),
        sounding(&[(0, 0), (127, 127), (0, 127)], Some(0)),
        sounding(&full[..15], Some(119)),
        sounding(&full, Some(127)),
        sounding(&full, Some(60)),
        sounding(&twice, Some(61)),
        sounding(&[(60, 64); 16], Some(60)),
    ]
}

/// A state with one field at or past an end of its range.
fn changed(state: State) -> Vec<State> {
    let mut list = Vec::new();
    list.extend([0, 126, 127, 128, 254, 255].map(|active| State { active, gate: true, ..state }));
    list.push(State { gate: !state.gate, ..state });
    list.push(State { active: if state.active == NONE { 60 } else { NONE }, ..state });
    // One fewer leaves a pair behind, one more holds (0, 0).
    let counts = [state.count.wrapping_sub(1), state.count + 1, 15, 16, 17, 18, 255, 256, u32::MAX];
    list.extend(counts.map(|count| State { count, ..state }));
    let held = state.count as usize;
    for at in [0, held.saturating_sub(1), held.min(15), 15] {
        for byte in [0, 1, 127, 128, 255] {
            let (mut notes, mut velocities) = (state.notes, state.velocities);
            (notes[at], velocities[at]) = (byte, byte);
            list.extend([State { notes, ..state }, State { velocities, ..state }]);
        }
    }
    list.extend(loudness().into_iter().map(|velocity| State { velocity, ..state }));
    list.extend(pitches().into_iter().map(|frequency| State { frequency, ..state }));
    list
}

fn loudness() -> Vec<f32> {
    let mut list = vec![0.0, -0.0, TINY, -TINY, near_f32(1.0, -1), 1.0, near_f32(1.0, 1), 2.0, -1.0];
    list.extend([f32::INFINITY, f32::NEG_INFINITY, f32::NAN]);
    list
}

fn pitches() -> Vec<f32> {
    let mut list = vec![0.0, -0.0, TINY, -TINY, near_f32(HIGHEST, -1), HIGHEST, near_f32(HIGHEST, 1), -440.0];
    list.extend([f32::MAX, f32::INFINITY, f32::NEG_INFINITY, f32::NAN]);
    list
}

fn edges() -> Vec<Vec<u64>> {
    [edges_of_arguments(), edges_of_states(), edges_of_keys(), edges_of_runs(), edges_of_lifts()].concat()
}

/// Every call from every state, the ends of the ranges of note and velocity, and every held key lifted.
fn edges_of_arguments() -> Vec<Vec<u64>> {
    let mut rows = vec![given(NEW, FRESH, 0, 0)];
    for state in states() {
        rows.extend([RESET, IS_ACTIVE, HELD_NOTE_COUNT].map(|op| given(op, state, 0, 0)));
        let held = state.notes.into_iter().take(state.count as usize);
        for note in held.chain([0, 1, 60, 126, 127, 128, 129, 255]) {
            rows.push(given(NOTE_OFF, state, note, 0));
        }
        rows.extend([0, 60, 127, 128, 255].map(|note| given(NOTE_ON, state, note, 64)));
        rows.extend([0, 1, 127, 128, 255].map(|velocity| given(NOTE_ON, state, 62, velocity)));
    }
    rows
}

/// Every call from a state with one field changed.
fn edges_of_states() -> Vec<Vec<u64>> {
    let mut rows = Vec::new();
    for state in [states()[0], states()[3], states()[11]] {
        for other in changed(state) {
            rows.extend(ON_A_STATE.map(|op| given(op, other, 64, 80)));
        }
    }
    rows
}

/// Every note and every velocity, struck, and fallen back to.
fn edges_of_keys() -> Vec<Vec<u64>> {
    let mut rows = Vec::new();
    for note in 0..128 {
        let below = sounding(&[(note, 127 - note), (note ^ 1, 3)], Some(note ^ 1));
        rows.push(given(NOTE_ON, FRESH, note, 127 - note));
        rows.push(given(NOTE_OFF, below, note ^ 1, 0));
    }
    rows
}

/// Keys struck with velocity 100 on a new voice, then lifted: 01's worked examples (k), (l) and (m), sixteen keys, falls
/// back, and keys that are not down.
fn edges_of_runs() -> Vec<Vec<u64>> {
    let full: Vec<u8> = (40..56).chain([60]).collect();
    let runs: [(&[u8], Vec<u8>); 7] = [
        (&full, vec![60]),
        (&full, (40..56).chain([60]).collect()),
        (&full[..16], (40..56).collect()),
        (&[60, 60], vec![60, 60]),
        (&[60, 64], vec![64, 60]),
        (&[60, 62, 60], vec![60, 62]),
        (&[60], vec![61, 60]),
    ];
    let mut rows = Vec::new();
    for (struck, lifted) in runs {
        let mut pair = Pair::new();
        for &note in struck {
            pair.call(NOTE_ON, note, 100);
        }
        for note in lifted {
            rows.push(given(NOTE_OFF, pair.state(), note, 0));
            pair.call(NOTE_OFF, note, 0);
        }
    }
    rows
}

/// Five held keys, of which any set is of the lifted note, 60: at the first, a middle or the last place, in a row, all or
/// none. Note 60 sounds, or 65, which the last key has unless it is of the set.
fn edges_of_lifts() -> Vec<Vec<u64>> {
    let mut rows = Vec::new();
    for lifted in 0..32u8 {
        let held = [0, 1, 2, 3, 4].map(|i| if lifted >> i & 1 == 1 { (60, 20 + i) } else { (61 + i, 20 + i) });
        rows.extend([60, 65].map(|active| given(NOTE_OFF, sounding(&held, Some(active)), 60, 0)));
    }
    rows
}

// The random rows: most along runs, up to 40 keys down.

struct Runs {
    chance: Chance,
    /// The lowest and the highest key of the run.
    lowest: u8,
    highest: u8,
    /// Which keys are down, also those that the voice has no room for; more are coming, or fewer.
    down: Vec<u8>,
    rising: bool,
    pair: Pair,
}

impl Iterator for Runs {
    type Item = Vec<u64>;
    fn next(&mut self) -> Option<Vec<u64>> {
        let row = match self.chance.below(8) {
            0 => refused(&mut self.chance),
            1 => inside(&mut self.chance),
            _ => self.along(),
        };
        Some(row)
    }
}

impl Runs {
    const MOST_DOWN: usize = 40;

    /// Over all notes, or over a few, so that keys meet again.
    fn new(mut chance: Chance) -> Self {
        let (lowest, highest) = match chance.below(3) {
            0 => {
                let lowest = chance.below(120) as u8;
                (lowest, lowest + chance.below(8) as u8)
            }
            _ => (0, 127),
        };
        Self { chance, lowest, highest, down: Vec::new(), rising: true, pair: Pair::new() }
    }

    /// The next call of a run. The original goes on from its own state; the row's answer, made from the row alone, must
    /// be the same.
    fn along(&mut self) -> Vec<u64> {
        if self.chance.below(400) == 0 {
            *self = Self::new(Chance::new(self.chance.word()));
        }
        let (op, note, velocity) = self.next_call();
        let row = given(op, self.pair.state(), note, velocity);
        let value = self.pair.call(op, note, velocity);
        assert_eq!(answer(&row), [&[0, value][..], &state_words(self.pair.state())].concat());
        row
    }

    fn next_call(&mut self) -> (u64, u8, u8) {
        let velocity = self.chance.below(128) as u8;
        let note = self.chance.between(self.lowest as i64, self.highest as i64) as u8;
        if self.chance.below(80) == 0 {
            self.rising = !self.rising;
        }
        match self.chance.below(48) {
            // The keys stay down, and some go up when nothing is held.
            0 if self.chance.below(4) == 0 => (RESET, 0, 0),
            1 => (IS_ACTIVE, 0, 0),
            2 => (HELD_NOTE_COUNT, 0, 0),
            // A key that may not be down.
            3 => (NOTE_OFF, note, 0),
            other => self.press_or_lift((other < 36) == self.rising, note, velocity),
        }
    }

    fn press_or_lift(&mut self, press: bool, note: u8, velocity: u8) -> (u64, u8, u8) {
        let full = self.down.len() == Self::MOST_DOWN;
        if self.down.is_empty() || (press && !full) {
            self.down.push(note);
            return (NOTE_ON, note, velocity);
        }
        // The last key, which sounds, or any.
        let last = self.down.len() - 1;
        let place = if self.chance.below(3) == 0 { last } else { self.chance.below(last as u64 + 1) as usize };
        (NOTE_OFF, self.down.remove(place), 0)
    }
}

/// Any state within the limits.
fn inside(chance: &mut Chance) -> Vec<u64> {
    let count = match chance.below(4) {
        0 => chance.pick(&[0, 1, 15, 16]),
        _ => chance.below(17),
    };
    let few = chance.pick(&[3, 128]);
    let key = |chance: &mut Chance| (chance.below(few) as u8, chance.below(128) as u8);
    let held: Vec<(u8, u8)> = (0..count).map(|_| key(chance)).collect();
    let (other, pressure) = key(chance);
    let some_note = |chance: &mut Chance| match held.last() {
        Some(&(last, _)) if chance.below(3) == 0 => last,
        Some(_) if chance.below(2) == 0 => chance.pick(&held).0,
        _ => other,
    };
    let active = (chance.below(6) > 0).then(|| some_note(chance));
    let velocity = match chance.below(4) {
        0 => chance.pick(&[0.0, -0.0, TINY, near_f32(1.0, -1), 1.0]),
        1 => chance.dense() as f32,
        _ => chance.below(128) as f32 / 127.0,
    };
    let frequency = match chance.below(4) {
        0 => chance.pick(&[TINY, 440.0, near_f32(HIGHEST, -1), HIGHEST]),
        1 => HIGHEST * chance.dense() as f32,
        _ => midi_note_to_frequency(chance.below(128) as u8),
    };
    let state = holding(&held, active, active.is_some(), velocity, frequency);
    let note = active.filter(|_| chance.below(2) == 0).unwrap_or_else(|| some_note(chance));
    let op = chance.pick(&[NOTE_ON, NOTE_ON, NOTE_OFF, NOTE_OFF, NOTE_OFF, RESET, IS_ACTIVE, HELD_NOTE_COUNT]);
    given(op, state, note, pressure)
}

/// A state with one field moved out of its range.
fn refused(chance: &mut Chance) -> Vec<u64> {
    loop {
        let mut row = inside(chance);
        let mut state = state_of(&row);
        let (high, any) = (128 + chance.below(128) as u8, chance.word() as u32);
        let place = chance.below(16) as usize;
        match chance.below(9) {
            0 => state.active = high as u32,
            1 => state.gate = !state.gate,
            2 => state.count = chance.pick(&[state.count.wrapping_sub(1), 17, 18, 255, 256, any]),
            3 => state.notes[place] = high,
            4 => state.velocities[place] = high,
            5 => state.notes[place] = 1 + chance.below(127) as u8,
            6 => state.velocity = chance.pick(&loudness()),
            7 => state.frequency = chance.pick(&pitches()),
            _ => row[chance.pick(&[14, 15])] = high as u64,
        }
        row.splice(1..14, state_words(state));
        if is_refused(&row) && (row[0] == NOTE_ON || row[15] == 0) && (row[0] <= NOTE_OFF || row[14] == 0) {
            return row;
        }
    }
}
