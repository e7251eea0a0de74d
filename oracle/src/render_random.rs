//! The renders that the rows ask for at random.

use crate::chance::Chance;
use crate::envelope_rows::{random_rate, random_settings};
use crate::patterns::near;
use crate::render::{by_noughts, off, on, reset, Record, Settings, Words, STATE_WORDS};
use crate::render_asked::{is_state, packed_words, Asked, CONTINUE, LAST, MOST_SAMPLES, RENDER};
use crate::render_tremolo::{random_lfo, spoilt_lfo};
use crate::waveform_rows::{duties, not_a_unit, Wave, TINY};
use crate::waveform_rows::{PULSE, SAWTOOTH, SINE, SQUARE, TRIANGLE};

/// What makes a random render.
pub type Maker = fn(&mut Chance) -> Asked;

pub fn row(make: Maker, chance: &mut Chance) -> Vec<u64> {
    let render = make(chance);
    let mut asked = match chance.below(5) {
        0 | 1 => random_part(&render, chance),
        _ => render,
    };
    while chance.below(8) == 0 {
        spoil(&mut asked, chance);
    }
    asked.words()
}

pub fn random_render(chance: &mut Chance) -> Asked {
    let samples = random_length(chance);
    let wave = random_wave(chance);
    let mut asked = Asked::whole(random_rate(chance), wave, samples, &random_releases(samples, chance));
    asked.settings.adsr = random_settings(chance);
    asked.settings.lfo = random_lfo(chance);
    audible(&mut asked.settings);
    asked
}

pub fn random_wave(chance: &mut Chance) -> Wave {
    let duty = match chance.below(4) {
        0 => chance.pick(&duties()),
        1 => 0.5,
        _ => chance.dense(),
    };
    (chance.pick(&[SINE, SQUARE, SAWTOOTH, TRIANGLE, PULSE, PULSE]), duty)
}

/// A sine is measured, and a millionth of its level must be a float.
pub fn audible(settings: &mut Settings) {
    let (has_sine, sustain) = (settings.has_sine(), &mut settings.adsr[2]);
    if has_sine && 0.0 < *sustain && *sustain < 1e-9 {
        *sustain = 0.25;
    }
}

/// Mostly short; one in eight of thousands of samples.
fn random_length(chance: &mut Chance) -> u64 {
    match chance.below(16) {
        0 => chance.pick(&[0, 1, 63, 64, 65, 4095, 4096, 4097, 8192, 8193, 10000]),
        1 => chance.below(10001),
        2..=4 => chance.below(1500),
        _ => chance.below(200),
    }
}

/// In one score of eight, by its length, every release is a note-on with velocity 0.
fn random_releases(samples: u64, chance: &mut Chance) -> Vec<Record> {
    let score = random_score(samples, chance);
    if samples % 8 == 1 {
        by_noughts(&score)
    } else {
        score
    }
}

/// From no record to 4,096, over the whole output and somewhat more, or all near its beginning.
pub fn random_score(samples: u64, chance: &mut Chance) -> Vec<Record> {
    let count = match chance.below(32) {
        0 => 0,
        1..=7 => 1 + chance.below(3),
        8..=23 => 1 + chance.below(40),
        24..=29 => chance.below(samples.min(1000) + 1),
        30 => chance.below(500),
        _ => chance.below(4097),
    };
    let window = 1 + chance.pick(&[samples, samples, samples + samples / 4, samples.min(150)]);
    let mut positions = Vec::new();
    for _ in 0..count {
        positions.push(random_position(window, samples, positions.last().copied(), chance));
    }
    positions.sort();
    let mut hands = Hands::new(chance);
    positions.into_iter().map(|position| hands.next(position, chance)).collect()
}

/// Anywhere; at the start of a section or beside it; where another record is; at the end or past it.
fn random_position(window: u64, samples: u64, other: Option<u64>, chance: &mut Chance) -> u64 {
    let any = chance.below(window);
    match chance.below(10) {
        0 => any / 64 * 64,
        1 => (any / 64 * 64 + chance.below(3)).saturating_sub(1),
        2 => (any / 4096 * 4096 + chance.below(3)).saturating_sub(1),
        3 | 4 => other.unwrap_or(any),
        5 if chance.below(4) == 0 => {
            let far = chance.word() as u32 as u64;
            chance.pick(&[samples.saturating_sub(1), samples, samples + 1, LAST, far])
        }
        _ => any,
    }
}

/// Who plays: keys within a range, of which more and more are down, or fewer and fewer.
struct Hands {
    lowest: i64,
    highest: i64,
    down: Vec<u8>,
    rising: bool,
}

impl Hands {
    fn new(chance: &mut Chance) -> Self {
        let lowest = chance.between(0, 127);
        let highest = chance.pick(&[127, (lowest + 3).min(127), (lowest + 40).min(127)]);
        Self { lowest: if highest == 127 { 0 } else { lowest }, highest, down: Vec::new(), rising: true }
    }

    fn next(&mut self, position: u64, chance: &mut Chance) -> Record {
        let note = chance.between(self.lowest, self.highest) as u8;
        if chance.below(30) == 0 {
            self.rising = !self.rising;
        }
        match chance.below(40) {
            0 => reset(position),
            // A key that may not be down.
            1 => off(position, note),
            other if self.down.is_empty() || (other < 28) == self.rising => {
                self.down.push(note);
                let velocity = if chance.below(16) == 0 { 0 } else { chance.below(128) as u8 };
                on(position, note, velocity)
            }
            _ => {
                let last = self.down.len() - 1;
                let place = if chance.below(3) == 0 { last } else { chance.below(last as u64 + 1) as usize };
                off(position, self.down.remove(place))
            }
        }
    }
}

/// A part from anywhere in a render; one in four from a state that no score may reach.
fn random_part(render: &Asked, chance: &mut Chance) -> Asked {
    let position = chance.below(render.samples + 1);
    let left = render.samples - position;
    let samples = match chance.below(4) {
        0 => chance.pick(&[0, 1, 17, 63, 64, 65]),
        1 => left,
        _ => chance.below(left.min(300) + 1),
    };
    let mut part = render.part(position, samples);
    while chance.below(4) == 0 {
        let state = moved(part.state, chance);
        if is_state(&state) {
            part.state = state;
        }
    }
    part
}

/// A state with one thing changed, within its range or not.
pub fn moved(mut state: Words, chance: &mut Chance) -> Words {
    let outside = [-TINY, -1.0, near(1.0, 1), 11.5, 1000.0, 12544.5, f64::INFINITY, f64::NAN];
    let word = chance.below(STATE_WORDS as u64) as usize;
    let most = match word {
        0 | 12 => near(1000.0, -1),
        3 => 11.0,
        6 => 12544.0,
        _ => 1.0,
    };
    state[word] = match word {
        1 => chance.below(5),
        5 if chance.below(2) == 0 => chance.pick(&packed_words(state[5])),
        5 | 8..=11 => state[word] ^ 1 << chance.below(64),
        _ => match chance.below(8) {
            0 => chance.pick(&outside),
            1 => most,
            2 => -0.0,
            _ => most * chance.dense(),
        }
        .to_bits(),
    };
    state
}

/// One thing moved out of its domain, most often.
fn spoil(asked: &mut Asked, chance: &mut Chance) {
    let Asked { settings, samples, shelf, .. } = asked;
    match chance.below(9) {
        8 => settings.lfo = spoilt_lfo(settings.lfo, chance),
        0 => settings.rate = chance.pick(&[0, 7999, 192001, LAST]),
        1 => settings.wave = (PULSE, chance.pick(&not_a_unit())),
        2 => settings.adsr[chance.below(4) as usize] = f64::NAN,
        3 | 4 if asked.op == RENDER => {
            *shelf = chance.pick(&[*shelf + 1, shelf.saturating_sub(1), *shelf + 13]).min(52)
        }
        3 => {
            asked.position = chance.pick(&[
                MOST_SAMPLES + 1 - *samples,
                MOST_SAMPLES,
                LAST,
                u64::MAX,
                asked.position.saturating_add(64),
            ])
        }
        4 | 5 if asked.op == CONTINUE => asked.state = moved(asked.state, chance),
        _ => spoil_score(&mut asked.score, chance),
    }
}

pub fn spoil_score(score: &mut Vec<u8>, chance: &mut Chance) {
    if score.is_empty() {
        return score.push(0x56);
    }
    let last = score.len() - 1;
    let place = chance.below(score.len() as u64) as usize;
    match chance.below(4) {
        0 => score.truncate(place),
        1 => score[place] = chance.word() as u8,
        2 => score[place] = chance.pick(&[0, 1, 4, 127, 128, 255]),
        // A position, most often a lower one.
        _ => score[last.min(place / 10 * 10 + 3)] = 0,
    }
}
