//! What a row of the render asks for, by the names of its words, and what the original or 01 answers.

use crate::render::{untouched, Lfo, Played, Player, Record, Settings, Words, KIND_RESET, SECTION, STATE_WORDS};
use crate::rows::says;
use crate::waveform_rows::{wave_words, Wave, PULSE, SAWTOOTH, SINE, SQUARE, TRIANGLE, UNWRITTEN};
use std::ops::Range;

pub const RENDER: u64 = 0;
pub const CONTINUE: u64 = 1;
pub const RERENDER: u64 = 2;

/// The given words before the score.
pub const GIVEN: usize = 31;

const RECORD: usize = 10;
pub const MOST_RECORDS: usize = 4096;
pub const MOST_SAMPLES: u64 = 16_777_216;
/// The last position that a record can have.
pub const LAST: u64 = u32::MAX as u64;
const UNWRITTEN_WORD: u64 = 0x2A2A_2A2A_2A2A_2A2A;

/// A row's given words, by their names.
#[derive(Clone)]
pub struct Asked {
    pub op: u64,
    pub settings: Settings,
    pub samples: u64,
    pub score: Vec<u8>,
    pub shelf: u64,
    pub position: u64,
    pub state: Words,
    /// Of a re-render: the old score, and the samples and words of the shelf that the call starts with.
    pub old: Vec<u8>,
    pub left: Vec<u64>,
}

/// A number, and the place of the record that it is of.
type Refusal = (u64, usize);

/// Attack, decay, sustain and release within some hundred samples.
const QUICK: [f64; 4] = [0.001, 0.002, 0.5, 0.003];

/// An LFO that is not heard: depth 0 of either sign, any waveform, still and at work.
fn unheard(number: u64) -> Lfo {
    let pick = |count: u64| (number % count) as usize;
    let wave = [(SINE, 0.0), (SQUARE, 0.0), (SAWTOOTH, 0.0), (TRIANGLE, 0.0), (PULSE, 0.3)][pick(5)];
    Lfo { wave, frequency: [0.0, 5.5, 100.0][pick(3)], depth: [0.0, -0.0][pick(2)] }
}

impl Asked {
    /// A whole render of struck notes, with the shelf that it takes, and no tremolo.
    pub fn whole(rate: u64, wave: Wave, samples: u64, score: &[Record]) -> Self {
        let lfo = unheard(rate + samples + score.len() as u64);
        let settings = Settings { rate, wave, adsr: QUICK, lfo, joined: false };
        let (score, shelf) = (score.iter().flat_map(bytes_of).collect(), shelf_words(samples));
        let (state, old, left) = ([0; STATE_WORDS], vec![], vec![]);
        Self { op: RENDER, settings, samples, score, shelf, position: 0, state, old, left }
    }

    /// The same with a tremolo; what was made of it before it had one stays.
    pub fn with_lfo(mut self, lfo: Lfo) -> Self {
        self.settings.lfo = lfo;
        self
    }

    /// The same with joined notes; what was made of it before stays.
    pub fn joined(mut self) -> Self {
        self.settings.joined = true;
        self
    }

    /// A part of a render, from the original's own state at its position. The original that goes on from there must
    /// play what the original that began at sample 0 plays.
    pub fn part(&self, position: u64, samples: u64) -> Self {
        let score = records(&self.score);
        let mut player = Player::fresh(self.settings);
        player.play(&score, 0, position);
        let state = player.words();
        let mut again = Player::at(self.settings, &state);
        let (on, anew) = (player.play(&score, position, samples), again.play(&score, position, samples));
        assert!(on.samples == anew.samples && player.words() == again.words(), "a part parts ways");
        Self { op: CONTINUE, samples, shelf: 0, position, state, ..self.clone() }
    }

    /// A re-render with another score, over what the original's render of this one leaves.
    pub fn edited(&self, new: &[Record]) -> Self {
        let played = Player::fresh(self.settings).play(&records(&self.score), 0, self.samples);
        let (score, old) = (new.iter().flat_map(bytes_of).collect(), self.score.clone());
        Self { op: RERENDER, score, old, left: [played.samples, played.shelf].concat(), ..self.clone() }
    }

    pub fn records(&self) -> Vec<Record> {
        records(&self.score)
    }

    pub fn words(&self) -> Vec<u64> {
        let Settings { rate, wave, adsr, lfo, joined } = self.settings;
        let mut given: Vec<u64> = self.score.chunks(8).chain(self.old.chunks(8)).map(word_of).collect();
        given.extend(&self.left);
        let more = given.len() as u64 + self.samples + self.scales() + self.shelf;
        let position = if self.op == RERENDER { self.old.len() as u64 } else { self.position };
        let mut row = vec![self.op, more, rate];
        row.extend(wave_words(wave));
        row.extend(adsr.map(f64::to_bits));
        row.extend(wave_words(lfo.wave));
        row.extend([lfo.frequency, lfo.depth].map(f64::to_bits));
        row.extend([joined as u64, self.samples, self.score.len() as u64, self.shelf, position]);
        row.extend(self.state);
        row.extend(given);
        row
    }

    pub fn of(row: &[u64]) -> Self {
        let adsr = [5, 6, 7, 8].map(|at| f64::from_bits(row[at]));
        let [duty, lfo_duty, frequency, depth] = [4, 10, 11, 12].map(|at| f64::from_bits(row[at]));
        let lfo = Lfo { wave: (row[9], lfo_duty), frequency, depth };
        let settings = Settings { rate: row[2], wave: (row[3], duty), adsr, lfo, joined: row[13] == 1 };
        let [op, samples, shelf, position] = [0, 14, 16, 17].map(|at| row[at]);
        let (position, size) = if op == RERENDER { (0, position) } else { (position, 0) };
        let (score, rest) = bytes_and_rest(&row[GIVEN..], row[15]);
        let (old, rest) = bytes_and_rest(rest, size);
        let (state, left) = (row[18..GIVEN].try_into().unwrap(), rest.to_vec());
        Self { op, settings, samples, score, shelf, position, state, old, left }
    }

    /// How many scales the row has: numbers that say how far a sine may be off.
    fn scales(&self) -> u64 {
        match self.refusal() {
            None if self.settings.has_sine() => self.samples,
            _ => 0,
        }
    }

    /// 01's refusals, in its order.
    pub fn refusal(&self) -> Option<Refusal> {
        let large = match self.op {
            CONTINUE => self.position.checked_add(self.samples).is_none_or(|end| end > MOST_SAMPLES),
            _ => self.samples > MOST_SAMPLES || self.shelf != shelf_words(self.samples),
        };
        if !is_settings(self.settings) {
            Some((6, 0))
        } else if large {
            Some((7, 0))
        } else if self.op == RERENDER {
            let new = || score_fault(&self.score).map(|(number, place)| (number + 16, place));
            score_fault(&self.old).or_else(new).or_else(|| self.is_lost().then_some((8, 0)))
        } else {
            score_fault(&self.score).or_else(|| self.is_astray().then_some((10, 0)))
        }
    }

    /// Whether the entry that a re-render starts from is no state at the start of its section.
    fn is_lost(&self) -> bool {
        start_of(&self.old, &self.score, self.samples).is_some_and(|from| {
            let below = records(&self.score).iter().filter(|record| record.position < from).count();
            let entry = (self.samples + entry_at(from)) as usize;
            let words: &Words = self.left[entry..entry + STATE_WORDS].try_into().unwrap();
            !(is_state(words) && words[5] >> 16 == below as u64)
        })
    }

    /// Where a re-render from a mark stops, by 02: at the first later mark from which on both scores have the same
    /// records, and whose entry came as the one that is due, apart from records acted; or at the end.
    fn stop(&self, from: u64, due: &[u64]) -> u64 {
        let came = &self.left[self.samples as usize..];
        let is_stop = |&mark: &u64| {
            let entry = entry_at(mark) as usize..entry_at(mark + SECTION) as usize;
            let is_met = unnumbered(&came[entry.clone()]) == unnumbered(&due[entry]);
            is_met && records_from(&self.old, mark) == records_from(&self.score, mark)
        };
        let mut later = (from + SECTION..self.samples).step_by(SECTION as usize);
        later.find(is_stop).unwrap_or(self.samples)
    }

    /// Puts what a re-render leaves as it came in the place of what was played: all before its start and, but for the
    /// records acted, all from its stop on. The samples between.
    fn keep(&self, played: &mut Played) -> u64 {
        let from = start_of(&self.old, &self.score, self.samples).unwrap_or(self.samples);
        let stop = self.stop(from, &played.shelf);
        let (samples, shelf) = self.left.split_at(self.samples as usize);
        keep_samples(&mut played.samples, samples, &(from..stop));
        keep_entries(&mut played.shelf, shelf, &(from..stop));
        stop - from
    }

    /// Whether a given state is outside the limits, or not the one at its position.
    fn is_astray(&self) -> bool {
        let below = records(&self.score).iter().filter(|record| record.position < self.position).count();
        self.op == CONTINUE && !(is_state(&self.state) && self.state[5] >> 16 == below as u64)
    }

    /// Answer, state after; where a sine is heard the samples' scales; samples, shelf.
    pub fn answer(&self) -> Vec<u64> {
        match self.refusal() {
            Some(refusal) => self.refused(refusal),
            None => self.played(),
        }
    }

    fn refused(&self, (number, place): Refusal) -> Vec<u64> {
        let state = if self.op == RENDER { Player::fresh(self.settings).words() } else { self.state };
        let mut words = vec![says(number, place as u64, 0)];
        words.extend(state);
        if self.op == RERENDER {
            words.extend(&self.left);
            return words;
        }
        words.extend(vec![UNWRITTEN.to_bits(); self.samples as usize]);
        words.extend(vec![UNWRITTEN_WORD; self.shelf as usize]);
        words
    }

    fn played(&self) -> Vec<u64> {
        let (settings, score) = (self.settings, records(&self.score));
        let mut player = match self.op {
            CONTINUE => Player::at(settings, &self.state),
            _ => Player::fresh(settings),
        };
        let mut played = player.play(&score, self.position, self.samples);
        assert!(played.samples.iter().all(|&sample| f64::from_bits(sample).is_finite()));
        if self.op != CONTINUE {
            let same = untouched(settings, &score, self.samples);
            assert!(same == played.samples, "the untouched copies part ways");
        }
        let count = if self.op == RERENDER { self.keep(&mut played) } else { self.samples };
        let mut words = vec![says(0, 0, count)];
        // A re-render hands back no state.
        words.extend(if self.op == RERENDER { self.state } else { player.words() });
        words.extend(played.scales.into_iter().take(self.scales() as usize));
        words.extend(played.samples);
        words.extend(played.shelf.into_iter().take(self.shelf as usize));
        words
    }
}

/// The samples outside those that a re-render makes, as they came.
fn keep_samples(samples: &mut [u64], came: &[u64], made: &Range<u64>) {
    for (at, sample) in samples.iter_mut().enumerate() {
        if !made.contains(&(at as u64)) {
            *sample = came[at];
        }
    }
}

/// The entries outside, as they came, but for the records acted of those from the stop on.
fn keep_entries(shelf: &mut [u64], came: &[u64], made: &Range<u64>) {
    for (at, word) in shelf.iter_mut().enumerate() {
        let (mark, came) = ((at / STATE_WORDS) as u64 * SECTION, came[at]);
        assert!(mark != made.start || *word == came, "an entry parts ways");
        if made.end <= mark && at % STATE_WORDS == 5 {
            *word = *word >> 16 << 16 | came % 65536;
        } else if !made.contains(&mark) {
            *word = came;
        }
    }
}

/// The records of an accepted score from a position on.
fn records_from(score: &[u8], position: u64) -> &[u8] {
    let below = score.chunks(RECORD).filter(|record| word_of(&record[2..6]) < position).count();
    &score[RECORD * below..]
}

/// An entry without its number of records acted. What is no state has not the bits of one.
fn unnumbered(entry: &[u64]) -> Words {
    let mut words: Words = entry.try_into().unwrap();
    words[5] %= 65536;
    words
}

/// The words of the shelf that 02 asks for.
pub fn shelf_words(samples: u64) -> u64 {
    entry_at(samples.next_multiple_of(SECTION))
}

/// The first word of a section's entry, of the section's first sample.
pub fn entry_at(from: u64) -> u64 {
    STATE_WORDS as u64 * (from / SECTION)
}

/// The sample at which a re-render starts, by 01; none where it writes nothing.
pub fn start_of(old: &[u8], new: &[u8], length: u64) -> Option<u64> {
    let (mut olds, mut news) = (old.chunks(RECORD), new.chunks(RECORD));
    let lowest = loop {
        match (olds.next(), news.next()) {
            (None, None) => return None,
            (a, b) if a == b => {}
            (a, b) => break a.into_iter().chain(b).map(|record| word_of(&record[2..6])).min()?,
        }
    };
    (lowest < length).then_some(lowest / SECTION * SECTION)
}

/// The first `size` bytes of some words, and the words after those bytes.
fn bytes_and_rest(words: &[u64], size: u64) -> (Vec<u8>, &[u64]) {
    let (filled, rest) = words.split_at(size.div_ceil(8) as usize);
    let mut bytes: Vec<u8> = filled.iter().flat_map(|word| word.to_le_bytes()).collect();
    bytes.truncate(size as usize);
    (bytes, rest)
}

fn word_of(bytes: &[u8]) -> u64 {
    bytes.iter().rev().fold(0, |word, &byte| word << 8 | byte as u64)
}

fn is_settings(Settings { rate, wave, adsr, lfo, .. }: Settings) -> bool {
    let is_wave = |(shape, duty): Wave| shape != PULSE || (0.0..=1.0).contains(&duty);
    let is_lfo = is_wave(lfo.wave) && (0.0..=100.0).contains(&lfo.frequency) && (0.0..=1.0).contains(&lfo.depth);
    (8000..=192000).contains(&rate) && is_wave(wave) && adsr.iter().all(|x| !x.is_nan()) && is_lfo
}

/// The records of a score, which need not be accepted.
fn records(score: &[u8]) -> Vec<Record> {
    let record =
        |bytes: &[u8]| Record { position: word_of(&bytes[2..6]), kind: bytes[6], note: bytes[7], velocity: bytes[8] };
    score.chunks_exact(RECORD).map(record).collect()
}

pub fn bytes_of(record: &Record) -> [u8; RECORD] {
    let [a, b, c, d] = (record.position as u32).to_le_bytes();
    [0x56, 0x4E, a, b, c, d, record.kind, record.note, record.velocity, 0]
}

pub fn score_fault(score: &[u8]) -> Option<Refusal> {
    if score.len() % RECORD != 0 || score.len() > RECORD * MOST_RECORDS {
        return Some((1, 0));
    }
    let mut before = 0;
    for (place, (record, bytes)) in records(score).into_iter().zip(score.chunks_exact(RECORD)).enumerate() {
        let most = if record.kind == KIND_RESET { 0 } else { 127 };
        let number = match record {
            _ if bytes[..2] != [0x56, 0x4E] => 2,
            Record { kind: 0 | 4.., .. } => 3,
            Record { note, velocity, .. } if note > most || velocity > most || bytes[9] != 0 => 4,
            Record { position, .. } if position < before => 5,
            _ => 0,
        };
        if number > 0 {
            return Some((number, place));
        }
        before = record.position;
    }
    None
}

/// The shelf's limits.
pub fn is_state(words: &Words) -> bool {
    let [phase, lfo_phase] = [0, 12].map(|at| f64::from_bits(words[at]));
    let [level, stage_time, release_level] = [2, 3, 4].map(|at| f64::from_bits(words[at]));
    let [frequency, velocity] = [6, 7].map(|at| f64::from_bits(words[at]));
    let unit = 0.0..=1.0;
    let [active, gate, count] = [words[5] & 255, words[5] >> 8 & 1, words[5] >> 9 & 127];
    let pairs: Vec<u8> = words[8..12].iter().flat_map(|word| word.to_le_bytes()).collect();
    let (held, unused) = pairs.split_at((2 * count as usize).min(pairs.len()));
    [phase, lfo_phase].iter().all(|x| (0.0..1000.0).contains(x))
        && words[1] <= 4
        && [level, release_level, velocity].iter().all(|x| unit.contains(x))
        && (0.0..=11.0).contains(&stage_time)
        && 0.0 < frequency
        && frequency <= 12544.0
        && (active <= 127 || active == 255)
        && (gate == 1) == (active != 255)
        && count <= 16
        && held.iter().all(|&byte| byte <= 127)
        && unused.iter().all(|&byte| byte == 0)
}

/// The word of note, gate, count and records acted with one of them changed.
pub fn packed_words(word: u64) -> Vec<u64> {
    let active = |note: u64| word & !255 | note;
    let held = |count: u64| word & !(127 << 9) | count << 9;
    let acted = |number: u64| word & 65535 | number << 16;
    let now = word >> 16;
    let mut list = vec![active(0), active(127), active(128), active(254), active(255), active(255) ^ 256, word ^ 256];
    list.extend([0, 1, 2, 3, 15, 16, 17, 127].map(held));
    list.extend([0, now.saturating_sub(1), now + 1, now + 65536, (1 << 48) - 1].map(acted));
    list
}
