//! The original driven span by span, as 01 says under "Making sample n": its voice, its envelope, its oscillator, and,
//! as 02 says under "Tremolo", its LFO. As 02 says under "Velocity nought", a note-on with velocity 0 is driven with
//! `note_off`; as it says under "Joined notes", of a joined note the voice's `note_on` is called alone where a note is
//! active.
//!
//! `Player` goes on from any state within the limits and shows its states: it has the opened copies, and makes a span's
//! values one by one, since the original's blocks have one duty only, and no rounded triangle, which is ours
//! (rounded.rs): such a block is driven all the same, for its phase. `Plain` has the untouched copies alone, from
//! sample 0 on, and calls whole blocks into the output: its speed is measured. Where both can be asked they are
//! compared.

use crate::block::Block;
use crate::blocks::generators::oscillator::OscillatorBlock;
use crate::blocks::modulators::envelope::EnvelopeBlock;
use crate::blocks::modulators::lfo::LfoBlock;
use crate::check_copies::run;
use crate::context::DspContext;
use crate::envelope_rows::{self, opened_block};
use crate::math::Real;
use crate::opened;
use crate::parameter::ModulationValues;
use crate::voice::VoiceState;
use crate::voice_rows::{self, Pair, NOTE_OFF, NOTE_ON, NO_CHANGE, RELEASED, RESET};
use crate::waveform_rows::{driven, is_a_block, one_by_one, Wave, SINE, TAU};

/// The samples from one reduction to the next where no record acts, and from one shelf entry to the next.
const BLOCK: u64 = 64;
pub const SECTION: u64 = 4096;

/// A record's kinds.
const KIND_ON: u8 = 1;
const KIND_OFF: u8 = 2;
pub const KIND_RESET: u8 = 3;

#[derive(Clone, Copy)]
pub struct Lfo {
    pub wave: Wave,
    pub frequency: f64,
    pub depth: f64,
}

impl Lfo {
    /// What a sample is multiplied by last, of the block's scaled value: 02's "1 - depth/2 + lfo/2".
    fn factor(self, value: f64) -> f64 {
        1.0 - self.depth / 2.0 + value / 2.0
    }

    /// Whether its sine is heard: at depth 0, of either sign, the factor is 1.
    fn is_heard_sine(self) -> bool {
        self.wave.0 == SINE && self.depth != 0.0
    }
}

#[derive(Clone, Copy)]
pub struct Settings {
    pub rate: u64,
    pub wave: Wave,
    /// Attack, decay, sustain, release.
    pub adsr: [f64; 4],
    pub lfo: Lfo,
    /// Whether notes are joined; else each one is struck.
    pub joined: bool,
}

impl Settings {
    /// Whether a sine is heard in the samples, which then are measured.
    pub fn has_sine(self) -> bool {
        self.wave.0 == SINE || self.lfo.is_heard_sine()
    }

    /// How far our sines may move a sample, in millionths: the oscillator's by a millionth of its scale and factor, the
    /// LFO's, of which half is taken, by half a millionth of the depth, times the sample without tremolo.
    fn scale(self, dry: f64, loudness: f64, factor: f64) -> f64 {
        let own = if self.wave.0 == SINE { (loudness * factor).abs() } else { 0.0 };
        let slow = if self.lfo.is_heard_sine() { 0.5 * self.lfo.depth * dry.abs() } else { 0.0 };
        own + slow
    }
}

/// Whether a note-on triggers the envelope: a joined one does not where a note is active just before it acts.
fn triggers(joined: bool, is_active: bool) -> bool {
    !(joined && is_active)
}

#[derive(Clone, Copy)]
pub struct Record {
    pub position: u64,
    pub kind: u8,
    pub note: u8,
    pub velocity: u8,
}

impl Record {
    /// The kind that it acts as: a note-on with velocity 0 is the release of its key.
    fn acts_as(self) -> u8 {
        match (self.kind, self.velocity) {
            (KIND_ON, 0) => KIND_OFF,
            (kind, _) => kind,
        }
    }
}

pub fn on(position: u64, note: u8, velocity: u8) -> Record {
    Record { position, kind: KIND_ON, note, velocity }
}

/// The velocity of a note-off is in the record, and changes no sample.
pub fn off(position: u64, note: u8) -> Record {
    Record { position, kind: KIND_OFF, note, velocity: 64 }
}

/// The same score with every release written as a note-on with velocity 0.
pub fn by_noughts(score: &[Record]) -> Vec<Record> {
    let written = |record: Record| match record.kind {
        KIND_OFF => on(record.position, record.note, 0),
        _ => record,
    };
    score.iter().copied().map(written).collect()
}

pub fn reset(position: u64) -> Record {
    Record { position, kind: KIND_RESET, note: 0, velocity: 0 }
}

/// The thirteen words of a state, in a shelf entry's order.
pub const STATE_WORDS: usize = 13;
pub type Words = [u64; STATE_WORDS];

/// What was played: each sample's bits, the bits of its scale (how far it may be off, in millionths), and the entries
/// of the sections that begin in it.
#[derive(Default)]
pub struct Played {
    pub samples: Vec<u64>,
    pub scales: Vec<u64>,
    pub shelf: Vec<u64>,
}

pub struct Player {
    settings: Settings,
    phase: f64,
    envelope: opened::envelope::EnvelopeBlock<f64>,
    voice: Pair,
    /// As the state has them; the voice's own from its first note on.
    frequency: f64,
    velocity: f64,
    acted: u64,
    lfo_phase: f64,
}

impl Player {
    pub fn fresh(settings: Settings) -> Self {
        let (envelope, voice) = (opened_block(settings.adsr), Pair::new());
        let (frequency, velocity) = (0.0, 0.0);
        let mut player = Self { settings, phase: 0.0, envelope, voice, frequency, velocity, acted: 0, lfo_phase: 0.0 };
        player.hear();
        player
    }

    /// From a state within the limits.
    pub fn at(settings: Settings, words: &Words) -> Self {
        let [phase, frequency, velocity, lfo_phase] = [0, 6, 7, 12].map(|at| f64::from_bits(words[at]));
        let mut envelope = opened_block(settings.adsr);
        let (stage, level, stage_time, release_level) = envelope_rows::state_of(&words[1..5]);
        envelope.set_fields(stage, level, stage_time, release_level);
        let voice = Pair::at(keys_of(words));
        Self { settings, phase, envelope, voice, frequency, velocity, acted: words[5] >> 16, lfo_phase }
    }

    pub fn words(&self) -> Words {
        let keys = self.voice.state();
        let [stage, level, stage_time, release_level] = envelope_rows::state_words(self.envelope.fields());
        let [phase, frequency, velocity, lfo_phase] =
            [self.phase, self.frequency, self.velocity, self.lfo_phase].map(f64::to_bits);
        let [a, b, c, d] = [0, 4, 8, 12].map(|at| four_pairs(&keys, at));
        let packed = packed_word(&keys, self.acted);
        [phase, stage, level, stage_time, release_level, packed, frequency, velocity, a, b, c, d, lfo_phase]
    }

    /// The samples from a position on. Nothing is reduced at their end.
    pub fn play(&mut self, score: &[Record], position: u64, length: u64) -> Played {
        let (mut played, mut n) = (Played::default(), position);
        while n < position + length {
            if n % SECTION == 0 {
                played.shelf.extend(self.words());
            }
            if n % BLOCK == 0 || self.next(score).is_some_and(|record| record.position == n) {
                self.phase = Real::rem_euclid(self.phase, TAU);
                self.lfo_phase = Real::rem_euclid(self.lfo_phase, TAU);
            }
            while let Some(record) = self.next(score).filter(|record| record.position == n) {
                self.act(record);
            }
            let end = span_end(n, self.next(score), position + length);
            self.sound((end - n) as usize, &mut played);
            n = end;
        }
        played
    }

    /// The first record that has not acted.
    fn next(&self, score: &[Record]) -> Option<Record> {
        score.get(self.acted as usize).copied()
    }

    fn act(&mut self, record: Record) {
        self.acted += 1;
        match record.acts_as() {
            KIND_ON => {
                let is_active = self.voice.state().active != voice_rows::NONE;
                self.voice.call(NOTE_ON, record.note, record.velocity);
                if triggers(self.settings.joined, is_active) {
                    self.envelope.note_on();
                }
                self.hear();
            }
            KIND_OFF => match self.voice.call(NOTE_OFF, record.note, 0) {
                NO_CHANGE => {}
                RELEASED => self.envelope.note_off(),
                _ => self.hear(),
            },
            _ => {
                self.voice.call(RESET, 0, 0);
                self.envelope.reset();
                (self.phase, self.lfo_phase) = (0.0, 0.0);
                self.hear();
            }
        }
    }

    /// The voice's frequency and velocity, widened.
    fn hear(&mut self) {
        let keys = self.voice.state();
        (self.frequency, self.velocity) = (keys.frequency as f64, keys.velocity as f64);
    }

    /// A span, or the part of one that is asked for.
    fn sound(&mut self, length: usize, played: &mut Played) {
        let Settings { rate, lfo, .. } = self.settings;
        let (values, slow) = (self.values(length), self.slow_values(length));
        let levels = run(&mut self.envelope, rate as f64, length).into_iter().map(f64::from_bits);
        for ((value, level), slow) in values.into_iter().zip(levels).zip(slow) {
            let (dry, factor) = (value * level * self.velocity, lfo.factor(slow));
            played.samples.push((dry * factor).to_bits());
            played.scales.push(self.settings.scale(dry, level * self.velocity, factor).to_bits());
        }
    }

    /// The oscillator's values; its block agrees.
    fn values(&mut self, length: usize) -> Vec<f64> {
        let Settings { rate, wave, .. } = self.settings;
        let mut block = opened::oscillator::OscillatorBlock::<f64>::new(self.frequency, driven(wave.0), None);
        block.set_opened_phase(self.phase);
        let mut values = vec![0.0; length];
        one_by_one(&mut values, wave, &mut self.phase, self.frequency / rate as f64 * TAU, 1.0);
        agrees(wave, &values, self.phase, run(&mut block, rate as f64, length), block.opened_phase());
        values
    }

    /// The LFO's scaled values; its block agrees.
    fn slow_values(&mut self, length: usize) -> Vec<f64> {
        let Settings { rate, lfo: Lfo { wave, frequency, depth }, .. } = self.settings;
        let mut block = opened::lfo::LfoBlock::<f64>::new(frequency, depth, driven(wave.0), None);
        block.set_opened_phase(self.lfo_phase);
        let mut values = vec![0.0; length];
        one_by_one(&mut values, wave, &mut self.lfo_phase, frequency / rate as f64 * TAU, depth);
        agrees(wave, &values, self.lfo_phase, run(&mut block, rate as f64, length), block.opened_phase());
        values
    }
}

/// A block's values are those made one by one, where it plays the waveform; it reduces the phase after them, whatever
/// it plays.
fn agrees(wave: Wave, values: &[f64], phase: f64, by_block: Vec<u64>, after: f64) {
    let same = by_block.into_iter().eq(values.iter().map(|value| value.to_bits()));
    assert!(same || !is_a_block(wave), "the block parts ways");
    assert_eq!(after.to_bits(), Real::rem_euclid(phase, TAU).to_bits());
}

/// Where the span that holds n ends: at the next multiple of 64, at the next record, or where no more is asked for.
fn span_end(n: u64, next: Option<Record>, asked: u64) -> u64 {
    let block = (n / BLOCK + 1) * BLOCK;
    next.map_or(block, |record| record.position.min(block)).min(asked)
}

/// The untouched copies of voice and envelope, the untouched oscillator and the untouched LFO, where these play the
/// waveform. At depth 0 there is no LFO, as before there was a tremolo: `Player` has one, whose factor is 1.
struct Plain {
    voice: VoiceState,
    envelope: EnvelopeBlock<f64>,
    source: Source,
    tremolo: Option<(Lfo, Source)>,
    joined: bool,
}

/// The original's blocks; what they do not play is a block's loop over single samples.
enum Source {
    Oscillator(OscillatorBlock<f64>),
    Lfo(LfoBlock<f64>),
    Loop { wave: Wave, frequency: f64, scale: f64, phase: f64 },
}

impl Source {
    fn oscillator(wave: Wave) -> Self {
        if is_a_block(wave) {
            Self::Oscillator(OscillatorBlock::new(440.0, driven(wave.0), None))
        } else {
            Self::Loop { wave, frequency: 440.0, scale: 1.0, phase: 0.0 }
        }
    }

    fn lfo(Lfo { wave, frequency, depth }: Lfo) -> Self {
        if is_a_block(wave) {
            Self::Lfo(LfoBlock::new(frequency, depth, driven(wave.0), None))
        } else {
            Self::Loop { wave, frequency, scale: depth, phase: 0.0 }
        }
    }

    fn reset(&mut self) {
        match self {
            Self::Oscillator(block) => block.reset(),
            Self::Lfo(block) => block.reset(),
            Self::Loop { phase, .. } => *phase = 0.0,
        }
    }

    /// Of a note, for the oscillator.
    fn set_frequency(&mut self, new: f64) {
        match self {
            Self::Oscillator(block) => block.set_midi_frequency(new),
            Self::Lfo(_) => {}
            Self::Loop { frequency, .. } => *frequency = new,
        }
    }

    fn process(&mut self, out: &mut [f64], context: &DspContext) {
        match self {
            Self::Oscillator(block) => block.process(&[], &mut [out], &ModulationValues::none(), context),
            Self::Lfo(block) => block.process(&[], &mut [out], &ModulationValues::none(), context),
            Self::Loop { wave, frequency, scale, phase } => {
                one_by_one(out, *wave, phase, *frequency / context.sample_rate * TAU, *scale);
                *phase = Real::rem_euclid(*phase, TAU);
            }
        }
    }
}

impl Plain {
    fn act(&mut self, record: Record) {
        match record.acts_as() {
            KIND_ON => {
                let is_active = self.voice.active_note.is_some();
                self.voice.note_on(record.note, record.velocity);
                if triggers(self.joined, is_active) {
                    self.envelope.note_on();
                }
            }
            KIND_OFF if self.voice.note_off(record.note) => self.envelope.note_off(),
            KIND_OFF => {}
            _ => {
                self.voice.reset();
                self.envelope.reset();
                self.source.reset();
                self.tremolo.iter_mut().for_each(|(_, slow)| slow.reset());
            }
        }
    }

    /// One span. The blocks reduce their phases after it, which is where the next one begins.
    fn sound(&mut self, rate: f64, out: &mut [f64]) {
        let mut levels = [0.0; BLOCK as usize];
        let levels = &mut levels[..out.len()];
        let context = DspContext { sample_rate: rate, buffer_size: out.len() };
        self.source.set_frequency(self.voice.frequency as f64);
        self.source.process(out, &context);
        self.envelope.process(&[], &mut [levels], &ModulationValues::none(), &context);
        let velocity = self.voice.velocity as f64;
        for (sample, level) in out.iter_mut().zip(levels.iter()) {
            *sample = *sample * *level * velocity;
        }
        let Some((lfo, slow)) = &mut self.tremolo else { return };
        let mut values = [0.0; BLOCK as usize];
        slow.process(&mut values[..out.len()], &context);
        for (sample, value) in out.iter_mut().zip(values) {
            *sample *= lfo.factor(value);
        }
    }
}

/// The first samples of a score by the untouched copies.
pub fn play_untouched(settings: Settings, score: impl Iterator<Item = Record>, out: &mut [f64]) {
    let Settings { wave, adsr: [attack, decay, sustain, release], lfo, joined, .. } = settings;
    let envelope = EnvelopeBlock::new(attack, decay, sustain, release);
    let tremolo = (lfo.depth != 0.0).then(|| (lfo, Source::lfo(lfo)));
    let mut plain = Plain { voice: VoiceState::new(), envelope, source: Source::oscillator(wave), tremolo, joined };
    let (mut rest, mut n) = (score.peekable(), 0);
    while n < out.len() {
        while let Some(record) = rest.next_if(|record| record.position == n as u64) {
            plain.act(record);
        }
        let end = span_end(n as u64, rest.peek().copied(), out.len() as u64) as usize;
        plain.sound(settings.rate as f64, &mut out[n..end]);
        n = end;
    }
}

/// The bits of a score's first samples by the untouched copies.
pub fn untouched(settings: Settings, score: &[Record], length: u64) -> Vec<u64> {
    let mut samples = vec![0.0; length as usize];
    play_untouched(settings, score.iter().copied(), &mut samples);
    samples.into_iter().map(f64::to_bits).collect()
}

// A state's keys as words.

fn packed_word(keys: &voice_rows::State, acted: u64) -> u64 {
    let active = keys.active.min(255) as u64;
    active + 256 * keys.gate as u64 + 512 * keys.count as u64 + 65536 * acted
}

fn four_pairs(keys: &voice_rows::State, at: usize) -> u64 {
    let bytes = std::array::from_fn(|i| if i % 2 == 0 { keys.notes[at + i / 2] } else { keys.velocities[at + i / 2] });
    u64::from_le_bytes(bytes)
}

/// The keys of a state within the limits, with the frequency and velocity that the voice has room for.
fn keys_of(words: &Words) -> voice_rows::State {
    let active = words[5] as u32 & 255;
    let byte = |at: usize| words[8 + at / 8].to_le_bytes()[at % 8];
    let [frequency, velocity] = [6, 7].map(|at| f64::from_bits(words[at]) as f32);
    voice_rows::State {
        active: if active == 255 { voice_rows::NONE } else { active },
        gate: words[5] >> 8 & 1 == 1,
        count: words[5] as u32 >> 9 & 127,
        notes: std::array::from_fn(|i| byte(2 * i)),
        velocities: std::array::from_fn(|i| byte(2 * i + 1)),
        velocity,
        frequency,
    }
}
