//! The opened copies beside the untouched ones: the same calls, the same answers, bit for bit.

use crate::block::Block;
use crate::blocks::generators::oscillator::OscillatorBlock;
use crate::blocks::modulators::envelope::EnvelopeBlock;
use crate::blocks::modulators::lfo::LfoBlock;
use crate::chance::Chance;
use crate::context::DspContext;
use crate::math::Real;
use crate::opened;
use crate::parameter::ModulationValues;
use crate::phase::PhaseAccumulator;
use crate::random::XorShiftRng;
use crate::voice::VoiceState;
use crate::waveform::{generate_waveform_sample, process_waveform_scalar, Waveform, DEFAULT_DUTY_CYCLE};

const RUNS: u64 = 400;
const CALLS: u64 = 100;

pub fn all() {
    for seed in 0..RUNS {
        let mut chance = Chance::new(seed);
        phase(&mut chance);
        voice(&mut chance);
        envelope(&mut chance);
        oscillator(&mut chance);
        lfo(&mut chance);
    }
    println!(
        "phase, voice, envelope, oscillator, lfo: {RUNS} runs of {CALLS} calls, opened and untouched copies equal"
    );
}

fn phase(chance: &mut Chance) {
    let (mut plain, mut open) = (PhaseAccumulator::new(), opened::phase::PhaseAccumulator::new());
    for _ in 0..CALLS {
        let number = chance.scaled(-30, 24) as f32 * chance.pick(&[1.0, -1.0]);
        match chance.below(8) {
            0 => (plain.set_frequency(number, 44100.0), open.set_frequency(number, 44100.0)),
            1 => (plain.set_increment(number), open.set_increment(number)),
            2 => (plain.set_phase(number), open.set_phase(number)),
            3 => (plain.reset(), open.reset()),
            _ => (assert_eq!(plain.next().to_bits(), open.next().to_bits()), ()),
        };
        let (phase, increment) = open.fields();
        assert_eq!(plain.phase().to_bits(), phase.to_bits());
        assert_eq!(plain.increment().to_bits(), increment.to_bits());
    }
}

fn voice(chance: &mut Chance) {
    let (mut plain, mut open) = (VoiceState::new(), opened::voice::VoiceState::new());
    for _ in 0..CALLS {
        // Few notes, so that they meet again, and more pressed than let go, so that the stack fills.
        let (note, velocity) = (chance.between(50, 70) as u8, chance.below(128) as u8);
        match chance.below(40) {
            0 => (plain.reset(), open.reset()),
            1..=15 => (assert_eq!(plain.note_off(note), open.note_off(note)), ()),
            _ => (plain.note_on(note, velocity), open.note_on(note, velocity)),
        };
        assert_eq!(plain.held_note_count(), open.held().len());
        same_voice(&plain, &open);
    }
}

/// A voice prints every field, the private stack too, and a float so that it is read back as the same.
pub fn same_voice(plain: &VoiceState, open: &opened::voice::VoiceState) {
    assert_eq!(format!("{plain:?}"), format!("{open:?}"));
}

fn envelope(chance: &mut Chance) {
    let [attack, decay, release] = [(); 3].map(|_| chance.scaled(-12, -5));
    let sustain = chance.unit();
    let mut plain = EnvelopeBlock::<f64>::new(attack, decay, sustain, release);
    let mut open = opened::envelope::EnvelopeBlock::<f64>::new(attack, decay, sustain, release);
    let rate = chance.between(8000, 192000) as f64;
    for _ in 0..CALLS {
        match chance.below(8) {
            0 | 1 => (plain.note_on(), open.note_on()),
            2 => (plain.note_off(), open.note_off()),
            3 if chance.below(8) == 0 => (plain.reset(), open.reset()),
            _ => ((), ()),
        };
        let length = chance.below(300) as usize;
        let samples = run(&mut plain, rate, length);
        assert_eq!(samples, run(&mut open, rate, length));
        let level = open.fields().1.to_bits();
        assert!(samples.last().is_none_or(|&last| last == level));
    }
}

fn oscillator(chance: &mut Chance) {
    let (waveform, rate) = (ported_waveform(chance), chance.between(8000, 192000) as f64);
    let frequency = 20000.0 * chance.unit();
    let mut plain = OscillatorBlock::<f64>::new(frequency, waveform, None);
    let mut open = opened::oscillator::OscillatorBlock::<f64>::new(frequency, waveform, None);
    let mut phase = 0.0;
    for _ in 0..CALLS {
        let length = chance.below(100) as usize;
        let samples = run(&mut plain, rate, length);
        assert_eq!(samples, run(&mut open, rate, length));
        assert_eq!(samples, scalar(waveform, &mut phase, frequency, rate, length, 1.0));
        assert_eq!(phase.to_bits(), open.opened_phase().to_bits());
    }
}

fn lfo(chance: &mut Chance) {
    let (waveform, rate) = (ported_waveform(chance), chance.between(8000, 192000) as f64);
    let (frequency, depth) = (100.0 * chance.unit(), chance.unit());
    let mut plain = LfoBlock::<f64>::new(frequency, depth, waveform, None);
    let mut open = opened::lfo::LfoBlock::<f64>::new(frequency, depth, waveform, None);
    let mut phase = 0.0;
    for _ in 0..CALLS {
        let length = chance.below(100) as usize;
        let samples = run(&mut plain, rate, length);
        assert_eq!(samples, run(&mut open, rate, length));
        assert_eq!(samples, scalar(waveform, &mut phase, frequency, rate, length, depth));
        assert_eq!(phase.to_bits(), open.opened_phase().to_bits());
    }
}

/// All but noise.
fn ported_waveform(chance: &mut Chance) -> Waveform {
    use Waveform::*;
    chance.pick(&[Sine, Square, Sawtooth, Triangle, Pulse])
}

/// One block call; the samples' bits.
pub fn run(block: &mut impl Block<f64>, sample_rate: f64, length: usize) -> Vec<u64> {
    let mut samples = vec![0.0; length];
    let context = DspContext { sample_rate, buffer_size: length };
    block.process(&[], &mut [&mut samples[..]], &ModulationValues::none(), &context);
    samples.into_iter().map(f64::to_bits).collect()
}

/// That block by the two functions below it, which are the crate's own (`pub(crate)`).
fn scalar(waveform: Waveform, phase: &mut f64, frequency: f64, rate: f64, length: usize, scale: f64) -> Vec<u64> {
    let increment = frequency / rate * <f64 as Real>::TAU;
    let rng = &mut XorShiftRng::new(0);
    let first = generate_waveform_sample(waveform, *phase, increment, DEFAULT_DUTY_CYCLE, rng) * scale;
    let mut samples = vec![0.0; length];
    process_waveform_scalar(&mut samples, waveform, phase, increment, rng, scale);
    assert!(samples.first().is_none_or(|sample| sample.to_bits() == first.to_bits()));
    samples.into_iter().map(f64::to_bits).collect()
}
