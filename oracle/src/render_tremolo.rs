//! The LFOs that the rows of the render ask for: at the ends of their settings, reset, given at any phase, refused, and
//! at random.

use crate::chance::Chance;
use crate::patterns::near;
use crate::render::{off, on, reset, Lfo, Record};
use crate::render_asked::{Asked, CONTINUE};
use crate::render_edges::{tune, SAW, WAVES};
use crate::render_random::random_wave;
use crate::waveform::DEFAULT_DUTY_CYCLE;
use crate::waveform_rows::{not_a_unit, PULSE, SINE, TINY};

pub fn edges() -> Vec<Asked> {
    let mut list = edges_of_settings();
    list.extend(edges_of_resets());
    list.extend(edges_of_phases());
    list.extend(edges_of_refusals());
    list
}

/// As fast and as deep as an LFO can be, of one of the five waveforms.
pub fn strong(number: usize) -> Lfo {
    Lfo { wave: WAVES[number % 5], frequency: 100.0, depth: 1.0 }
}

/// Every waveform, with the duty of the original's block too; still, at the highest frequency and between; every depth.
fn edges_of_settings() -> Vec<Asked> {
    let mut list = Vec::new();
    let ends = [(0.0, 1.0), (-0.0, 0.5), (100.0, 1.0), (near(100.0, -1), near(1.0, -1)), (5.5, 0.75)];
    for (i, wave) in WAVES.into_iter().chain([(PULSE, DEFAULT_DUTY_CYCLE)]).enumerate() {
        for (j, (frequency, depth)) in ends.into_iter().enumerate() {
            let asked = Asked::whole([8000, 44100][j % 2], WAVES[(i + j) % 5], 150, &tune());
            list.push(asked.with_lfo(Lfo { wave, frequency, depth }));
        }
    }
    // A sine's depth is never tiny, since a sine is measured.
    let least = Lfo { wave: SAW, frequency: TINY, depth: TINY };
    list.push(Asked::whole(8000, SAW, 70, &tune()).with_lfo(least));
    list
}

/// Ons and offs between resets, at and beside multiples of 64: a reset alone sets the LFO back.
fn resets() -> Vec<Record> {
    let mut score = vec![on(0, 69, 127), on(30, 57, 90), reset(37), on(37, 60, 100), off(50, 60), on(60, 61, 80)];
    score.extend([reset(64), on(65, 80, 127), off(100, 80), reset(129), reset(129), on(129, 50, 110)]);
    score
}

fn edges_of_resets() -> Vec<Asked> {
    (0..5).map(|i| Asked::whole(8000, WAVES[(i + 3) % 5], 200, &resets()).with_lfo(strong(i))).collect()
}

/// A part of a render whose state has the LFO at another phase, which need not be one.
fn given(render: &Asked, position: u64, samples: u64, phase: f64) -> Asked {
    let mut part = render.part(position, samples);
    part.state[12] = phase.to_bits();
    part
}

/// The thirteenth word of a given state, at its limits and past them; from 999.9 an LFO passes 1,000 before it is
/// reduced, and the state that is handed back is then none.
fn edges_of_phases() -> Vec<Asked> {
    let render = |wave, lfo| Asked::whole(8000, wave, 0, &tune()).with_lfo(lfo);
    let mut list = Vec::new();
    for phase in [0.0, -0.0, TINY, -TINY, 7.0, near(1000.0, -1), 1000.0, f64::INFINITY, f64::NAN] {
        list.push(given(&render(SAW, strong(3)), 64, 65, phase));
    }
    for i in 0..5 {
        list.extend([1.0, near(1000.0, -1)].map(|phase| given(&render(WAVES[(i + 2) % 5], strong(i)), 65, 90, phase)));
    }
    for (frequency, depth) in [(0.0, 0.0), (-0.0, 0.0), (100.0, -0.0), (-0.0, 0.5)] {
        let render = render(SAW, Lfo { frequency, depth, ..strong(3) });
        list.extend([near(1000.0, -1), -0.0].map(|phase| given(&render, 97, 40, phase)));
    }
    let past = given(&render(SAW, strong(3)), 1, 10, 999.9);
    let after = past.answer()[1..].first_chunk().copied().unwrap();
    list.extend([Asked { position: 11, state: after, ..past.clone() }, past]);
    list
}

fn not_a_frequency() -> [f64; 8] {
    let nan = f64::from_bits(u64::MAX);
    [-TINY, -1.0, near(100.0, 1), 101.0, f64::INFINITY, f64::NEG_INFINITY, f64::NAN, nan]
}

/// Each setting outside its domain; some of a part, and some with a shelf of twelve words an entry: 6 before 7.
fn edges_of_refusals() -> Vec<Asked> {
    let usual = Asked::whole(44100, SAW, 3, &tune()).with_lfo(strong(3));
    let with = |lfo| usual.clone().with_lfo(lfo);
    let mut list: Vec<Asked> = not_a_frequency().map(|frequency| with(Lfo { frequency, ..strong(3) })).into();
    for unit in not_a_unit() {
        list.extend([with(Lfo { depth: unit, ..strong(0) }), with(Lfo { wave: (PULSE, unit), ..strong(4) })]);
    }
    let parts = list.iter().step_by(4).map(|asked| Asked { op: CONTINUE, shelf: 0, ..asked.clone() });
    let small = list.iter().skip(1).step_by(6).map(|asked| Asked { shelf: 12, ..asked.clone() });
    [list.clone(), parts.collect(), small.collect()].concat()
}

/// Still, slow and fast; not heard, deep, and between. A sine's depth is not tiny: half a millionth of it must be more
/// than the factor's last bit.
pub fn random_lfo(chance: &mut Chance) -> Lfo {
    let wave = random_wave(chance);
    let frequency = match chance.below(4) {
        0 => chance.pick(&[0.0, -0.0, TINY, near(100.0, -1), 100.0]),
        1 => chance.scaled(-60, 5),
        _ => 100.0 * chance.dense(),
    };
    let depth = match chance.below(4) {
        0 => chance.pick(&[0.0, -0.0]),
        1 => 1.0,
        _ => chance.dense(),
    };
    let depth = if wave.0 == SINE && 0.0 < depth && depth < 1e-6 { 0.5 } else { depth };
    Lfo { wave, frequency, depth }
}

/// One setting moved out of its domain.
pub fn spoilt_lfo(lfo: Lfo, chance: &mut Chance) -> Lfo {
    let unit = chance.pick(&not_a_unit());
    match chance.below(3) {
        0 => Lfo { frequency: chance.pick(&not_a_frequency()), ..lfo },
        1 => Lfo { depth: unit, ..lfo },
        _ => Lfo { wave: (PULSE, unit), ..lfo },
    }
}
