//! The rounded triangle, as 02 says under R-11, where a render has a waveform: its oscillator, its LFO and both, at low
//! and high notes, struck and joined, reset, cut, from given states and re-rendered; and the random rows, of which
//! every fifth has one.

use crate::chance::Chance;
use crate::envelope_rows::RATES;
use crate::patterns::near;
use crate::render::{off, on, reset, Lfo, Record};
use crate::render_asked::{Asked, CONTINUE};
use crate::render_edges::{over_marks, tune, SAW, WAVES};
use crate::render_edits::{among, spoil_left, with};
use crate::render_joined;
use crate::render_random::random_render;
use crate::render_tremolo::strong;
use crate::rows::{one_in, Rows};
use crate::waveform_rows::{any_duty, duties, not_a_unit, Wave, PULSE, ROUNDED, TINY};

pub fn edges() -> Vec<Vec<u64>> {
    let mut list = edges_of_rates();
    list.extend(edges_of_notes());
    list.extend(edges_of_lfo());
    list.extend(edges_of_keys());
    list.extend(edges_of_cuts());
    list.extend(edges_of_states());
    list.extend(edges_of_edits());
    list.extend(edges_of_refusals());
    list.iter().map(Asked::words).collect()
}

/// After four others one with a rounded triangle, from numbers of its own.
pub fn in_turn(chance: Chance) -> Rows {
    one_in(5, among(random_rounded, chance.elsewhere()), render_joined::in_turn(chance))
}

/// One with a duty that would be refused of a pulse, or with any other: none is read.
fn rounded_wave(number: usize) -> Wave {
    let odd = [not_a_unit(), duties()].concat();
    (ROUNDED, odd[number % odd.len()])
}

/// As fast and as deep as an LFO can be.
fn rounded_lfo(number: usize) -> Lfo {
    Lfo { wave: rounded_wave(number), ..strong(0) }
}

/// The oscillator at every rate: the tune has the highest note and the lowest.
fn edges_of_rates() -> Vec<Asked> {
    let rates = RATES.into_iter().chain([8001, 96000, 191999]).enumerate();
    rates.map(|(i, rate)| Asked::whole(rate, rounded_wave(i), 130, &tune())).collect()
}

/// Held notes at the lowest rate, where a step is most of a cycle: on either side of a half, and of a whole, from where
/// on values leave -1 to 1; the highest; and the lowest note.
fn edges_of_notes() -> Vec<Asked> {
    let notes = [0, 69, 107, 108, 119, 120, 126, 127].into_iter().enumerate();
    notes.map(|(i, note)| Asked::whole(8000, rounded_wave(i + 8), 70, &[on(0, note, 127)])).collect()
}

/// The LFO under every oscillator: still, fast and between, deep, not at all, and a step that passes a corner; both
/// phases are set back by a reset.
fn edges_of_lfo() -> Vec<Asked> {
    let score = [on(0, 69, 127), on(20, 100, 90), reset(37), on(37, 60, 100), off(50, 60)];
    let ends = [(100.0, 1.0), (near(100.0, -1), near(1.0, -1)), (-0.0, 0.5), (5.5, -0.0)];
    let mut list = Vec::new();
    for wave in WAVES.into_iter().chain([rounded_wave(1)]) {
        for (frequency, depth) in ends {
            let lfo = Lfo { wave: rounded_wave(list.len()), frequency, depth };
            list.push(Asked::whole(8000, wave, 85, &score).with_lfo(lfo));
        }
    }
    let least = Lfo { wave: rounded_wave(0), frequency: TINY, depth: TINY };
    list.push(Asked::whole(192000, SAW, 20, &score).with_lfo(least));
    list
}

/// Struck and joined, with both; over the start of a section.
fn edges_of_keys() -> Vec<Asked> {
    let overlapping = [on(0, 60, 100), on(20, 127, 90), on(40, 62, 80), off(50, 127), off(64, 62), on(70, 40, 127)];
    let struck = Asked::whole(8000, rounded_wave(2), 100, &overlapping).with_lfo(rounded_lfo(3));
    let over = Asked::whole(44100, rounded_wave(4), 4160, &over_marks()).with_lfo(rounded_lfo(5));
    vec![struck.clone().joined(), struck, over.joined()]
}

/// Parts of a render, beside multiples of 64 and where a record acts, struck and joined.
fn edges_of_cuts() -> Vec<Asked> {
    let render = Asked::whole(16384, rounded_wave(6), 0, &tune()).with_lfo(rounded_lfo(7));
    let long = Asked::whole(8000, rounded_wave(8), 0, &over_marks()).with_lfo(rounded_lfo(9));
    let mut list = Vec::new();
    for (render, long) in [(render.clone(), long.clone()), (render.joined(), long.joined())] {
        list.extend([(0, 3), (3, 61), (64, 32), (96, 4), (97, 40)].map(|(at, samples)| render.part(at, samples)));
        list.extend([(4095, 2), (4096, 1), (4097, 63)].map(|(at, samples)| long.part(at, samples)));
    }
    list
}

/// Given phases of both, at their limits and past them, and given frequencies.
fn edges_of_states() -> Vec<Asked> {
    let render = Asked::whole(8000, rounded_wave(10), 0, &tune()).with_lfo(rounded_lfo(11));
    let part = render.part(65, 20);
    let mut list = Vec::new();
    let mut add = |word: usize, value: f64| {
        let mut asked = part.clone();
        asked.state[word] = value.to_bits();
        list.push(asked);
    };
    for phase in [0.0, -0.0, TINY, 7.0, near(1000.0, -1), 1000.0, f64::NAN] {
        add(0, phase);
        add(12, phase);
    }
    for frequency in [TINY, 440.1, 4000.0, 8000.0, 12544.0, near(12544.0, 1)] {
        add(6, frequency);
    }
    list
}

/// Re-renders with an edit at the beginning, at a multiple of 64 and at the end, with equal scores and none, struck and
/// joined, some of them over rubbish.
fn edges_of_edits() -> Vec<Asked> {
    let mut list = Vec::new();
    for render in [
        Asked::whole(44100, rounded_wave(12), 70, &tune()).with_lfo(rounded_lfo(13)),
        Asked::whole(8000, rounded_wave(14), 70, &tune()).with_lfo(strong(3)).joined(),
        Asked::whole(8000, SAW, 70, &tune()).with_lfo(rounded_lfo(15)),
    ] {
        let new = |record: Record| render.edited(&with(&tune(), record));
        list.extend([new(on(0, 50, 77)), new(on(64, 127, 77)), new(reset(69)), new(on(70, 50, 77))]);
        list.extend([render.edited(&tune()), render.edited(&[])]);
    }
    list.iter_mut().step_by(4).for_each(|asked| spoil_left(asked, &mut Chance::new(0)));
    list
}

/// Refused as the others are: another setting, the pulse beside it, the shelf, the score.
fn edges_of_refusals() -> Vec<Asked> {
    let usual = Asked::whole(44100, rounded_wave(0), 3, &tune()).with_lfo(rounded_lfo(1));
    let mut list = vec![usual.clone(); 5];
    list[0].settings.rate = 7999;
    list[1].settings.wave = (PULSE, 2.0);
    list[2].settings.lfo.wave = (PULSE, f64::NAN);
    list[3].settings.lfo.frequency = 101.0;
    list[4].settings.lfo.depth = f64::NAN;
    let parts = list.iter().map(|asked| Asked { op: CONTINUE, shelf: 0, ..asked.clone() });
    let others = [Asked { shelf: 14, ..usual.clone() }, Asked { score: usual.score[1..].to_vec(), ..usual.clone() }];
    [list.clone(), parts.collect(), others.to_vec()].concat()
}

/// Of the oscillator, of the LFO or of both; every other one joined.
fn random_rounded(chance: &mut Chance) -> Asked {
    let mut asked = random_render(chance);
    let which = chance.below(3);
    if which != 1 {
        asked.settings.wave = random_wave(asked.settings.wave, chance);
    }
    if which != 0 {
        asked.settings.lfo.wave = random_wave(asked.settings.lfo.wave, chance);
    }
    asked.settings.joined = chance.below(2) == 0;
    asked
}

fn random_wave((_, duty): Wave, chance: &mut Chance) -> Wave {
    let mut word = duty.to_bits();
    any_duty(&mut word, chance);
    (ROUNDED, f64::from_bits(word))
}
