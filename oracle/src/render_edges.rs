//! The renders that the rows ask for at the edges.

use crate::envelope_rows::RATES;
use crate::patterns::near;
use crate::render::{by_noughts, off, on, reset, Lfo, Record, Settings};
use crate::render_asked::{packed_words, Asked, CONTINUE, LAST, MOST_SAMPLES};
use crate::render_tremolo::{self, strong};
use crate::waveform_rows::{duties, not_a_unit, Wave, TINY};
use crate::waveform_rows::{PULSE, SAWTOOTH, SINE, SQUARE, TRIANGLE};

pub const SAW: Wave = (SAWTOOTH, 0.0);
pub const WAVES: [Wave; 5] = [(SINE, 0.0), (SQUARE, 0.0), SAW, (TRIANGLE, 0.0), (PULSE, 0.3)];

pub fn all() -> Vec<Vec<u64>> {
    let mut list = edges_of_length();
    list.extend(edges_of_waves());
    list.extend(edges_of_envelope());
    list.extend(edges_of_keys());
    list.extend(edges_of_many());
    list.extend(edges_of_settings());
    list.extend(edges_of_size());
    list.extend(edges_of_faults());
    list.extend(edges_of_parts());
    list.extend(edges_of_states());
    list.extend(edges_of_far());
    list.extend(render_tremolo::edges());
    list.extend(edges_of_noughts());
    list.iter().map(Asked::words).collect()
}

/// Records at the starts of sections and beside them, at the end, beside it and far past it; some at the same position.
fn at_marks(samples: u64) -> Vec<Record> {
    let mut positions = vec![0, 0, 1, 63, 64, 64, 65, 128, 1000, 4032, 4095, 4096, 4096, 4097, 8191, 8192, 8193, LAST];
    positions.extend([samples.saturating_sub(1), samples, samples, samples + 1]);
    positions.sort();
    let event = |(i, at): (usize, u64)| match i % 7 {
        3 => off(at, 41 + 5 * (i as u8 - 1)),
        5 => off(at, 41),
        6 => reset(at),
        _ => on(at, 41 + 5 * (i as u8 % 16), 127 - 3 * i as u8),
    };
    positions.into_iter().enumerate().map(event).collect()
}

/// High notes that sound on to the starts of sections, where the phase has grown over a whole block, and records there.
pub fn over_marks() -> Vec<Record> {
    let mut score = vec![on(0, 112, 127), on(100, 100, 90), on(4096, 119, 77), off(4096, 112), off(6000, 119)];
    score.extend([on(7000, 112, 50), on(8000, 120, 100), reset(8192), on(8192, 115, 60), off(9000, 115)]);
    score
}

fn edges_of_length() -> Vec<Asked> {
    let mut list = Vec::new();
    for samples in [0, 1, 2, 63, 64, 65] {
        list.extend(WAVES.map(|wave| Asked::whole(44100, wave, samples, &at_marks(samples))));
    }
    list.push(Asked::whole(48000, WAVES[4], 4096, &at_marks(4096)));
    list.push(Asked::whole(8000, WAVES[1], 4097, &over_marks()));
    // An LFO that goes on from section to section.
    let lfo = Lfo { wave: WAVES[4], frequency: 7.0, depth: 0.6 };
    list.push(Asked::whole(44100, WAVES[3], 10000, &over_marks()).with_lfo(lfo));
    list
}

/// High, low and loud notes, a fall back, a release.
pub fn tune() -> Vec<Record> {
    vec![
        on(0, 60, 100),
        on(3, 127, 127),
        off(90, 127),
        on(96, 0, 1),
        off(100, 0),
        on(110, 69, 64),
        off(128, 69),
        off(128, 60),
    ]
}

fn edges_of_waves() -> Vec<Asked> {
    let mut list = Vec::new();
    for wave in WAVES {
        let rates = RATES.into_iter().chain([8001, 96000, 191999]);
        list.extend(rates.map(|rate| Asked::whole(rate, wave, 150, &tune())));
    }
    for duty in duties().into_iter().chain([0.1, 0.75, 0.9]) {
        list.extend([8000, 44100].map(|rate| Asked::whole(rate, (PULSE, duty), 110, &tune())));
    }
    list
}

/// The ends of the settings, where the clamps begin to act; a note of 120 samples.
fn edges_of_envelope() -> Vec<Asked> {
    let mut list = Vec::new();
    let mut add = |at: usize, setting: f64| {
        let mut asked = Asked::whole(8000, WAVES[list.len() % 5], 160, &[on(0, 69, 127), off(120, 69)]);
        asked.settings.adsr[at] = setting;
        list.push(asked);
    };
    for sustain in [1.0, near(1.0, -1), near(1.0, 1), 0.0, -0.0, 0.1, 0.3, f64::INFINITY, f64::NEG_INFINITY] {
        add(2, sustain);
    }
    for at in [0, 1, 3] {
        for time in [f64::NEG_INFINITY, 0.0, 0.001, near(0.001, 1), 0.0125, 10.0, f64::INFINITY] {
            add(at, time);
        }
    }
    list
}

/// Seventeen keys struck, of which sixteen are held.
pub fn pressed() -> Vec<Record> {
    let sixteen = (40..56).map(|note| on(2 * (note as u64 - 40), note, note));
    sixteen.chain([on(40, 60, 99)]).collect()
}

/// The sixteen lifted.
pub fn lifted() -> Vec<Record> {
    (40..56).map(|note| off(note as u64, note)).collect()
}

/// 01's worked examples (k), (l) and (m) as scores, more than 16 keys, keys that are not down, velocity 0.
fn edges_of_keys() -> Vec<Asked> {
    let (pressed, lifted) = (pressed(), lifted());
    let forty: Vec<Record> =
        (0..40).map(|i| on(3, 30 + i, 3 * i)).chain((0..40).map(|i| off(70 + i as u64 / 4, 69 - i))).collect();
    let scores = [
        [&pressed[..], &[off(50, 60), off(60, 55), off(64, 54), reset(100), off(101, 53)]].concat(),
        [&pressed[..], &lifted, &[off(70, 60)]].concat(),
        vec![on(0, 60, 90), on(20, 60, 30), off(64, 60), off(65, 60), on(66, 61, 0)],
        forty,
        vec![on(5, 60, 0), on(50, 62, 127), off(64, 62), off(100, 60)],
        vec![off(0, 60), on(0, 60, 127), off(0, 60), on(0, 62, 126), reset(0), on(0, 64, 125), reset(64), reset(64)],
        vec![reset(0), on(7, 100, 80), reset(20), on(64, 100, 80), off(80, 100), reset(90)],
        vec![],
    ];
    scores.iter().enumerate().map(|(i, score)| Asked::whole(8000, WAVES[i % 5], 130, score)).collect()
}

/// A record at every sample; 4,096 records, four at a position; 4,097; 4,096 with a fault in the last one.
fn edges_of_many() -> Vec<Asked> {
    let event = |at: u64, i: u64| match i % 5 {
        4 if i % 640 == 639 => reset(at),
        2 | 4 => off(at, 40 + (i / 5 % 19) as u8),
        _ => on(at, 40 + (i % 23) as u8, (i % 128) as u8),
    };
    let each: Vec<Record> = (0..300).map(|i| event(i, i)).collect();
    let many: Vec<Record> = (0..4097).map(|i| event(i / 4, i)).collect();
    let mut faulty = Asked::whole(44100, SAW, 3, &many[..4096]);
    faulty.score[40_959] = 1;
    vec![
        Asked::whole(44100, WAVES[3], 300, &each),
        Asked::whole(44100, WAVES[4], 1030, &many[..4096]),
        Asked::whole(44100, SAW, 3, &many),
        faulty,
    ]
}

/// Some of these with no sample: a call is judged all the same.
fn empty(list: &[Asked], step: usize) -> Vec<Asked> {
    list.iter().step_by(step).map(|asked| Asked { samples: 0, shelf: 0, ..asked.clone() }).collect()
}

/// Rate, duty and ADSR outside the domain, at three lengths.
fn edges_of_settings() -> Vec<Asked> {
    let usual = Asked::whole(44100, SAW, 3, &tune());
    let with = |change: &dyn Fn(&mut Settings)| {
        let mut asked = usual.clone();
        change(&mut asked.settings);
        asked
    };
    let mut list = Vec::new();
    for rate in [0, 1, 7999, 192001, LAST] {
        list.push(with(&|settings| settings.rate = rate));
    }
    for duty in not_a_unit().into_iter().chain([-0.1, 1.5]) {
        list.push(with(&|settings| settings.wave = (PULSE, duty)));
    }
    for at in 0..4 {
        for nan in [f64::NAN, -f64::NAN, f64::from_bits(u64::MAX), f64::from_bits(0x7FF0_0000_0000_0001)] {
            list.push(with(&|settings| settings.adsr[at] = nan));
        }
    }
    let longer = list.iter().step_by(5).map(|asked| Asked { samples: 65, ..asked.clone() });
    let parts = list.iter().step_by(4).map(|asked| Asked { op: CONTINUE, shelf: 0, ..asked.clone() });
    [list.clone(), longer.collect(), parts.collect(), empty(&list, 6)].concat()
}

/// A shelf that is too short or too long, by a word and by an entry.
fn edges_of_size() -> Vec<Asked> {
    let mut list = Vec::new();
    for (samples, shelves) in [(0, vec![1, 13]), (3, vec![0, 1, 12, 14, 26]), (4096, vec![26]), (4097, vec![13, 24])] {
        list.extend(shelves.into_iter().map(|shelf| Asked { shelf, ..Asked::whole(44100, SAW, samples, &tune()) }));
    }
    list
}

/// Every fault of a score, at the first record, a middle and the last one, alone, with others, and behind 6 and 7.
fn edges_of_faults() -> Vec<Asked> {
    let usual = Asked::whole(44100, SAW, 3, &tune());
    let with = |changes: &[(usize, usize, u8)]| {
        let mut asked = usual.clone();
        changes.iter().for_each(|&(place, byte, value)| asked.score[10 * place + byte] = value);
        asked
    };
    let mut list = Vec::new();
    for place in [0, 1, 7] {
        list.extend(
            [(0, 0x57), (1, 0x4F), (6, 0), (6, 4), (6, 255), (7, 128), (8, 255), (9, 1)]
                .map(|(at, value)| with(&[(place, at, value)])),
        );
        // A reset with a note and a velocity.
        list.push(with(&[(place, 6, 3)]));
    }
    list.extend([with(&[(1, 5, 1)]), with(&[(6, 2, 9)]), with(&[(0, 4, 1)])]);
    // Two faults: in one record, in two.
    list.extend([
        with(&[(2, 9, 1), (2, 0, 0), (2, 6, 9)]),
        with(&[(2, 9, 1), (2, 6, 9)]),
        with(&[(3, 9, 1), (3, 2, 0)]),
    ]);
    list.extend([with(&[(0, 6, 7), (1, 0, 0)]), with(&[(3, 2, 0), (2, 8, 128)]), with(&[(4, 7, 200), (5, 1, 0)])]);
    for size in [1, 9, 11, 79] {
        list.push(Asked { score: usual.score[..size].to_vec(), ..usual.clone() });
    }
    let small: Vec<Asked> = list.iter().step_by(3).map(|asked| Asked { shelf: 14, ..asked.clone() }).collect();
    let mut unset: Vec<Asked> = list.iter().chain(&small).step_by(4).cloned().collect();
    unset.iter_mut().for_each(|asked| asked.settings.rate = 7999);
    let parts = list.iter().step_by(2).map(|asked| Asked { op: CONTINUE, shelf: 0, position: 9, ..asked.clone() });
    [list.clone(), small, unset, parts.collect(), empty(&list, 5)].concat()
}

/// Renders cut into parts, at records, at the starts of sections and between them; the shorter ones with a tremolo.
fn edges_of_parts() -> Vec<Asked> {
    let mut list = Vec::new();
    for (i, wave) in WAVES.into_iter().enumerate() {
        let render = Asked::whole(RATES[i], wave, 0, &tune()).with_lfo(strong(i + 1));
        let mut position = 0;
        for samples in [0, 1, 2, 17, 63, 0, 7, 64, 65, 1] {
            list.push(render.part(position, samples));
            position += samples;
        }
    }
    for (score, wave) in [(at_marks(5000), WAVES[4]), (over_marks(), SAW)] {
        let render = Asked::whole(44100, wave, 0, &score);
        let parts = [(4000, 65), (4095, 1), (4095, 2), (4096, 0), (4096, 1), (4096, 65), (4097, 63), (8190, 3)];
        list.extend(parts.map(|(position, samples)| render.part(position, samples)));
    }
    // The score has grown since the state was made: below the position, at it, and after it.
    let before = Asked::whole(44100, SAW, 0, &tune()[..2]).part(70, 20);
    for grown in [69, 70, 71] {
        let score = [&tune()[..2], &[on(grown, 80, 80)]].concat();
        list.push(Asked { score: Asked::whole(44100, SAW, 0, &score).score, ..before.clone() });
    }
    list
}

/// Given states at and past the limits, and of another number of records acted. What is accepted need not be reached
/// by any score.
fn edges_of_states() -> Vec<Asked> {
    let mut list = Vec::new();
    for (at, samples) in [(64, 65), (97, 3)] {
        let part = Asked::whole(8000, SAW, 0, &tune()).part(at, samples);
        let mut add = |word: usize, value: u64| {
            let mut state = part.state;
            state[word] = value;
            list.push(Asked { state, ..part.clone() });
        };
        for phase in [0.0, -0.0, TINY, -TINY, 7.0, 999.9, near(1000.0, -1), 1000.0, f64::INFINITY, f64::NAN] {
            add(0, phase.to_bits());
        }
        (0..5).for_each(|stage| add(1, stage));
        for unit in [0.0, -0.0, TINY, 0.5, 1.0].into_iter().chain(not_a_unit()) {
            let unit = if unit.is_nan() { f64::NAN } else { unit };
            [2, 4, 7].into_iter().for_each(|word| add(word, unit.to_bits()));
        }
        for stage_time in [0.0, -0.0, 0.001, near(11.0, -1), 11.0, near(11.0, 1), -TINY, f64::NAN] {
            add(3, stage_time.to_bits());
        }
        for frequency in [0.0, -0.0, -TINY, TINY, 440.1, 12544.0, near(12544.0, 1), f64::INFINITY, f64::NAN] {
            add(6, frequency.to_bits());
        }
        for packed in packed_words(part.state[5]) {
            add(5, packed);
        }
        for (word, value) in [(8, 0x8000), (8, 0x80), (8, 0xFF00_0000), (9, 1), (10, 1 << 56), (11, 1 << 63)] {
            add(word, part.state[word] ^ value);
        }
    }
    [list.clone(), empty(&list, 7)].concat()
}

/// Keys released by a note-on with velocity 0: where a note-off would release, fall back or change nothing, before the
/// first on, beside an on of the same note in both orders, at multiples of 64 and of 4,096, in parts; beside velocity 1.
fn edges_of_noughts() -> Vec<Asked> {
    let scores = [
        vec![on(0, 60, 100), on(50, 60, 0)],
        vec![on(0, 60, 100), on(10, 64, 90), on(40, 64, 0), on(80, 60, 0)],
        vec![on(0, 64, 90), on(10, 60, 100), on(40, 64, 0), on(80, 60, 0)],
        vec![on(0, 60, 0), on(3, 61, 0), on(10, 60, 100), on(40, 64, 0), on(64, 60, 0), on(70, 60, 0)],
        vec![on(0, 60, 100), on(20, 60, 0), on(20, 60, 80), on(128, 60, 0)],
        vec![on(0, 60, 100), on(20, 60, 80), on(20, 60, 0)],
        vec![on(0, 60, 100), on(10, 62, 90), on(20, 60, 80), on(64, 60, 0), off(64, 60), on(64, 62, 0)],
        vec![on(0, 60, 100), on(20, 60, 1), on(64, 60, 0), on(100, 0, 0), reset(110), on(110, 60, 0)],
        [pressed(), vec![on(50, 60, 0), on(60, 55, 0), on(64, 54, 0), reset(100), on(101, 53, 0)]].concat(),
        [pressed(), by_noughts(&lifted()), vec![on(70, 60, 0)]].concat(),
        by_noughts(&tune()),
    ];
    let mut list: Vec<Asked> =
        scores.iter().enumerate().map(|(i, score)| Asked::whole(8000, WAVES[i % 5], 130, score)).collect();
    let marks = [on(0, 60, 100), on(4032, 62, 90), on(4096, 62, 0), on(4096, 64, 0), on(4160, 60, 0)];
    list.push(Asked::whole(8000, SAW, 4200, &marks).with_lfo(strong(1)));
    let over = Asked::whole(44100, WAVES[4], 0, &by_noughts(&over_marks()));
    list.extend([(4095, 2), (4096, 1), (5990, 64), (8999, 65)].map(|(position, samples)| over.part(position, samples)));
    list
}

/// Positions up to the last, past it and far past it, where a sum would be too large; records there.
fn edges_of_far() -> Vec<Asked> {
    let end = MOST_SAMPLES;
    let score = [on(end - 130, 69, 100), on(end - 1, 70, 100), on(end, 71, 100), on(LAST, 72, 100)];
    let mut list = Vec::new();
    for (position, samples) in [
        (end - 140, 65),
        (end - 65, 65),
        (end - 65, 66),
        (end - 1, 1),
        (end - 1, 2),
        (end, 0),
        (end, 1),
        (end + 1, 0),
        (LAST, 0),
        (LAST + 1, 0),
        (u64::MAX, 0),
        (u64::MAX, 1),
        (u64::MAX - 63, 64),
    ] {
        let usual = Asked::whole(44100, SAW, 0, &score).part(0, samples);
        let below = score.iter().filter(|record| record.position < position).count() as u64;
        let mut state = usual.state;
        state[5] |= below << 16;
        list.push(Asked { position, state, ..usual });
    }
    list
}
