//! Joined notes, as 02 says under R-9: which note-on triggers the envelope, by what is active just before it, in every
//! stage, over marks and cuts and after edits; and random rows, of which every other is joined.

use crate::chance::Chance;
use crate::render::{by_noughts, off, on, reset, Record};
use crate::render_asked::{Asked, CONTINUE};
use crate::render_edges::{lifted, pressed, tune, WAVES};
use crate::render_edits::{among, spoil_left, with};
use crate::render_random::random_render;
use crate::render_tremolo::strong;
use crate::rows::Rows;

pub fn edges() -> Vec<Vec<u64>> {
    let mut list = edges_of_order();
    list.extend(edges_of_keys());
    list.extend(edges_of_stages());
    list.extend(edges_of_states());
    list.extend(edges_of_overlaps());
    list.extend(edges_of_cuts());
    list.extend(edges_of_edits());
    list.extend(edges_of_refusals());
    list.iter().map(Asked::words).collect()
}

/// Struck and joined in turn, the joined ones from numbers of their own.
pub fn in_turn(chance: Chance) -> Rows {
    let (joined, struck) =
        (among(|chance| random_render(chance).joined(), chance.apart()), among(random_render, chance));
    Box::new(struck.zip(joined).flat_map(|(struck, joined)| [struck, joined]))
}

/// A joined render at the slowest rate, where every stage of the envelope is short; every other one with a tremolo.
fn whole(number: usize, samples: u64, score: &[Record]) -> Asked {
    let asked = Asked::whole(8000, WAVES[number % 5], samples, score).joined();
    if number % 2 == 0 {
        asked
    } else {
        asked.with_lfo(strong(number / 2))
    }
}

/// Records at one position act one after the other: a key joins what is active after those before it.
fn at_once(at: u64) -> [Vec<Record>; 9] {
    let (first, second) = (on(0, 60, 100), on(at, 62, 90));
    [
        vec![on(at, 60, 100), second],
        vec![first, off(at, 60), second],
        vec![first, second, off(at, 60)],
        vec![first, second, off(at, 62)],
        vec![first, off(at, 60), second, on(at, 64, 80)],
        vec![first, on(at, 60, 0), second],
        vec![first, second, on(at, 60, 0)],
        vec![first, reset(at), second],
        vec![first, second, reset(at), on(at, 64, 80), off(at, 64), second],
    ]
}

fn edges_of_order() -> Vec<Asked> {
    let early = [0, 50, 64].into_iter().flat_map(at_once).enumerate();
    let mut list: Vec<Asked> = early.map(|(i, score)| whole(i, 100, &score)).collect();
    list.extend(at_once(5000).iter().enumerate().map(|(i, score)| whole(i + 1, 0, score).part(4990, 75)));
    list
}

/// 01's worked examples (l), where the seventeenth key is active and none is held, and (k), where it is lifted; the
/// same note again; a release that has not ended, and one that has; velocity 0; velocities that rise and fall.
fn edges_of_keys() -> Vec<Asked> {
    let scores = [
        [pressed(), lifted(), vec![on(64, 62, 90), off(100, 62), on(110, 64, 80)]].concat(),
        [pressed(), vec![off(50, 60), off(60, 55), on(64, 56, 90), off(100, 56), off(110, 54)]].concat(),
        vec![on(0, 60, 90), on(50, 60, 30), off(64, 60), on(70, 60, 80), on(71, 60, 127)],
        vec![on(0, 60, 100), off(40, 60), on(50, 62, 90), on(80, 64, 80), off(85, 62), off(90, 64), on(125, 60, 70)],
        vec![on(0, 60, 100), off(40, 60), on(100, 62, 90), off(101, 61), on(110, 64, 80)],
        vec![on(0, 60, 0), on(5, 60, 100), on(40, 62, 0), on(50, 60, 0), on(55, 62, 0), on(56, 62, 90), on(90, 60, 1)],
        vec![on(0, 60, 64), on(40, 62, 127), on(64, 64, 1), on(70, 60, 100), off(90, 60), off(100, 64)],
        tune(),
        by_noughts(&tune()),
    ];
    scores.iter().enumerate().map(|(i, score)| whole(i, 130, score)).collect()
}

/// Keys that join in the attack, in the decay and in the sustain, and where one ends; a stage that is over at once, or
/// never; a sustain of nothing.
fn edges_of_stages() -> Vec<Asked> {
    let mut score = vec![on(0, 60, 100), on(3, 62, 90), on(8, 64, 127), on(12, 65, 80), on(24, 67, 110)];
    score.extend([on(25, 60, 90), on(64, 72, 100), off(90, 72), on(96, 74, 70)]);
    let mut list: Vec<Asked> = (0..5).map(|i| whole(i, 130, &score).with_lfo(strong(i + 3))).collect();
    for (at, setting) in [(0, 0.0), (0, 10.0), (1, 10.0), (2, 0.0), (2, -0.0), (2, 1.0), (3, 10.0)] {
        let mut asked = whole(list.len(), 130, &score);
        asked.settings.adsr[at] = setting;
        list.push(asked);
    }
    list
}

/// Given states in every stage, with a note active and with none, with held keys and without: the active note alone
/// decides, so that one in Idle stays silent.
fn edges_of_states() -> Vec<Asked> {
    let score = [on(0, 60, 100), on(1, 62, 90), on(70, 64, 80), off(90, 64), on(95, 65, 70)];
    let (active, silent, two) = (62 + 256, 255, 2 << 9);
    let mut list = Vec::new();
    for stage in 0..5 {
        for keys in [active + two, silent + two, active, silent] {
            let mut part = whole(list.len(), 0, &score).part(64, 40);
            (part.state[1], part.state[5]) = (stage, part.state[5] >> 16 << 16 | keys);
            if keys < two {
                part.state[8] = 0;
            }
            list.push(part);
        }
    }
    list
}

/// Forty keys, each struck and lifted at random; some of them are one note.
fn overlaps(chance: &mut Chance) -> Vec<Record> {
    let mut score = Vec::new();
    for _ in 0..40 {
        let (at, note, velocity) = (chance.below(150), chance.below(128) as u8, 1 + chance.below(127) as u8);
        score.extend([on(at, note, velocity), off(at + 1 + chance.below(150), note)]);
    }
    score.sort_by_key(|record| record.position);
    score
}

/// All forty at once too, lifted in their order.
fn edges_of_overlaps() -> Vec<Asked> {
    let mut chance = Chance::new(0);
    let mut list: Vec<Asked> = (0..7).map(|i| whole(i, 300, &overlaps(&mut chance))).collect();
    let forty = (0..40).map(|i| on(3 + i as u64, 30 + i, 3 * i + 1));
    let score: Vec<Record> = forty.chain((0..40).map(|i| off(70 + i as u64, 30 + i))).collect();
    list.push(whole(list.len(), 130, &[&score[..], &[on(115, 60, 90)]].concat()));
    list
}

/// Keys that join before the start of a section, at it and after it; then all are lifted, and one triggers.
fn over_a_mark() -> Vec<Record> {
    let mut score = vec![on(0, 60, 100), on(4032, 62, 90), on(4095, 64, 80), on(4096, 65, 127), off(4096, 64)];
    score.extend([on(4097, 67, 70), off(4120, 67), off(4125, 60), off(4125, 62), off(4125, 65), on(4130, 69, 110)]);
    score
}

/// A render over the start of a section; renders cut into parts, between the keys and where one joins.
fn edges_of_cuts() -> Vec<Asked> {
    let mut list = vec![whole(3, 4200, &over_a_mark())];
    for i in 0..5 {
        let short = whole(i, 0, &tune()).with_lfo(strong(i + 1));
        list.extend([(0, 50), (3, 61), (50, 46), (96, 4), (97, 40)].map(|(at, samples)| short.part(at, samples)));
        let long = whole(i + 1, 0, &over_a_mark());
        let cuts = [(4000, 96), (4095, 1), (4095, 2), (4096, 0), (4096, 1), (4097, 63)];
        list.extend(cuts.map(|(at, samples)| long.part(at, samples)));
    }
    list
}

/// Edits that make a first key a second one, or a second one the first, though its own record stays; some over rubbish.
fn edges_of_edits() -> Vec<Asked> {
    let second = [on(64, 62, 90), on(80, 64, 80), off(120, 62)];
    let both = with(&second, on(0, 60, 100));
    let others = [on(0, 60, 0), off(60, 60), on(60, 60, 0), off(64, 60), reset(63), reset(64), on(70, 64, 127)];
    let mut pairs = vec![(second.to_vec(), both.clone()), (both.clone(), second.to_vec())];
    pairs.push((with(&second, on(0, 60, 0)), both.clone()));
    pairs.extend(others.map(|record| (both.clone(), with(&both, record))));
    // The same two records at one position, in the one order and in the other.
    let (lifted, joined) = ([both[0], off(64, 60), both[1]], [both[0], both[1], off(64, 60)]);
    pairs.extend([(lifted.to_vec(), joined.to_vec()), (joined.to_vec(), lifted.to_vec())]);
    let edited = |(i, (old, new)): (usize, &(Vec<Record>, Vec<Record>))| whole(i, 130, old).edited(new);
    let mut list: Vec<Asked> = pairs.iter().enumerate().map(edited).collect();
    let late = [on(4110, 62, 90), off(4130, 62)];
    list.push(whole(4, 4140, &late).edited(&with(&late, on(4096, 60, 100))));
    list.iter_mut().step_by(4).for_each(|asked| spoil_left(asked, &mut Chance::new(0)));
    list
}

/// Refused as struck notes are: settings, sizes, the score, the state, the entry to start from.
fn edges_of_refusals() -> Vec<Asked> {
    let usual = whole(2, 3, &tune());
    let (part, edit) = (usual.part(97, 3), usual.edited(&tune()[1..]));
    let mut list = vec![usual.clone(), Asked { op: CONTINUE, shelf: 0, ..usual.clone() }, edit.clone()];
    list.iter_mut().for_each(|asked| asked.settings.rate = 7999);
    list.extend([Asked { shelf: 12, ..usual.clone() }, Asked { score: usual.score[1..].to_vec(), ..usual }]);
    let far = 1000f64.to_bits();
    let (mut astray, mut lost) = (part, edit);
    (astray.state[0], lost.left[3]) = (far, far);
    list.extend([astray, lost]);
    list
}
