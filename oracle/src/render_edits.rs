//! The re-renders that the rows ask for, at the edges and at random: a score and an edited one, over what the
//! original's render of the first leaves, or over rubbish where a re-render does not read.

use crate::chance::Chance;
use crate::render::{by_noughts, on, reset, Record, KIND_RESET, SECTION, STATE_WORDS};
use crate::render_asked::{entry_at, start_of, Asked, LAST};
use crate::render_edges::{over_marks, tune, SAW, WAVES};
use crate::render_random::{self, moved, random_score, spoil_score, Maker};
use crate::render_tremolo::{spoilt_lfo, strong};
use crate::rows::{each, one_in, Rows};

/// The longest random one: with two scores and a sine its row is no longer than a render's.
const LONGEST: u64 = 4400;

/// After five renders and parts of renders a re-render, from numbers of its own.
pub fn among(make: Maker, chance: Chance) -> Rows {
    let edits = each(chance.beside(), move |chance| row(make, chance));
    one_in(6, edits, each(chance, move |chance| render_random::row(make, chance)))
}

pub fn edges() -> Vec<Vec<u64>> {
    let mut list = edges_of_position();
    list.extend(edges_of_marks());
    list.extend(edges_of_refusals());
    list.extend(edges_of_noughts());
    list.iter().map(Asked::words).collect()
}

/// A score with a record more, after those of its position.
pub fn with(score: &[Record], record: Record) -> Vec<Record> {
    let after = score.partition_point(|other| other.position <= record.position);
    [&score[..after], &[record], &score[after..]].concat()
}

/// An edit at the beginning, between, at the last sample, at the end and past it; a record taken out, equal scores, no
/// score.
fn edges_of_position() -> Vec<Asked> {
    let mut list = Vec::new();
    for (i, wave) in WAVES.into_iter().enumerate() {
        let render = Asked::whole(44100, wave, 130, &tune()).with_lfo(strong(i + 2));
        list.extend([0, 64, 100, 129, 130, LAST].map(|at| render.edited(&with(&tune(), on(at, 50, 77)))));
        list.extend([render.edited(&tune()[1..]), render.edited(&tune()), render.edited(&[])]);
    }
    let nothing = Asked::whole(44100, SAW, 0, &tune());
    list.push(nothing.edited(&tune()[1..]));
    list
}

/// Edits beside the starts of sections, over the old render and over rubbish; two of them with a tremolo.
fn edges_of_marks() -> Vec<Asked> {
    let (score, mut chance) = (over_marks(), Chance::new(0));
    let whole = |wave, samples| Asked::whole(48000, wave, samples, &score);
    let mut list = vec![
        whole(WAVES[4], 4200).edited(&with(&score, on(4095, 50, 77))),
        whole(WAVES[1], 4200).with_lfo(strong(3)).edited(&with(&score, on(4096, 50, 77))),
        whole(WAVES[0], 4200).edited(&with(&score, reset(4150))),
        whole(SAW, 8200).with_lfo(strong(4)).edited(&with(&score, on(8192, 50, 77))),
    ];
    let over_rubbish = list.iter_mut().skip(1).step_by(2);
    over_rubbish.for_each(|asked| spoil_left(asked, &mut chance));
    list
}

/// A velocity turned to 0, and back; releases that are written otherwise, which is a change though no sample moves.
fn edges_of_noughts() -> Vec<Asked> {
    let struck = vec![on(0, 60, 100), on(64, 64, 90), on(100, 60, 80)];
    let hushed = vec![on(0, 60, 100), on(64, 64, 0), on(100, 60, 80)];
    let between = |old: &[Record], new: &[Record]| Asked::whole(8000, SAW, 130, old).edited(new);
    let marks = Asked::whole(48000, WAVES[1], 4200, &over_marks());
    vec![
        between(&struck, &hushed),
        between(&hushed, &struck),
        between(&tune(), &by_noughts(&tune())),
        between(&by_noughts(&tune()), &tune()),
        marks.edited(&by_noughts(&over_marks())),
        marks.edited(&with(&over_marks(), on(4096, 119, 0))),
    ]
}

/// 6, 7, each fault of the old score and of the new one, an entry that is no state; alone and before those after it.
fn edges_of_refusals() -> Vec<Asked> {
    let usual = Asked::whole(44100, SAW, 3, &tune()).edited(&with(&tune(), on(1, 50, 77)));
    // From the last in the order to the first: each fault added must be given before those that are there.
    let faults = [(2, 2, 0), (2, 9, 1), (2, 7, 128), (2, 6, 9), (2, 0, 0x57)];
    let mut list = Vec::new();
    let far = 1000f64.to_bits();
    let nan = f64::NAN.to_bits();
    for (word, value) in
        [(0, far), (1, 5), (2, nan), (5, 1 << 16 | 255), (5, 511), (8, 128), (12, far), (12, nan), (12, 1 << 63 | 1)]
    {
        let mut asked = usual.clone();
        asked.left[3 + word] = value;
        list.push(asked);
    }
    let mut add = |change: &dyn Fn(&mut Asked)| {
        let (mut alone, mut first) = (usual.clone(), list.last().unwrap().clone());
        change(&mut alone);
        change(&mut first);
        list.extend([alone, first]);
    };
    for (place, byte, value) in faults {
        add(&|asked| asked.score[10 * place + byte] = value);
    }
    add(&|asked| asked.score.truncate(79));
    for (place, byte, value) in faults {
        add(&|asked| asked.old[10 * place + byte] = value);
    }
    add(&|asked| asked.old.truncate(79));
    for shelf in [0, 12, 14, 26] {
        add(&|asked| resize_shelf(asked, shelf));
    }
    add(&|asked| asked.settings.rate = 7999);
    add(&|asked| asked.settings.adsr[2] = f64::NAN);
    add(&|asked| asked.settings.lfo.frequency = 101.0);
    add(&|asked| asked.settings.lfo.depth = f64::NAN);
    list
}

fn resize_shelf(asked: &mut Asked, words: u64) {
    asked.shelf = words;
    asked.left.resize((asked.samples + words) as usize, 0);
}

/// Rubbish everywhere but in the entry that the re-render starts from.
pub fn spoil_left(asked: &mut Asked, chance: &mut Chance) {
    let (samples, from) = (asked.samples as usize, start_of(&asked.old, &asked.score, asked.samples));
    let entry = from.map(|from| samples + entry_at(from) as usize);
    for at in 0..asked.left.len() {
        if at < samples {
            asked.left[at] = (1000.0 * chance.unit()).to_bits();
        } else if entry.is_none_or(|entry| !(entry..entry + STATE_WORDS).contains(&at)) {
            asked.left[at] = chance.word();
        }
    }
}

fn row(make: Maker, chance: &mut Chance) -> Vec<u64> {
    let mut render = make(chance);
    if render.samples > LONGEST {
        let score = random_score(LONGEST, chance);
        render = Asked { settings: render.settings, ..Asked::whole(44100, SAW, LONGEST, &score) };
    }
    let mut asked = render.edited(&random_edit(&render, chance));
    if chance.below(2) == 0 {
        spoil_left(&mut asked, chance);
    }
    if chance.below(6) == 0 {
        spoil(&mut asked, chance);
    }
    asked.words()
}

/// A record put in, taken out, or with another note or velocity; or the score as it was.
fn random_edit(render: &Asked, chance: &mut Chance) -> Vec<Record> {
    let mut score = render.records();
    let any = chance.below(score.len().max(1) as u64) as usize;
    match chance.below(8) {
        0 => {}
        1 | 2 if !score.is_empty() => drop(score.remove(any)),
        3 if !score.is_empty() && score[any].kind != KIND_RESET => score[any].velocity = chance.below(128) as u8,
        _ if score.len() < 4096 => {
            let beside = chance.below(render.samples / SECTION + 1) * SECTION + chance.below(3);
            let any = chance.below(render.samples + 2);
            let at = chance.pick(&[beside.saturating_sub(1), any]);
            score = with(&score, on(at, chance.below(128) as u8, chance.below(128) as u8));
        }
        _ => {}
    }
    score
}

/// One thing moved out of its domain, most often.
fn spoil(asked: &mut Asked, chance: &mut Chance) {
    let entry = start_of(&asked.old, &asked.score, asked.samples).map(|from| (asked.samples + entry_at(from)) as usize);
    match (chance.below(6), entry) {
        (0, _) => asked.settings.rate = chance.pick(&[0, 7999, 192001, LAST]),
        (5, _) => asked.settings.lfo = spoilt_lfo(asked.settings.lfo, chance),
        (1, _) => spoil_score(&mut asked.score, chance),
        (2, _) => spoil_score(&mut asked.old, chance),
        (3, Some(at)) => {
            let kept = asked.left.clone();
            let state = moved(kept[at..at + STATE_WORDS].try_into().unwrap(), chance);
            asked.left[at..at + STATE_WORDS].copy_from_slice(&state);
            // Another state within the limits, which the new score does not lead to.
            if asked.refusal().is_none() {
                asked.left = kept;
            }
        }
        _ => resize_shelf(asked, chance.pick(&[asked.shelf + 1, asked.shelf.saturating_sub(1), asked.shelf + 13])),
    }
}
