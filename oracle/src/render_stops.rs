//! Re-renders that stop at a later entry, as 02 says under R-12, and such as a record or an entry keeps from it. Most
//! edit the velocity of a release, or release a key that is not down: neither is heard. The count of each is written
//! down here beside it.

use crate::chance::Chance;
use crate::render::{off, on, reset, Record, STATE_WORDS};
use crate::render_asked::{Asked, LAST};
use crate::render_edges::{SAW, WAVES};
use crate::render_edits::with;
use crate::render_tremolo::strong;
use crate::rows::says;

pub fn edges() -> Vec<Vec<u64>> {
    let mut list = edges_of_records();
    list.extend(edges_of_entries());
    list.extend(edges_of_states());
    let words = |(count, asked): &(u64, Asked)| {
        assert_eq!(asked.answer()[0], says(0, 0, *count), "another count is due");
        asked.words()
    };
    list.iter().map(words).collect()
}

/// A key, and two releases of it.
fn lifts(first: u64, second: u64, velocity: u8) -> Vec<Record> {
    let lift = |position| Record { velocity, ..off(position, 60) };
    vec![on(0, 60, 100), lift(first), lift(second)]
}

/// Rubbish for sound, which is not read: from the stop on it stays.
fn over_rubbish(mut asked: Asked) -> Asked {
    let mut chance = Chance::new(0);
    asked.left[..asked.samples as usize].fill_with(|| (1000.0 * chance.unit()).to_bits());
    asked
}

fn edited(samples: u64, old: &[Record], new: &[Record]) -> Asked {
    over_rubbish(Asked::whole(48000, SAW, samples, old).edited(new))
}

/// The last record that differs is at the start of a section, which is too late to stop there; just before one, with
/// rubbish before the start; past the end; at the highest position.
fn edges_of_records() -> Vec<(u64, Asked)> {
    let at_a_mark = edited(8193, &lifts(1000, 4096, 1), &lifts(1000, 4096, 2));
    let mut before_one = edited(8193, &lifts(5000, 8191, 1), &lifts(5000, 8191, 2));
    let past_the_end = edited(4097, &lifts(9, 99, 1), &with(&lifts(9, 99, 2), on(20000, 64, 100)));
    let at_the_highest = edited(4097, &lifts(9, LAST, 1), &lifts(9, LAST, 2));
    entry(&mut before_one, 0).fill(!0);
    vec![(8192, at_a_mark), (4096, before_one), (4097, past_the_end), (4097, at_the_highest)]
}

/// Entries as they came: the first that would stop, before another one, with any number of records acted; the first,
/// which is no state; which is another state; the one behind the stop, which is no state and gets its number too.
fn edges_of_entries() -> Vec<(u64, Asked)> {
    let mut numbered = edited(8193, &[], &[off(0, 60)]);
    entry(&mut numbered, 1)[5] |= !65535;
    let key = [on(0, 60, 100)];
    let stray = edited(4097, &key, &with(&key, off(0, 61)));
    let (mut no_state, mut other) = (stray.clone(), stray);
    entry(&mut no_state, 1)[11] = 1;
    entry(&mut other, 1)[12] ^= 1;
    let late = off(5000, 60);
    let mut behind = edited(8193, &[late], &[off(0, 60), off(0, 61), late]);
    entry(&mut behind, 2).fill(!0);
    vec![(4096, numbered), (4097, no_state), (4097, other), (4096, behind)]
}

/// Other notes, set back before an entry; a velocity that the next key ends, joined; release levels of -0 and of 0;
/// sines.
fn edges_of_states() -> Vec<(u64, Asked)> {
    let set_back = |note| [on(0, note, 100), reset(4095)];
    let played = |velocity| [on(0, 60, velocity), off(3000, 60), on(5000, 64, 90)];
    let joined = Asked::whole(8000, WAVES[4], 8193, &played(100)).with_lfo(strong(3)).joined();
    let level = [on(0, 0, 100), off(2000, 0)];
    let mut signed = Asked::whole(192000, SAW, 4097, &level);
    signed.settings.adsr[2] = -0.0;
    let sines = Asked::whole(48000, WAVES[0], 4160, &lifts(9, 99, 1)).with_lfo(strong(0));
    vec![
        (4096, edited(4097, &set_back(60), &set_back(64))),
        (8192, joined.edited(&played(50))),
        (4097, signed.edited(&with(&level, on(1999, 0, 100)))),
        (4096, over_rubbish(sines.edited(&lifts(9, 99, 2)))),
    ]
}

/// The words of an entry as a re-render finds it.
fn entry(asked: &mut Asked, section: usize) -> &mut [u64] {
    let first = asked.samples as usize + STATE_WORDS * section;
    &mut asked.left[first..first + STATE_WORDS]
}
