//! Rows of the render: op, how many words follow the row's first 45, rate, waveform (0 Sine to 4 Pulse, in the
//! original's order, or 6, the rounded triangle, which is ours: rounded.rs), duty, the envelope's four settings, the
//! LFO's waveform, duty, frequency and depth, keying (0 struck, 1 joined), samples asked for, bytes of the score, words
//! of the shelf, position, the given state; then answer, the state after. Then the score's bytes, with zeros up to a
//! whole word, where a sine was heard every sample's scale, every sample, and every word of the shelf. All are u64,
//! every float as its bits; a state is the thirteen words of a shelf entry.
//!
//! A sine is heard where the call is done and the oscillator is one, or the LFO at a depth other than 0. A scale says
//! how far a sample may be off, in millionths: of the oscillator's sine level times velocity times the tremolo's
//! factor, without its sign, and of the LFO's half the depth times the sample without tremolo, without its sign.
//!
//! `continue` takes a position and a state and has no shelf; only Pulse has a duty, and the word of a rounded
//! triangle's is anything. The samples are 42 each before the call, the bytes of the shelf 42 too. A NaN in a given
//! state is 7FF8000000000000, and comes back so.
//!
//! `re-render` has the bytes of its old score for a position, and after its score, which is the new one, the old one,
//! and every sample and every word of the shelf as the call finds them. It neither takes nor hands back a state: 0.

use crate::render_asked::{Asked, GIVEN};
use crate::rows::Part;
use crate::{render_edges, render_edits, render_joined, render_rounded, render_stops};

pub const PART: Part = Part {
    name: "render",
    word: 8,
    words: 45,
    more_at: Some(1),
    answer_at: Some(GIVEN),
    ops: &["render", "continue", "re-render"],
    edges,
    random: render_rounded::in_turn,
    answer: |row| Asked::of(row).answer(),
};

fn edges() -> Vec<Vec<u64>> {
    let mut list = render_edges::all();
    list.extend(render_edits::edges());
    list.extend(render_joined::edges());
    list.extend(render_rounded::edges());
    list.extend(render_stops::edges());
    list
}
