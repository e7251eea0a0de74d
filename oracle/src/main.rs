//! The original (bbx_audio) as judge: its files, compiled unchanged, asked for the answers that ours must have.

// The files name two crates, theirs and bbx_core; here both are this one.
extern crate self as bbx_core;

mod stand_ins;
pub use stand_ins::stack_vec::StackVec;
pub use stand_ins::{block, context, parameter, random, sample};

// The original's files as modules (math, phase, polyblep, ..), and `opened`: see modules.in.
include!(concat!(env!("OUT_DIR"), "/modules.rs"));

mod block_rows;
mod chance;
mod check;
mod check_copies;
mod check_lanes;
mod envelope_rows;
mod lane_rows;
mod patterns;
mod phase_rows;
mod pitch_rows;
mod polyblep_rows;
mod render;
mod render_asked;
mod render_edges;
mod render_edits;
mod render_joined;
mod render_random;
mod render_rounded;
mod render_rows;
mod render_stops;
mod render_tremolo;
mod rounded;
mod rows;
mod sine_rows;
mod voice_rows;
mod waveform_rows;

use std::process::exit;

/// One entry a part of the voice; a later part is a module and a line here.
const PARTS: [rows::Part; 10] = [
    phase_rows::PART,
    polyblep_rows::PART,
    pitch_rows::PART,
    sine_rows::PART,
    envelope_rows::PART,
    waveform_rows::PART,
    voice_rows::PART,
    block_rows::PART,
    render_rows::PART,
    lane_rows::PART,
];

const USAGE: &str = "\
oracle rows PART SEED COUNT   a head, the edges, then COUNT seeded rows, to standard output
oracle tally                  parts from standard input: the rows of each, how many done and refused, a line an op
oracle check                  the compiled files are the original's, and the opened copies answer as the untouched";

fn main() {
    let given: Vec<String> = std::env::args().skip(1).collect();
    let words: Vec<&str> = given.iter().map(String::as_str).collect();
    match words[..] {
        ["rows", name, seed, count] => rows::write(part(name), number(seed), number(count)),
        ["tally"] => rows::tally(part),
        ["check"] => check::all(),
        _ => give_up(USAGE),
    }
}

fn part(name: &str) -> &'static rows::Part {
    let found = PARTS.iter().find(|part| part.name == name);
    found.unwrap_or_else(|| give_up(&format!("oracle: no part named {name}")))
}

fn number(text: &str) -> u64 {
    text.parse().unwrap_or_else(|_| give_up(&format!("oracle: {text} is no number")))
}

fn give_up(why: &str) -> ! {
    eprintln!("{why}");
    exit(2)
}
