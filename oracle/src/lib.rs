//! The original (bbx_audio) as a library for C, which tests/reference/original.h declares: the oracle's own driver,
//! linked with the reference voice, the library and the bench. Scores are accepted ones, settings and states within
//! their limits. The values of a rounded triangle, code 6, are ours (rounded.rs).

// Of the modules of the rows this crate needs a part.
#![allow(dead_code)]

// The files name two crates, theirs and bbx_core; here both are this one.
extern crate self as bbx_core;

mod stand_ins;
pub use stand_ins::stack_vec::StackVec;
pub use stand_ins::{block, context, parameter, random, sample};

// The original's files as modules (math, phase, polyblep, ..), and `opened`: see modules.in.
include!(concat!(env!("OUT_DIR"), "/modules.rs"));

mod chance;
mod check_copies;
mod envelope_rows;
mod patterns;
mod render;
mod rounded;
mod rows;
mod voice_rows;
mod waveform_rows;

use std::slice::{from_raw_parts, from_raw_parts_mut};

use polyblep::{polyblamp_triangle, polyblep_pulse, polyblep_saw, polyblep_square};
use render::{play_untouched, Lfo, Player, Record, Settings, Words};
use waveform_rows::{ROUNDED, SAWTOOTH, SINE, SQUARE, TAU, TRIANGLE};

#[no_mangle]
#[allow(non_upper_case_globals)]
pub static original_is_here: bool = true;

/// As gavberin.h has it.
#[repr(C)]
pub struct Given {
    rate: u32,
    code: u32,
    duty: f64,
    attack: f64,
    decay: f64,
    sustain: f64,
    release: f64,
    lfo_code: u32,
    lfo_duty: f64,
    lfo_frequency: f64,
    lfo_depth: f64,
    joined: u32,
}

impl Given {
    fn settings(&self) -> Settings {
        let adsr = [self.attack, self.decay, self.sustain, self.release];
        let wave = (self.lfo_code as u64, self.lfo_duty);
        let lfo = Lfo { wave, frequency: self.lfo_frequency, depth: self.lfo_depth };
        let (rate, wave) = (self.rate as u64, (self.code as u64, self.duty));
        Settings { rate, wave, adsr, lfo, joined: self.joined == 1 }
    }
}

/// The records of a score, which need not be accepted.
unsafe fn records<'a>(score: *const u8, len: usize) -> impl Iterator<Item = Record> + 'a {
    let bytes: &[u8] = if len == 0 { &[] } else { from_raw_parts(score, len) };
    bytes.chunks_exact(10).map(|record| Record {
        position: u32::from_le_bytes([record[2], record[3], record[4], record[5]]) as u64,
        kind: record[6],
        note: record[7],
        velocity: record[8],
    })
}

/// The untouched copies, by whole spans, from sample zero on.
///
/// # Safety
/// Every pointer leads to as many elements as its length says, and no two overlap.
#[no_mangle]
pub unsafe extern "C" fn original_render(given: &Given, score: *const u8, len: usize, out: *mut f64, n: usize) {
    play_untouched(given.settings(), records(score, len), from_raw_parts_mut(out, n));
}

/// From a state at a position on, with each sample's scale (how far our sines may move it, in millionths), and, where a
/// shelf is lent, the entry of each section that begins in the part, in order; the state is afterwards the one after
/// the samples.
///
/// # Safety
/// As above; the state has thirteen words, and a shelf that is not null thirteen for each section that begins in the
/// part.
#[no_mangle]
pub unsafe extern "C" fn original_play(
    given: &Given,
    score: *const u8,
    len: usize,
    state: &mut Words,
    position: u64,
    out: *mut f64,
    scales: *mut f64,
    n: usize,
    shelf: *mut u64,
) {
    let score: Vec<Record> = records(score, len).collect();
    let mut player = Player::at(given.settings(), state);
    let played = player.play(&score, position, n as u64);
    *state = player.words();
    if n > 0 {
        for (at, bits) in played.samples.into_iter().enumerate() {
            *out.add(at) = f64::from_bits(bits);
        }
        for (at, bits) in played.scales.into_iter().enumerate() {
            *scales.add(at) = f64::from_bits(bits);
        }
    }
    if !shelf.is_null() {
        from_raw_parts_mut(shelf, played.shelf.len()).copy_from_slice(&played.shelf);
    }
}

/// A single sample at a normalised phase; the sine is the original's own, the rounded triangle ours.
#[no_mangle]
pub extern "C" fn original_sample(code: u32, phase: f64, dt: f64, duty: f64) -> f64 {
    match code as u64 {
        SINE => math::sin(phase * TAU),
        SQUARE => polyblep_square(phase, dt),
        SAWTOOTH => polyblep_saw(phase, dt),
        TRIANGLE => polyblamp_triangle(phase, dt),
        ROUNDED => rounded::ROUNDED.triangle(phase, dt),
        _ => polyblep_pulse(phase, dt, duty),
    }
}
