//! The original's lanes: its polyblep.rs, compiled unchanged with its switch `simd` on, on four f64 at a time.
//!
//! It is a crate of its own because the switch is a whole crate's, and so that this one alone is allowed the compiler's
//! std::simd, which is not stable (.cargo/config.toml).

#![feature(portable_simd)]

mod sample;
// polyblep.rs reads no TAU.
#[allow(dead_code)]
#[path = "../../src/stand_ins/sample.rs"]
mod single;

// The original's files as modules (math, polyblep), and their bytes: see modules.in.
include!(concat!(env!("OUT_DIR"), "/modules.rs"));

use std::simd::Simd;

pub type Four = [f64; 4];

pub fn poly_blep_simd(t: Four, dt: Four) -> Four {
    polyblep::poly_blep_simd::<f64>(Simd::from_array(t), Simd::from_array(dt)).to_array()
}

pub fn poly_blamp_simd(t: Four, dt: Four) -> Four {
    polyblep::poly_blamp_simd::<f64>(Simd::from_array(t), Simd::from_array(dt)).to_array()
}

pub fn apply_polyblep_saw(mut samples: Four, phases: Four, phase_inc: f64) -> Four {
    polyblep::apply_polyblep_saw(&mut samples, phases, phase_inc);
    samples
}

pub fn apply_polyblep_square(mut samples: Four, phases: Four, phase_inc: f64) -> Four {
    polyblep::apply_polyblep_square(&mut samples, phases, phase_inc);
    samples
}

pub fn apply_polyblep_pulse(mut samples: Four, phases: Four, phase_inc: f64, duty_cycle: f64) -> Four {
    polyblep::apply_polyblep_pulse(&mut samples, phases, phase_inc, duty_cycle);
    samples
}

pub fn apply_polyblamp_triangle(mut samples: Four, phases: Four, phase_inc: f64) -> Four {
    polyblep::apply_polyblamp_triangle(&mut samples, phases, phase_inc);
    samples
}
