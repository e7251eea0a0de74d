//! What must be true before any row is believed: the files are the original's, and the opened copies answer as they do.

use std::path::Path;

use crate::chance::Chance;
use crate::check_copies::{self, run};
use crate::check_lanes;
use crate::math::Real;
use crate::opened::lfo::LfoBlock;
use crate::polyblep::{poly_blamp, polyblamp_triangle};
use crate::polyblep_rows;
use crate::random::XorShiftRng;
use crate::rounded::{ORIGINAL, ROUNDED};
use crate::table::SINE_2048;
use crate::voice::midi_note_to_frequency;
use crate::waveform::{generate_waveform_sample, Waveform};
use crate::{COMPILED, SOURCE};

/// At how many random places the rounded triangle's text is held to the original's.
const PLACES: usize = 1_000_000;

pub fn all() {
    files(Path::new(SOURCE));
    constants();
    overshoot();
    rounded();
    crests();
    check_lanes::all();
    check_copies::all();
}

/// Each compiled file's bytes are the folder's; each opened copy begins with them and only goes on after their end.
fn files(folder: &Path) {
    for &(name, bytes, opened) in COMPILED {
        let there = std::fs::read(folder.join(name)).unwrap_or_default();
        assert!(there == bytes, "{name} is not what was compiled");
        assert!(opened.is_none_or(|longer| longer.starts_with(bytes)), "{name}: its opened copy differs inside");
    }
    for &(name, bytes) in lanes::COMPILED {
        let there = std::fs::read(folder.join(name)).unwrap_or_default();
        assert!(there == bytes, "{name} is not what was compiled for the lanes");
    }
    let opened = COMPILED.iter().filter(|file| file.2.is_some()).count();
    println!("{} files compiled byte for byte, {opened} of them once more with an opening at the end", COMPILED.len());
    println!("{} of them compiled once more byte for byte for the lanes, with the switch simd", lanes::COMPILED.len());
}

/// The two constants that 01 takes from the built Rust, the three notes where libm's powf has bits of its own, and
/// the original's sine table, which is not ported: its length and its quarter.
fn constants() {
    assert_eq!(<f64 as Real>::TAU.to_bits(), 0x4019_21FB_5444_2D18);
    assert_eq!(<f64 as Real>::INV_TAU.to_bits(), 0x3FC4_5F30_6DC9_C883);
    for (note, bits) in [(8, 0x414F_A6FF), (20, 0x41CF_A6FF), (76, 0x4424_D053)] {
        assert_eq!(midi_note_to_frequency(note).to_bits(), bits, "note {note}: another libm?");
    }
    assert_eq!(SINE_2048.entries().len(), 2049);
    assert!((SINE_2048.entries()[512] - 1.0).abs() < 1e-6);
    println!("TAU, INV_TAU and the pitches of notes 8, 20 and 76 have the bits expected of libm 0.2.1");
}

/// How far the triangle passes 1 near its corners: the numbers that docs/DIFFERENCES.md has against lfo.rs's comment.
/// In the LFO's domain that is farthest at 100 Hz and a rate of 8,000 Hz, where the step is largest.
fn overshoot() {
    let cycle_from = |phase: f64| {
        let mut block = LfoBlock::<f64>::new(100.0, 1.0, Waveform::Triangle, None);
        block.set_opened_phase(phase);
        run(&mut block, 8000.0, 80).into_iter().map(f64::from_bits)
    };
    let sample = cycle_from(1.0).nth(27);
    assert_eq!(sample, Some(1.0068577996337653));
    assert_eq!(polyblamp_triangle(0.5293, 0.1), 1.0552284685333337);
    let starts = (0..10000).map(|start| start as f64 / 10000.0 / 80.0 * <f64 as Real>::TAU);
    let largest = starts.flat_map(cycle_from).fold(0.0, f64::max);
    assert_eq!(largest, 1.0069035593696334);
    println!("the LFO's triangle reaches {largest} at depth 1 and a step of 0.0125 cycles");
}

pub fn same(x: f64, y: f64) -> bool {
    x.to_bits() == y.to_bits() || x.is_nan() && y.is_nan()
}

/// The rounded triangle is ours (rounded.rs). Without its third, and with the factor 8, the same text gives the
/// original's bits wherever a row of polyblep asks, and in radians: so the tests, the order of the operations and the
/// way to cycles are the original's.
fn rounded() {
    let edges = (polyblep_rows::PART.edges)();
    let (known, rng) = (edges.len(), &mut XorShiftRng::new(0));
    let random = (polyblep_rows::PART.random)(Chance::new(0)).take(PLACES);
    for row in edges.into_iter().chain(random) {
        let [phase, dt] = [1, 2].map(|at| f64::from_bits(row[at]));
        let [radians, increment] = [phase, dt].map(|cycles| cycles * <f64 as Real>::TAU);
        let sample = generate_waveform_sample(Waveform::Triangle, radians, increment, 0.5, rng);
        assert!(same(ORIGINAL.blamp(phase, dt), poly_blamp(phase, dt)), "poly_blamp at {row:?}");
        assert!(same(ORIGINAL.triangle(phase, dt), polyblamp_triangle(phase, dt)), "the triangle at {row:?}");
        assert!(same(ORIGINAL.in_radians(radians, increment), sample), "the sample at {row:?}");
    }
    println!("the rounded triangle without its third, times 8, is the triangle at {} places", known + PLACES);
}

/// What the documents say of the rounded triangle: the corner at a quarter, the crest of a note, and from which step on
/// and how far it leaves -1 to 1, which nothing clamps.
fn crests() {
    assert_eq!(ROUNDED.triangle(0.0, 0.25), -1.0 + 4.0 * 0.25 / 3.0);
    assert_eq!(ROUNDED.triangle(0.5, 0.0202), 0.9730666666666666);
    let farthest = |dt: f64| (0..=100_000).map(|i| ROUNDED.triangle(i as f64 / 1e5, dt).abs()).fold(0.0, f64::max);
    assert!(farthest(0.954) < 1.0 && 1.0 < farthest(0.955));
    let [note, last] = [midi_note_to_frequency(127) as f64 / 8000.0, 4.0].map(farthest);
    assert_eq!([note, last], [1.5612437492765014, -ROUNDED.triangle(1.0, 4.0)]);
    println!("the rounded triangle reaches {note} at note 127 and 8,000 Hz, and {last} at a step of 4 cycles");
}
