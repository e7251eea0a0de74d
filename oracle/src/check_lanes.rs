//! The original's lanes beside its single form: where they have the same bits, and which value a lane has elsewhere.

use crate::chance::Chance;
use crate::check::same;
use crate::lane_rows::{Call, PART, SAW, SQUARE};
use crate::patterns::near;
use crate::polyblep::{poly_blamp, poly_blep, polyblamp_triangle, polyblep_pulse, polyblep_saw, polyblep_square};
use crate::polyblep_rows::{OPS, PULSE};

/// How many random rows of four lanes there are beside the edges.
const ROWS: usize = 250_000;

/// A lane's tests, in the order of the text: just after the step, just before it.
fn tests(t: f64, dt: f64) -> (bool, bool) {
    (t < dt, t > 1.0 - dt)
}

/// The later branch of poly_blep, and of poly_blamp. The text is ours: it is held to the single form's.
fn before(t: f64, dt: f64) -> [f64; 2] {
    let x = (t - 1.0) / dt;
    let (x2, x3) = (x * x, x * x * x);
    [x2 + 2.0 * x + 1.0, (x3 * (1.0 / 3.0) + x2 + x) * dt]
}

/// How many points there are, and how many pass both tests; at how many of these a blep, and a blamp, is another than
/// the single form's; how many lanes of waveforms there are.
#[derive(Default)]
struct Seen {
    points: usize,
    both: usize,
    parted: [usize; 2],
    waves: usize,
}

pub fn all() {
    marks();
    let mut seen = Seen::default();
    for row in (PART.edges)().into_iter().chain((PART.random)(Chance::new(0)).take(ROWS)) {
        let call = Call::of(&row);
        seen.corrections(&call);
        if call.dt[0] <= 0.5 {
            (SAW..OPS).for_each(|op| seen.waveform(Call { op, ..call }));
        }
    }
    let Seen { points, both, parted: [bleps, blamps], waves } = seen;
    assert!(points > both && bleps > 0 && blamps > 0 && waves > 0, "the lanes were not compared");
    println!("a lane is the single form at {} points; at {both}, where both tests hold,", points - both);
    println!("  it has the value before the step: {bleps} bleps and {blamps} blamps are other than the single form's");
    println!("an apply call on naive samples, dt at most 0.5, is the single waveform in {waves} lanes");
}

/// 02's point, and one where both tests hold and nothing differs.
fn marks() {
    let both = |t: f64, dt: f64| [lanes::poly_blep_simd([t; 4], [dt; 4])[0], poly_blep(t, dt)].map(f64::to_bits);
    assert_eq!(both(0.5, 1.0), [0.25, -0.25].map(f64::to_bits));
    assert!(tests(0.5, near(0.5, 1)) == (true, true) && both(0.5, near(0.5, 1)) == [0, 0]);
}

impl Seen {
    fn corrections(&mut self, call: &Call) {
        let [bleps, blamps] = [0, 1].map(|op| Call { op, ..*call }.values());
        for (i, (&t, &dt)) in call.t.iter().zip(&call.dt).enumerate() {
            let (is_after, is_before) = tests(t, dt);
            let (single, later) = ([poly_blep(t, dt), poly_blamp(t, dt)], before(t, dt));
            self.points += 1;
            self.both += (is_after && is_before) as usize;
            for (kind, lane) in [bleps[i], blamps[i]].into_iter().enumerate() {
                let want = if is_after && is_before { later[kind] } else { single[kind] };
                assert!(same(lane, want), "a lane at {t} and {dt} is {lane}, not {want}");
                let is_single = is_after || !is_before || same(single[kind], later[kind]);
                assert!(is_single, "the later branch at {t} and {dt} is {}, not {}", single[kind], later[kind]);
                self.parted[kind] += !same(lane, single[kind]) as usize;
            }
        }
    }

    /// One phase_inc for four phases: that of the first lane.
    fn waveform(&mut self, call: Call) {
        let [dt, ..] = call.dt;
        let call = Call { dt: [dt; 4], ..call }.on_naive();
        for (lane, t) in call.values().into_iter().zip(call.t) {
            let single = match call.op {
                SAW => polyblep_saw(t, dt),
                SQUARE => polyblep_square(t, dt),
                PULSE => polyblep_pulse(t, dt, call.duty),
                _ => polyblamp_triangle(t, dt),
            };
            assert!(same(lane, single), "op {} at {t}, {dt} and {}: {lane}, not {single}", call.op, call.duty);
            self.waves += 1;
        }
    }
}
