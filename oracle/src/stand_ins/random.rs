//! Stands for bbx_core::random::XorShiftRng; leaves out its numbers: only Waveform::Noise draws one, and it is not
//! ported.

#[derive(Debug, Clone)]
pub struct XorShiftRng;

impl XorShiftRng {
    pub fn new(_seed: u64) -> Self {
        Self
    }
    pub fn next_noise_sample(&mut self) -> f64 {
        panic!("noise is not ported: nothing here may draw it")
    }
}
