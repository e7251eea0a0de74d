//! Stands for bbx_dsp::context::DspContext; leaves out channels and the position in the stream.

pub struct DspContext {
    pub sample_rate: f64,
    pub buffer_size: usize,
}
