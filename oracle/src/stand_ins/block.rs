//! Stands for bbx_dsp::block; leaves out the graph: only the methods that the three blocks write, and their counts.

use crate::context::DspContext;
use crate::parameter::{ModulationOutput, ModulationValues, Parameter};
use crate::sample::Sample;

// The graph alone reads these counts.
pub const DEFAULT_GENERATOR_INPUT_COUNT: usize = 0;
pub const DEFAULT_GENERATOR_OUTPUT_COUNT: usize = 1;
pub const DEFAULT_MODULATOR_INPUT_COUNT: usize = 0;
pub const DEFAULT_MODULATOR_OUTPUT_COUNT: usize = 1;

pub trait Block<S: Sample> {
    fn process(
        &mut self,
        inputs: &[&[S]],
        outputs: &mut [&mut [S]],
        modulation_values: &ModulationValues<S>,
        context: &DspContext,
    );
    fn parameter_names(&self) -> &'static [&'static str];
    fn parameter(&self, name: &str) -> Option<&Parameter<S>>;
    fn parameter_mut(&mut self, name: &str) -> Option<&mut Parameter<S>>;
    fn input_count(&self) -> usize;
    fn output_count(&self) -> usize;
    fn modulation_outputs(&self) -> &[ModulationOutput];
    fn prepare(&mut self, _context: &DspContext) {}
    fn reset(&mut self);
}
