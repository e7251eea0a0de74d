//! Stands for bbx_dsp::parameter; leaves out modulation: a parameter is the constant it was made with.

use std::marker::PhantomData;

use crate::sample::Sample;

/// Stands for the values that other blocks send in; there are none.
pub struct ModulationValues<S: Sample>(PhantomData<S>);

impl<S: Sample> ModulationValues<S> {
    pub fn none() -> Self {
        Self(PhantomData)
    }
}

/// Stands for the description of what a block sends out; nobody reads it here.
pub struct ModulationOutput {
    pub name: &'static str,
    pub min_value: f64,
    pub max_value: f64,
}

/// Stands for a setting that may be modulated; ours never is.
pub struct Parameter<S: Sample> {
    constant: S,
}

impl<S: Sample> Parameter<S> {
    pub fn constant(value: S) -> Self {
        Self { constant: value }
    }
    pub fn base(&self) -> S {
        self.constant
    }
    pub fn value(&self, _values: &ModulationValues<S>) -> S {
        self.constant
    }
    pub fn value_with_base(&self, base: S, _values: &ModulationValues<S>) -> S {
        base
    }
}

/// Stands for the lookup of a parameter by name; exact names only.
pub fn parameter_name_matches(name: &str, names: &[&str]) -> bool {
    names.contains(&name)
}
