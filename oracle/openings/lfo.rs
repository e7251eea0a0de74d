
// From here on ours: the private phase, in radians.
impl<S: Sample> LfoBlock<S> {
    pub fn opened_phase(&self) -> f64 {
        self.phase
    }
    pub fn set_opened_phase(&mut self, phase: f64) {
        self.phase = phase;
    }
}
