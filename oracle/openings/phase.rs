
// From here on ours: the private fields.
impl PhaseAccumulator {
    pub fn opened(phase: f32, increment: f32) -> Self {
        Self { phase, increment }
    }
    pub fn fields(&self) -> (f32, f32) {
        (self.phase, self.increment)
    }
}
