
// From here on ours: the private fields (stage, level, stage_time, release_level).
impl<S: Sample> EnvelopeBlock<S> {
    pub fn fields(&self) -> (EnvelopeStage, f64, f64, f64) {
        (self.stage, self.level, self.stage_time, self.release_level)
    }
    pub fn set_fields(&mut self, stage: EnvelopeStage, level: f64, stage_time: f64, release_level: f64) {
        self.stage = stage;
        self.level = level;
        self.stage_time = stage_time;
        self.release_level = release_level;
    }
}
