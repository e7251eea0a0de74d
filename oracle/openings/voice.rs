
// From here on ours: the private stack of held notes.
impl VoiceState {
    pub fn held(&self) -> &[(u8, u8)] {
        self.note_stack.as_slice()
    }
    /// The last entries beyond 16 are dropped, as a push on a full stack is.
    pub fn set_held(&mut self, held: &[(u8, u8)]) {
        self.note_stack.clear();
        for &pair in held {
            let _ = self.note_stack.push(pair);
        }
    }
}
