//! Rows of the pitches: note; then answer, the pitch's f32 bits, the bits of the same number in f64. Four u64 a row.
//!
//! Every u8 once, so there is nothing to draw: a seed and a count change nothing.

use crate::rows::Part;
use crate::voice::{midi_note_to_frequency, VoiceState};

pub const PART: Part = Part {
    name: "pitch",
    word: 8,
    words: 4,
    more_at: None,
    answer_at: Some(1),
    ops: &["midi_note_to_frequency"],
    edges,
    random: |_| Box::new(std::iter::empty()),
    answer,
};

fn edges() -> Vec<Vec<u64>> {
    (0..=u8::MAX as u64).map(|note| vec![note]).collect()
}

/// Number, pitch, pitch widened; a note above 127 is refused.
fn answer(row: &[u64]) -> Vec<u64> {
    if row[0] > 127 {
        return vec![9, 0, 0];
    }
    let note = row[0] as u8;
    let pitch = midi_note_to_frequency(note);
    let mut voice = VoiceState::new();
    voice.note_on(note, 1);
    assert_eq!(voice.frequency.to_bits(), pitch.to_bits(), "a voice plays note {note} at another pitch");
    vec![0, pitch.to_bits() as u64, f64::from(pitch).to_bits()]
}
