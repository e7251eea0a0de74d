/* A state as the thirteen words of a shelf's entry: 01's "The shelf", 02's "Tremolo". */
#include "voice.h"

/* "active note (255 for none) + 256*gate + 512*held count + 65,536*records acted" */
void voice_words(const struct voice *v, uint64_t *words) {
    const struct envelope *e = &v->envelope;
    uint64_t gate = v->active != NO_NOTE;
    words[0] = bits(v->phase);
    words[1] = e->stage;
    words[2] = bits(e->level);
    words[3] = bits(e->time);
    words[4] = bits(e->release_level);
    words[5] = v->active + 256 * gate + 512 * v->held + 65536 * v->acted;
    words[6] = bits(v->frequency);
    words[7] = bits(v->velocity);
    words[8] = words[9] = words[10] = words[11] = 0;
    for (unsigned i = 0; i < v->held; i++) {
        uint64_t pair = v->notes[i] + 256u * v->velocities[i];
        words[8 + i / 4] |= pair << 16 * (i % 4);
    }
    words[12] = bits(v->lfo_phase);
}

/* "16 pairs (note, velocity), oldest first, low byte first, unused pairs 0" */
static bool read_pairs(struct voice *v, const uint64_t *words) {
    for (unsigned i = 0; i < MOST_HELD; i++) {
        unsigned pair = words[i / 4] >> 16 * (i % 4) & 0xFFFF, most = i < v->held ? 127 : 0;
        v->notes[i] = (uint8_t)(pair & 255);
        v->velocities[i] = (uint8_t)(pair >> 8);
        if (v->notes[i] > most || v->velocities[i] > most) return false;
    }
    return v->held <= MOST_HELD;
}

/* "phase is at least 0 and below 1,000"; the LFO's is "kept as a thirteenth word in each shelf entry, under the limits
 * of the first". */
static bool is_phase(double phase) { return phase >= 0.0 && phase < 1000.0; }

static bool read_keys(struct voice *v, uint64_t word, const uint64_t *pairs) {
    unsigned gate = word >> 8 & 1;
    v->active = word & 255;
    v->held = word >> 9 & 127;
    v->acted = word >> 16;
    return (v->active <= 127 || v->active == NO_NOTE) && gate == (v->active != NO_NOTE) && read_pairs(v, pairs);
}

/* "An entry is a state if phase is at least 0 and below 1,000, stage_time 0 to 11, levels and velocity 0 to 1,
 * frequency above 0 and at most 12,544, active note 0 to 127 or 255, gate 1 exactly when it is not 255, held count at
 * most 16, pairs in range, and the rest of these words zero." */
bool voice_read(struct voice *v, const uint64_t *words) {
    if (words[1] > RELEASE || !read_keys(v, words[5], words + 8)) return false;
    v->envelope = (struct envelope){(enum stage)words[1], number(words[2]), number(words[3]), number(words[4])};
    v->phase = number(words[0]);
    v->frequency = number(words[6]);
    v->velocity = number(words[7]);
    v->lfo_phase = number(words[12]);
    return is_phase(v->phase) && is_phase(v->lfo_phase) && is_within(0.0, v->envelope.time, 11.0) &&
           is_within(0.0, v->envelope.level, 1.0) && is_within(0.0, v->envelope.release_level, 1.0) &&
           is_within(0.0, v->velocity, 1.0) && v->frequency > 0.0 && v->frequency <= 12544.0;
}
