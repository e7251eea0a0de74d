/* The library's calls on what the desk holds, and the memory that they are lent. */
#include "desk.h"

#include <stdlib.h>
#include <string.h>

/* Zeros for all of it. At most GAV_MOST_SAMPLES + 1 samples are asked for, which the library refuses. */
bool sound_make(struct sound *sound, size_t samples, struct why *why) {
    size_t words = gav_shelf_words(samples), sections = gav_sections(samples);
    *sound = (struct sound){.samples = samples, .words = words, .sections = sections};
    sound->at = calloc(samples + 1, sizeof *sound->at);
    sound->shelf = calloc(words + 1, sizeof *sound->shelf);
    sound->magnitudes = calloc(sections + 1, sizeof *sound->magnitudes);
    sound->numbers = calloc(sections + 1, sizeof *sound->numbers);
    if (sound->at && sound->shelf && sound->magnitudes && sound->numbers) return true;
    sound_free(sound);
    return refuse(why, "no memory for %zu %s (%zu bytes)", samples, counted(samples, "sample", "samples"),
                  8 * (samples + words + 2 * sections));
}

void sound_free(struct sound *sound) {
    free(sound->at);
    free(sound->shelf);
    free(sound->magnitudes);
    free(sound->numbers);
    *sound = (struct sound){.at = NULL};
}

struct state voice_fresh(void) {
    struct state state = {.words = {0}};
    gav_fresh(state.words, GAV_STATE_WORDS);
    return state;
}

uint64_t voice_render(const struct gav_settings *s, const struct score *score, struct sound *sound) {
    return gav_render_with(s, score->at, score->len, sound->at, sound->samples, sound->shelf, sound->words,
                           sound->magnitudes, sound->sections, sound->numbers, sound->sections);
}

uint64_t voice_rerender(const struct gav_settings *s, const struct score *before, const struct score *after,
                        struct sound *sound) {
    return gav_rerender_with(s, before->at, before->len, after->at, after->len, sound->at, sound->samples, sound->shelf,
                             sound->words, sound->magnitudes, sound->sections, sound->numbers, sound->sections);
}

uint64_t voice_edit(const struct gav_settings *s, const struct score *before, const struct bytes *edits,
                    struct sound *sound, struct score *after) {
    uint64_t said = gav_edit_with(s, before->at, before->len, edits->at, edits->len, sound->at, sound->samples,
                                  sound->shelf, sound->words, sound->magnitudes, sound->sections, sound->numbers,
                                  sound->sections, after->at, GAV_SCORE_BYTES);
    after->len = gav_number(said) == GAV_DONE ? gav_place(said) : 0;
    return said;
}

uint64_t voice_continue(const struct gav_settings *s, const struct score *score, struct state *state, size_t position,
                        double *part, size_t samples) {
    return gav_continue_with(s, score->at, score->len, state->words, GAV_STATE_WORDS, position, part, samples);
}
