/* The verb peaks: the peaks that a shelf has, for a level line. */
#include "desk.h"

#include <stdlib.h>

static bool tell_peaks(const struct bytes *file, struct why *why) {
    struct shelf_file about;
    if (!shelf_look(file->at, file->len, &about, why)) return false;
    for (size_t i = 0; i < gav_sections(about.samples); i++) {
        struct peak peak = shelf_peak(file->at, i);
        char room[NUMBER_ROOM];
        printf("%s %zu\n", number_words(peak.level, room), peak.at);
    }
    return true;
}

static bool run_peaks(char **given, struct why *why) {
    const char *path = NULL;
    const struct option options[] = {{NULL, NULL}};
    const struct option operands[] = {{"SHELF", &path}, {NULL, NULL}};
    const struct arguments takes = {.options = options, .operands = operands};
    struct bytes file;
    if (!read_arguments(given, &takes, why) || !read_file(path, SHELF_MOST, &file, why)) return false;
    bool told = tell_peaks(&file, why);
    free(file.at);
    return told ? true : preface(why, "%s: ", shown_path(path));
}

const struct verb peaks_verb = {
    .name = "peaks",
    .summary = "prints the peak of each section of a sound, from its shelf",
    .help = "desk peaks SHELF\n"
            "Prints a line for each section of 4096 samples, of which the last may be shorter:\n"
            "  MAGNITUDE SAMPLE\n"
            "MAGNITUDE is the largest in the section, of samples without their signs, as the voice made them,\n"
            "before a WAV of 32 bits rounds them; read back it is the same number to the last bit. SAMPLE is the\n"
            "first sample where it stands, counted from 0 at the start of the sound. A silent section has 0 at its\n"
            "first sample, and a sound of no samples has no line. The peaks are those of the last render or\n"
            "re-render; no WAV is read, and `desk verify` compares them. SHELF may be - for standard input.\n",
    .run = run_peaks,
};
