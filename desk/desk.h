/* What the files of the desk share: a section for each of them, in the order in which they build on each other. */
#ifndef DESK_H
#define DESK_H

#include "gavberin.h"

#include <stdbool.h>
#include <stdio.h>
#include <sys/types.h>

/* A score's sizes, for buffers and for words; what is refused, the library decides. */
#define RECORD_BYTES 10u
#define MOST_RECORDS 4096u
#define MOST_SCORE (RECORD_BYTES * MOST_RECORDS)

#define COUNT_OF(list) (sizeof(list) / sizeof((list)[0]))

/* why.c: what went wrong, in words. */

enum status { DONE = 0, REFUSED = 1, MISUSED = 2 };

/* Room for three of the longest paths and words about them. A longer text loses its middle, and never its end. */
struct why {
    enum status status;
    /* Help was asked for, and nothing was done. */
    bool help;
    /* How many files have taken their names: a failure after that says so. */
    unsigned written;
    /* They are a new score and its shelf: the edits that made it would be made on it, were the call made again. */
    bool edited;
    char text[16384];
};

#define WORDS_LIKE_PRINTF __attribute__((format(printf, 2, 3)))

/* Both keep the words and answer false: `return refuse(why, ..);`. */
bool refuse(struct why *why, const char *format, ...) WORDS_LIKE_PRINTF;
bool misuse(struct why *why, const char *format, ...) WORDS_LIKE_PRINTF;
/* Puts words before those that are kept; answers false. */
bool preface(struct why *why, const char *format, ...) WORDS_LIKE_PRINTF;
/* What is said of the files that have taken their names; nothing where none has. */
const char *what_is_written(const struct why *why);
/* `one` where the count is 1, else `many`. */
const char *counted(size_t count, const char *one, const char *many);

/* bytes.c: numbers in bytes, low byte first, and a sum that shows damage. */

struct bytes {
    uint8_t *at;
    size_t len;
};

void put_u32(uint8_t *at, uint32_t value);
void put_u64(uint8_t *at, uint64_t value);
/* Inline, since all samples of a WAV are read by them. */
static inline uint32_t get_u16(const uint8_t *at) { return at[0] | (uint32_t)at[1] << 8; }
static inline uint32_t get_u32(const uint8_t *at) { return get_u16(at) | get_u16(at + 2) << 16; }
static inline uint64_t get_u64(const uint8_t *at) { return get_u32(at) | (uint64_t)get_u32(at + 4) << 32; }
uint64_t bits_of(double value);
double from_bits(uint64_t bits);
uint64_t sum_of(const uint8_t *at, size_t len);

/* files.c: reading whole files, and which names are of one file. */

/* A path as a message names it: "-" is standard input. */
const char *shown_path(const char *path);
/* Reads a file; a file longer than the room fills the room, and the rest is not read. */
bool read_into(const char *path, uint8_t *at, size_t room, size_t *len, struct why *why);
/* The whole file, to be freed; of a file longer than `most` bytes the first most + 1, so that a message can say what it
   is. */
bool read_file(const char *path, size_t most, struct bytes *file, struct why *why);
/* As read_file; leaves the file open, to be copied from. fd is -1 where it cannot be opened. */
bool read_open_file(const char *path, size_t most, int *fd, struct bytes *file, struct why *why);
/* Whether a file has those bytes from byte `at` on; false with errno set where it cannot be read. */
bool compare_bytes(int fd, size_t at, const uint8_t *bytes, size_t len, bool *same);
bool write_all(int fd, const void *at, size_t len);
/* Appends bytes of one file to another inside the file system, as many as it can: answers how many. */
size_t copy_inside(int from, size_t at, int to, size_t len);
/* How many bytes of a path are its folder, with the last slash. */
size_t folder_of(const char *path);
/* What a temporary name begins with; 16 hex digits follow. */
#define OWN_NAME ".desk-"
/* Whether the name that a path leads to, through links, is a temporary one. */
bool is_own_name(const char *path);
/* The name that a path leads to, through links, to be freed; the file need not exist. NULL with errno set. */
char *behind_links(const char *path);
/* Whether both names are of one file, which need not exist; - is the file that standard input comes from. */
bool same_file(const char *one, const char *other);

/* drafts.c: writing under a temporary name, which is also the lock on the file that is written. */

/* A draft is a temporary file beside the target, which takes the target's name at the end or is removed. Its name is
   the same for every draft of a target, and the file is locked from the opening to the drop, so that only one desk at a
   time works on a target; the next desk takes over what a killed one left. From the first opening on the signals that
   end a program wait, so that no half-written file is left, and what was written is told. */
struct draft {
    const char *path;
    char *target, *temporary;
    int fd;
    mode_t mode;
    uid_t owner;
    gid_t group;
};

#define NO_DRAFT ((struct draft){.fd = -1})

/* Whether a file can be written under a path: - cannot. */
bool names_file(const char *path, struct why *why);
bool draft_open(struct draft *draft, const char *path, struct why *why);
bool draft_write(struct draft *draft, const void *at, size_t len, struct why *why);
/* Brings all of the draft to the disk, or is refused. */
bool draft_seal(struct draft *draft, struct why *why);
/* Gives the draft the target's name. The file stays locked. */
bool draft_publish(struct draft *draft, struct why *why);
/* Frees the draft, and removes the file if it was not published. */
void draft_drop(struct draft *draft);
/* A signal that waited ends the program here: all is told by then. */
void let_signals_come(void);

/* The files that go with a sound, in the order in which they are locked and take their names. */
enum file { SCORE_FILE, WAV_FILE, SHELF_FILE, GROUP_FILES };

/* Those of them that are written, locked together. */
struct group {
    struct draft of[GROUP_FILES];
};

#define NO_GROUP ((struct group){.of = {NO_DRAFT, NO_DRAFT, NO_DRAFT}})

/* What a file will hold. A file without bytes (at is NULL) stays as it is. Where there is a source (else NULL), an
   open file, it had the same bytes in the same places when it was read, but for those from byte `first` to before byte
   `end`. */
struct content {
    struct bytes bytes;
    const int *source;
    size_t first, end;
};

/* A path is NULL where there is no such file. */
bool group_open(struct group *group, const char *const paths[GROUP_FILES], struct why *why);
/* Writes the files, then gives them their names; refused where a draft has not all of its bytes, since a source was
   written to after it was read, and where a signal that ends a program came before the first name was given. */
bool group_write(struct group *group, const struct content contents[GROUP_FILES], struct why *why);
void group_drop(struct group *group);

/* score.c: a score as the desk holds it, and its records past the end. */

/* Room for one record more than a score may have, so that the library refuses a longer file. */
struct score {
    uint8_t at[MOST_SCORE + RECORD_BYTES];
    size_t len;
};

bool read_score(const char *path, struct score *score, struct why *why);
void put_record(uint8_t *at, uint32_t position, unsigned kind, unsigned note, unsigned velocity);
void add_record(struct score *score, uint32_t position, unsigned kind, unsigned note, unsigned velocity);
/* The name of a kind of record; NULL where no kind has the number. */
const char *kind_name(unsigned kind);
uint32_t position_of(const struct score *score, size_t record);
bool same_score(const struct score *one, const struct score *other);
/* The index of the first record in which two scores differ; of equal ones their number of records. */
size_t first_apart(const struct score *one, const struct score *other);
/* The position of the first change between two scores that are not equal: of the two records at that index the lower
   one, or that of the one record where the other score has ended. */
uint32_t first_change(const struct score *one, const struct score *other);
/* How many records lie at or past the end of an output of so many samples: they are legal, and not heard. */
size_t count_unheard(const struct score *score, size_t samples);
/* Prints those records in words, with the line's end; tell_unheard only where there are any, after a path. */
void put_unheard(FILE *out, const struct score *score, size_t samples, uint32_t rate);
void tell_unheard(FILE *out, const char *path, const struct score *score, size_t samples, uint32_t rate);

/* settings.c: the voice's settings, as options, in words and in a shelf's head; and the length of a sound. */

/* The words of a shelf's head that are for settings, in use or free. */
#define FIRST_SETTING_WORD 8u
#define SETTING_WORDS 24u
/* Options of a sound: those of the settings, and --seconds. */
#define MOST_SETTING_OPTIONS 16u

/* The texts of the options, NULL where one was not given. */
struct setting_texts {
    const char *of[MOST_SETTING_OPTIONS];
};

/* The place of an option's text; NULL where no setting has the option. */
const char **setting_text(struct setting_texts *texts, const char *option);
/* Whether the option of a setting stands alone, without a value; its text is then its name. */
bool stands_alone(const char *option);
bool read_settings(const struct setting_texts *texts, struct gav_settings *settings, struct why *why);
/* How many samples the sound has; GAV_MOST_SAMPLES + 1 where it has more than GAV_MOST_SAMPLES. */
bool read_length(const struct setting_texts *texts, const struct gav_settings *settings, const struct score *score,
                 size_t *samples, struct why *why);
/* The name of a waveform; NULL where no waveform has the code. */
const char *wave_name(uint32_t code);
/* The settings in a line of words, without its end. */
void put_settings(FILE *out, const struct gav_settings *settings);
/* A number in 6 digits, or in as many more as read back as the same number; none is written that is not needed. */
#define NUMBER_ROOM 32u
const char *number_words(double value, char room[NUMBER_ROOM]);
/* What --help says of the options. */
void put_settings_help(FILE *out);
/* Whether a setting is outside its limits: the first such one is kept in words. */
bool find_wrong_setting(const struct gav_settings *settings, struct why *why);
/* The settings in the head of a shelf's file. */
void put_setting_words(uint8_t *head, const struct gav_settings *settings);
bool get_setting_words(const uint8_t *head, struct gav_settings *settings, struct why *why);

/* arguments.c: the options and operands of a verb. */

/* An operand is an option without dashes. A list ends with an empty one. */
struct option {
    const char *name;
    const char **value;
};

/* What a verb takes; settings is NULL where it takes none. or_no_operands: all operands may be left out together. */
struct arguments {
    const struct option *options, *operands;
    struct setting_texts *settings;
    bool or_no_operands;
};

/* Whether a word that is no option's value asks for help. */
bool is_help(const char *word);
bool read_arguments(char **given, const struct arguments *takes, struct why *why);
bool read_number(const char *name, const char *text, double *value, struct why *why);
bool read_whole(const char *name, const char *unit, const char *text, uint64_t most, uint64_t *value, struct why *why);

/* answers.c: what the library says, in words. */

/* What a call was given, and the paths of it, NULL where there is none. A call's only score is the old one. edits: a
   list of them. */
struct asked {
    const char *old_path, *new_path, *shelf_path;
    const struct score *old_score, *new_score;
    const struct bytes *edits;
    const struct gav_settings *settings;
    size_t samples;
};

/* Whether the answer is done. A refusal is kept in words, which begin with the path of the file that is wrong; those of
   an edit begin with no path. */
bool accepted(uint64_t said, const struct asked *asked, struct why *why);
/* Whether an answer is the refusal of an edit, whose index is the place. */
bool is_of_edit(uint64_t said);
/* Whether the library accepts a score; path is NULL where the words shall name no file. */
bool check_score(const char *path, const struct score *score, struct why *why);

/* text.c: the lines of a text, their words, and a record in words. */

#define MOST_TEXT 4194304u
/* One word more than any good line has; more are not counted. */
#define MOST_WORDS 6u

struct word {
    const uint8_t *at;
    size_t len;
};

/* The rest of a text, and the number of the line that was read last, counted from 1. */
struct lines {
    const uint8_t *at, *end;
    size_t line;
};

/* Refused where the text is too long. */
bool lines_of(const uint8_t *text, size_t len, struct lines *lines, struct why *why);
/* The words of the next line, up to its comment; how many there are. */
size_t next_line(struct lines *lines, struct word words[MOST_WORDS]);
bool is_word(struct word word, const char *text);
/* A word for a message: its first 32 bytes, with '?' for a byte that cannot be printed. */
#define SHOWN_ROOM 33u
const char *shown_word(struct word word, char room[SHOWN_ROOM]);
bool whole_number(struct word word, const char *what, const char *unit, uint64_t most, uint64_t *value,
                  struct why *why);
/* What a record looks like, and whether so many words have that form. */
#define RECORD_FORM "POSITION on|off|reset NOTE VELOCITY"
bool is_record(const struct word *words, size_t count);
/* The bytes of such a record; what is wrong with them together, the library tells. */
bool record_of_words(const struct word *words, size_t count, uint8_t record[RECORD_BYTES], struct why *why);

/* score_text.c: a score from the text that the lister prints. */

bool score_of_text(const uint8_t *text, size_t len, struct score *score, struct why *why);

/* edits_text.c: edits from text, a line each. */

/* The edits as the library takes them, and the line of each. */
struct edits {
    struct bytes list;
    size_t count, room;
    size_t *line_of;
};

/* To be freed by edits_free, refused or not. */
bool edits_of_text(const uint8_t *text, size_t len, struct edits *edits, struct why *why);
void edits_free(struct edits *edits);

/* voice.c: the library's calls on what the desk holds, and the memory that they are lent. */

/* The samples, the entries, and a peak for each section. */
struct sound {
    double *at;
    size_t samples;
    uint64_t *shelf;
    size_t words;
    double *magnitudes;
    uint64_t *numbers;
    size_t sections;
};

struct state {
    uint64_t words[GAV_STATE_WORDS];
};

bool sound_make(struct sound *sound, size_t samples, struct why *why);
void sound_free(struct sound *sound);
struct state voice_fresh(void);
uint64_t voice_render(const struct gav_settings *s, const struct score *score, struct sound *sound);
uint64_t voice_rerender(const struct gav_settings *s, const struct score *before, const struct score *after,
                        struct sound *sound);
/* The edits of a list, made on a score; done, `after` is the new one. */
uint64_t voice_edit(const struct gav_settings *s, const struct score *before, const struct bytes *edits,
                    struct sound *sound, struct score *after);
uint64_t voice_continue(const struct gav_settings *s, const struct score *score, struct state *state, size_t position,
                        double *part, size_t samples);

/* wav.c: a WAV of one channel, of floats or, as an export, of whole numbers. */

/* The most bytes of a head that is written; and of a file that is read, with room for chunks of other programs. */
#define WAV_HEAD_MOST 160u
#define WAV_MOST (WAV_HEAD_MOST + 8u * GAV_MOST_SAMPLES + 1048576u)
/* The byte at which the first chunk begins. */
#define WAV_CHUNKS 12u

/* bits, rate, samples, data and gain describe a WAV that is written: gain is the decibels of an export, or empty, and
   data the byte where the samples begin. The other fields are what the head of a file that was read says. */
struct wav {
    unsigned bits;
    uint32_t rate;
    size_t samples, data;
    char gain[32];
    unsigned format, channels, align, extension;
    uint32_t byte_rate, fact;
    size_t fmt, bytes;
    bool has_fmt, has_fact;
};

struct chunk {
    const uint8_t *name;
    size_t body, size, next;
};

/* Writes the head, and answers its length in bytes. */
size_t wav_head(const struct wav *wav, uint8_t head[WAV_HEAD_MOST]);
/* Samples as a file of so many bits has them: 16, 24, 32 or 64. */
void wav_samples(unsigned bits, const double *from, size_t samples, uint8_t *to);
/* The samples of a file from sample `first` on, as doubles. */
void wav_values(const struct wav *wav, const uint8_t *file, size_t first, size_t samples, double *to);
/* The bytes of the file, to be freed; sets wav->data to the byte where the samples begin. */
bool wav_bytes(struct wav *wav, const double *samples, struct bytes *file, struct why *why);
/* The chunk at byte `at` of the file; false where the chunk ends past the file. */
bool wav_chunk(const uint8_t *file, size_t len, size_t at, struct chunk *chunk);
bool wav_is_chunk(const struct chunk *chunk, const char name[5]);
/* What the chunks of a file of any program say; refused where the file is no WAV, or its chunks are damaged. */
bool wav_read(const uint8_t *file, size_t len, struct wav *wav, struct why *why);
/* Whether a file that was read has samples as the desk writes them, in a render or an export. */
bool wav_is_readable(const struct wav *wav);
/* Whether the numbers of such a file that follow from others are right (a player may seek by its byte rate). */
bool wav_agrees(const struct wav *wav, struct why *why);
/* Whether the desk can go on from such a file: one channel of floats without a gain. */
bool wav_is_ours(const struct wav *wav, struct why *why);
/* Reads a file, and refuses it where the desk cannot go on from it or its numbers do not agree. */
bool wav_look(const uint8_t *file, size_t len, struct wav *wav, struct why *why);
/* Takes the PEAK chunks out of a file that wav_look has read, since new samples make them wrong, and answers the file's
   new length; call wav_look again. */
size_t wav_without_peak(uint8_t *file, size_t len);

/* level.c: how loud samples are. */

/* The largest magnitude and its first sample; below 0 where there are no samples. */
struct peak {
    double level;
    size_t at;
};

struct peak peak_of(const double *from, size_t samples);
double level_of(const double *from, size_t samples);
/* Whether the reference is silent and the level is not: no percent says how far the level is off. */
bool is_off_silence(double level, double reference);
/* How far the level is from the reference in percent, never below -100; 100 where only the reference is silent. */
double percent_off(double level, double reference);
#define OFF_ROOM 48u
/* How far the level is off, in words; they may be written into `room`. */
const char *off_words(double level, double reference, char room[OFF_ROOM]);
/* Prints the peak in words, with the line's end. whole: of a WAV of whole numbers, which no player clips. tell_peak
   prints it after a path. */
void put_peak(FILE *out, struct peak peak, uint32_t rate, bool whole);
void tell_peak(FILE *out, const char *path, struct peak peak, uint32_t rate);

/* export.c: the bits and the gain of a WAV. */

/* gain is the decibels in words, empty where none were given, and factor what they multiply a sample by. */
struct export {
    unsigned bits;
    double factor;
    char gain[32];
};

/* Reads the options' texts, NULL where one was not given; refused where an export is asked for with a shelf. */
bool read_export(const char *bits, const char *gain, const char *shelf, struct export *export, struct why *why);
/* The samples as the WAV will hold them, but not yet cut off at 1. */
void export_apply(const struct export *export, double *at, size_t samples);
struct wav export_wav(const struct export *export, uint32_t rate, size_t samples);
/* How many samples an export of whole numbers cuts off at 1. */
size_t export_clips(const struct export *export, const double *at, size_t samples);

/* shelf_file.c: a shelf in a file, with all that a re-render needs beside the new score and the WAV. */

/* The words of the head, and those beside an entry; the score is padded to a whole word, and a word with the sum
   follows. */
#define SHELF_HEAD_WORDS (FIRST_SETTING_WORD + SETTING_WORDS)
#define SHELF_BESIDE_WORDS 3u
#define SHELF_MOST                                                                                                     \
    (8u * (SHELF_HEAD_WORDS + (GAV_STATE_WORDS + SHELF_BESIDE_WORDS) * (GAV_MOST_SAMPLES / GAV_SECTION) +              \
           MOST_SCORE / 8u + 1u))

/* The version of the file: another layout, or other samples for the same score, is another version. */
#define SHELF_VERSION 6u

/* What the file has beside its sections. voice: the version of the voice that made a file which was read. */
struct shelf_file {
    struct gav_settings settings;
    size_t samples;
    unsigned bits, voice;
    struct score score;
};

/* The bytes of the file, to be freed, for a sound and the WAV that was made of it. */
bool shelf_bytes(const struct shelf_file *about, const struct sound *sound, const struct wav *wav,
                 const uint8_t *wav_file, struct bytes *file, struct why *why);
/* Whether a file begins as a shelf does. */
bool shelf_begins(const uint8_t *file, size_t len);
bool shelf_look(const uint8_t *file, size_t len, struct shelf_file *about, struct why *why);
/* Copies the entries and the peaks of a file that shelf_look has read into a sound of its length. */
void shelf_words(const uint8_t *file, struct sound *sound);
/* The sample after a section's last. */
size_t section_end(size_t samples, size_t section);
/* The sum of a section that the shelf has beside the entry; and the sum of the section's bytes in the WAV. */
uint64_t shelf_sum(const uint8_t *file, size_t section);
uint64_t section_sum(const struct wav *wav, const uint8_t *file, size_t section);
/* The peak of a section that the shelf has beside the entry, of the samples as the voice made them. */
struct peak shelf_peak(const uint8_t *file, size_t section);

/* rework.c: the WAV and the shelf of a score made those of another one, for rerender and edit. */

/* The verb fills in the paths, score_path where the new score is written too, else NULL; and makes the new sound of the
   one that was loaded, and the new score. The files are as they were read, the WAV still open, and the shelf as it will
   be. Samples `from` to before `to` are rendered again; where none are, both are the end. foreign: how many of the
   sections rendered again were of another sound, neither the old score's nor the new one's. */
struct rework {
    const char *input_path, *score_path, *wav_path, *shelf_path;
    struct score after;
    struct shelf_file about;
    struct wav wav;
    struct bytes wav_file, shelf_file, new_shelf;
    int wav_fd;
    struct group group;
    struct sound sound;
    bool equal;
    size_t from, to, foreign;
};

/* Without files, to be freed by rework_free; NULL where there is no memory. */
struct rework *rework_new(struct why *why);
void rework_free(struct rework *r);
/* Whether the paths are of different files; what is read is not written over. */
bool rework_apart(const struct rework *r, struct why *why);
/* Locks the files that will be written, and reads the WAV and the shelf. */
bool rework_load(struct rework *r, struct why *why);
/* What a call of the voice is asked from the old score on. */
struct asked rework_asked(const struct rework *r);
/* So many samples were made by the voice, of the score `after`. */
void rework_made(struct rework *r, size_t count);
/* Refused where a section that is not rendered again is not the shelf's; else writes the files. */
bool rework_write(struct rework *r, struct why *why);
void rework_tell(struct rework *r);

/* The verbs, a file each. */

/* settings: the verb takes the options of a sound, and its help ends with them. */
struct verb {
    const char *name, *summary, *help;
    bool settings;
    bool (*run)(char **given, struct why *why);
};

extern const struct verb check_verb, list_verb, make_verb, render_verb, rerender_verb, edit_verb, play_verb,
    verify_verb, info_verb, peaks_verb, chart_verb;

/* from_zero.c: a WAV, and the render of its score from sample zero beside it, for verify and chart. */

/* The verb fills in the paths and the options' texts; shelf_path is NULL where none is given. held: the WAV's samples.
   zero: the render from sample zero, its samples rounded as the WAV has them. */
struct from_zero {
    const char *score_path, *wav_path, *shelf_path;
    struct setting_texts texts;
    struct gav_settings settings;
    struct score score;
    struct bytes file, shelf;
    struct wav wav;
    struct shelf_file about;
    double *held;
    struct sound zero;
};

bool from_zero_make(struct from_zero *z, struct why *why);
void from_zero_free(struct from_zero *z);
/* How many samples both have. */
size_t from_zero_common(const struct from_zero *z);

/* svg.c: a drawing of levels. */

struct curve {
    const char *color;
    size_t points;
    const double *across, *percent;
};

/* across and tick are in the unit of the curves' horizontal numbers: the panel's whole width, and the step between
   ticks. */
struct panel {
    double left, width, across, tick;
    const char *title, *below;
    size_t curves;
    struct curve curve[2];
};

struct legend {
    int left;
    const char *color, *words;
};

/* name: whose level is drawn. */
struct drawing {
    const char *name;
    size_t panels, legends;
    struct panel panel[2];
    struct legend legend[2];
};

void svg_draw(FILE *out, const struct drawing *drawing);
/* A step between ticks such that there are at most ten steps. */
double svg_tick(double across);

/* pad.c: the pad of the chart and its edits; chart_pad.c: its options, its drawing and its table. */

struct pad {
    struct gav_settings settings;
    size_t samples, window, late;
    unsigned edits;
};

/* After an edit: levels in the last window, and how many samples differ from those of a render from zero. */
struct pad_row {
    size_t cut;
    double zero, ours, old;
    size_t ours_differ, old_differ;
};

#define PAD_MOST_EDITS 15u
#define PAD_POINTS 92u

/* A row before any edit and after each edit; after the last edit, window by window, how far the level is from that of a
   render from zero. */
struct pad_chart {
    const struct pad *pad;
    struct pad_row rows[PAD_MOST_EDITS + 1u];
    size_t points;
    double ours[PAD_POINTS], old[PAD_POINTS];
};

bool read_pad(struct setting_texts *texts, const char *edits, const char *late, struct pad *pad, struct why *why);
bool pad_run(const struct pad *pad, struct pad_chart *chart, struct why *why);
void pad_draw(FILE *out, const void *chart);
void pad_table(FILE *out, const void *chart);

/* chart_wav.c: the chart of a WAV against the render from zero. */

#define CHART_POINTS 640u

struct wav_row {
    size_t first, samples, differ;
    double zero, held;
};

struct wav_chart {
    const struct from_zero *beside;
    size_t samples, window, points, differ;
    struct wav_row rows[CHART_POINTS];
    double across[CHART_POINTS], percent[CHART_POINTS];
};

bool wav_chart_make(const struct from_zero *beside, struct wav_chart *chart, struct why *why);
void wav_chart_draw(FILE *out, const void *chart);
void wav_chart_table(FILE *out, const void *chart);

#endif
