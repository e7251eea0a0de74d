/* A WAV of one channel. As the desk writes it: RIFF, an fmt chunk, for floats a fact chunk with the number of samples,
   for an export with a gain a comment that says so, data. As it is read: whatever chunks another program put beside
   those. Floats have 32 or 64 bits; whole numbers, of exports, 16 or 24, and their largest one is the level 1. */
#include "desk.h"

#include <math.h>
#include <stdlib.h>
#include <string.h>

#define WHOLE_NUMBERS 1u
#define IEEE_FLOAT 3u
#define CHUNK_HEAD 8u

/* What the comment of an export with a gain begins with; the decibels follow. */
static const char gain_words[] = "desk render --gain ";

static bool is_float(unsigned bits) { return bits == 32 || bits == 64; }

static uint8_t *put_chunk(uint8_t *at, const char name[5], size_t len) {
    memcpy(at, name, 4);
    put_u32(at + 4, (uint32_t)len);
    return at + CHUNK_HEAD;
}

static uint8_t *put_two(uint8_t *at, uint32_t low, uint32_t high) {
    put_u32(at, low | high << 16);
    return at + 4;
}

/* A fmt chunk of floats has two bytes more, which say that no extension follows. */
static uint8_t *put_fmt(uint8_t *at, const struct wav *wav) {
    uint32_t frame = wav->bits / 8;
    at = put_chunk(at, "fmt ", is_float(wav->bits) ? 18 : 16);
    at = put_two(at, is_float(wav->bits) ? IEEE_FLOAT : WHOLE_NUMBERS, 1);
    put_u32(at, wav->rate);
    put_u32(at + 4, wav->rate * frame);
    at = put_two(at + 8, frame, wav->bits);
    if (!is_float(wav->bits)) return at;
    at[0] = at[1] = 0;
    return at + 2;
}

/* The gain, as the comment that other programs show: a LIST of INFO with one ICMT, a text that ends with 0. */
static uint8_t *put_gain(uint8_t *at, const char *gain) {
    char text[64];
    size_t len = (size_t)snprintf(text, sizeof text, "%s%s", gain_words, gain) + 1;
    at = put_chunk(at, "LIST", 4 + CHUNK_HEAD + len + len % 2);
    memcpy(at, "INFO", 4);
    at = put_chunk(at + 4, "ICMT", len);
    memcpy(at, text, len);
    at[len] = 0;
    return at + len + len % 2;
}

size_t wav_head(const struct wav *wav, uint8_t head[WAV_HEAD_MOST]) {
    size_t data = wav->bits / 8 * wav->samples;
    uint8_t *at = head + CHUNK_HEAD;
    memcpy(at, "WAVE", 4);
    at = put_fmt(at + 4, wav);
    if (is_float(wav->bits)) {
        at = put_chunk(at, "fact", 4);
        put_u32(at, (uint32_t)wav->samples);
        at += 4;
    }
    if (wav->gain[0]) at = put_gain(at, wav->gain);
    at = put_chunk(at, "data", data);
    put_chunk(head, "RIFF", (size_t)(at - head) - CHUNK_HEAD + data + data % 2);
    return (size_t)(at - head);
}

/* The whole number that is the level 1. */
static double full_scale(unsigned bits) { return bits == 16 ? 32767 : 8388607; }

/* The bits of a sample in a WAV; as a whole number a sample beyond -1 or 1 is cut off there. */
static uint64_t word_of(unsigned bits, double value) {
    uint32_t word;
    if (bits == 64) return bits_of(value);
    if (bits == 32) {
        float narrow = (float)value;
        memcpy(&word, &narrow, sizeof word);
        return word;
    }
    double level = !(value <= 1) ? 1 : !(value >= -1) ? -1 : value;
    return (uint64_t)(int64_t)nearbyint(full_scale(bits) * level);
}

static double value_of(unsigned bits, const uint8_t *at) {
    float narrow;
    if (bits == 64) return from_bits(get_u64(at));
    if (bits == 32) {
        uint32_t word = get_u32(at);
        memcpy(&narrow, &word, sizeof narrow);
        return (double)narrow;
    }
    /* The last byte has the sign. */
    int32_t last = at[bits / 8 - 1], high = last < 128 ? last : last - 256;
    int32_t whole = bits == 16 ? 256 * high + at[0] : 65536 * high + (int32_t)get_u16(at);
    return whole / full_scale(bits);
}

static void put_word(uint8_t *at, uint64_t word, size_t bytes) {
    for (size_t i = 0; i < bytes; i++) at[i] = (uint8_t)(word >> 8 * i);
}

void wav_samples(unsigned bits, const double *from, size_t samples, uint8_t *to) {
    size_t frame = bits / 8;
    for (size_t i = 0; i < samples; i++) put_word(to + frame * i, word_of(bits, from[i]), frame);
}

void wav_values(const struct wav *wav, const uint8_t *file, size_t first, size_t samples, double *to) {
    const uint8_t *at = file + wav->data + wav->bits / 8 * first;
    for (size_t i = 0; i < samples; i++) to[i] = value_of(wav->bits, at + wav->bits / 8 * i);
}

bool wav_bytes(struct wav *wav, const double *samples, struct bytes *file, struct why *why) {
    size_t data = wav->bits / 8 * wav->samples;
    *file = (struct bytes){.at = malloc(WAV_HEAD_MOST + data + 1)};
    if (!file->at) return refuse(why, "no memory for %zu bytes", WAV_HEAD_MOST + data + 1);
    size_t head = wav->data = wav_head(wav, file->at);
    wav_samples(wav->bits, samples, wav->samples, file->at + head);
    /* A chunk of odd length has a byte after it. */
    file->at[head + data] = 0;
    file->len = head + data + data % 2;
    return true;
}

bool wav_chunk(const uint8_t *file, size_t len, size_t at, struct chunk *chunk) {
    size_t left = len - at;
    *chunk = (struct chunk){.name = file + at, .body = at + CHUNK_HEAD};
    if (left < CHUNK_HEAD) return false;
    chunk->size = get_u32(file + at + 4);
    if (chunk->size > left - CHUNK_HEAD) return false;
    /* A chunk of odd length has a byte after it, which the last one may lack. */
    chunk->next = chunk->body + chunk->size + (chunk->size % 2 && chunk->body + chunk->size < len);
    return true;
}

bool wav_is_chunk(const struct chunk *chunk, const char name[5]) { return memcmp(chunk->name, name, 4) == 0; }

static bool look_at_fmt(const uint8_t *at, size_t len, struct wav *wav, struct why *why) {
    if (wav->has_fmt) return refuse(why, "it is damaged: it has two fmt chunks");
    if (len < 16) return refuse(why, "it is damaged: its fmt chunk has %zu bytes, and 16 are the fewest", len);
    wav->has_fmt = true;
    wav->format = get_u16(at);
    wav->channels = get_u16(at + 2);
    wav->rate = get_u32(at + 4);
    wav->byte_rate = get_u32(at + 8);
    wav->align = get_u16(at + 12);
    wav->bits = get_u16(at + 14);
    wav->fmt = len;
    wav->extension = len >= 18 ? get_u16(at + 16) : 0;
    return true;
}

static bool look_at_data(size_t at, size_t len, struct wav *wav, struct why *why) {
    if (wav->data) return refuse(why, "it is damaged: it has two data chunks");
    if (!wav->has_fmt) return refuse(why, "it is damaged: its data chunk comes before its fmt chunk");
    wav->data = at;
    wav->bytes = len;
    return true;
}

static bool look_at_fact(const uint8_t *at, size_t len, struct wav *wav, struct why *why) {
    if (wav->has_fact) return refuse(why, "it is damaged: it has two fact chunks");
    if (len < 4) return refuse(why, "it is damaged: its fact chunk has %zu bytes, and 4 are the fewest", len);
    wav->has_fact = true;
    wav->fact = get_u32(at);
    return true;
}

/* The decibels of an export's comment, where this chunk is one. */
static void look_at_list(const uint8_t *at, size_t len, struct wav *wav) {
    size_t words = sizeof gain_words - 1, before = 4 + CHUNK_HEAD + words;
    if (len < before || memcmp(at, "INFOICMT", 8) != 0 || memcmp(at + before - words, gain_words, words) != 0) return;
    for (size_t i = 0; i < sizeof wav->gain - 1 && before + i < len && at[before + i] > ' '; i++) {
        wav->gain[i] = (char)(at[before + i] <= '~' ? at[before + i] : '?');
    }
}

static bool look_at(const uint8_t *file, const struct chunk *chunk, struct wav *wav, struct why *why) {
    const uint8_t *body = file + chunk->body;
    if (wav_is_chunk(chunk, "fmt ")) return look_at_fmt(body, chunk->size, wav, why);
    if (wav_is_chunk(chunk, "data")) return look_at_data(chunk->body, chunk->size, wav, why);
    if (wav_is_chunk(chunk, "fact")) return look_at_fact(body, chunk->size, wav, why);
    if (wav_is_chunk(chunk, "LIST")) look_at_list(body, chunk->size, wav);
    return true;
}

bool wav_read(const uint8_t *file, size_t len, struct wav *wav, struct why *why) {
    struct chunk chunk;
    *wav = (struct wav){.bits = 0};
    if (len < WAV_CHUNKS || memcmp(file, "RIFF", 4) != 0 || memcmp(file + 8, "WAVE", 4) != 0) {
        return refuse(why, "it is no WAV");
    }
    if (len > WAV_MOST) return refuse(why, "it is longer than %u bytes", WAV_MOST);
    if (get_u32(file + 4) != len - CHUNK_HEAD) {
        return refuse(why, "it is damaged: it has %zu bytes, and says that it has %llu", len,
                      (unsigned long long)get_u32(file + 4) + CHUNK_HEAD);
    }
    for (size_t at = WAV_CHUNKS; at < len; at = chunk.next) {
        if (!wav_chunk(file, len, at, &chunk)) {
            return refuse(why, "it is damaged: the chunk at byte %zu ends past the file's %zu bytes", at, len);
        }
        if (!look_at(file, &chunk, wav, why)) return false;
    }
    if (!wav->data) return refuse(why, "it is damaged: it has no data chunk");
    size_t frame = (size_t)wav->channels * wav->bits / 8;
    wav->samples = frame ? wav->bytes / frame : 0;
    return true;
}

bool wav_is_readable(const struct wav *wav) {
    bool whole = wav->format == WHOLE_NUMBERS && (wav->bits == 16 || wav->bits == 24);
    return wav->channels == 1 && (whole || (wav->format == IEEE_FLOAT && is_float(wav->bits)));
}

/* A fmt chunk has 16 bytes, or two more, which say how many follow. */
static bool fmt_agrees(const struct wav *wav, struct why *why) {
    size_t first = wav->fmt > 16 ? 18 : 16;
    if (wav->fmt == first + wav->extension) return true;
    return refuse(why, "it is damaged: its fmt chunk has %zu bytes, and by what it says %zu", wav->fmt,
                  first + wav->extension);
}

bool wav_agrees(const struct wav *wav, struct why *why) {
    uint32_t frame = wav->bits / 8;
    if (!fmt_agrees(wav, why)) return false;
    if (wav->align != frame) {
        return refuse(why, "it is damaged: its block align is %u bytes, and a sample of %u bits has %u", wav->align,
                      wav->bits, frame);
    }
    if (wav->byte_rate != wav->rate * frame) {
        return refuse(why, "it is damaged: it says %u bytes a second, and %u Hz of %u bits are %u", wav->byte_rate,
                      wav->rate, wav->bits, wav->rate * frame);
    }
    if (wav->bytes % frame) {
        return refuse(why, "it is damaged: %zu bytes of data are no whole number of samples", wav->bytes);
    }
    if (wav->has_fact && wav->fact != wav->samples) {
        return refuse(why, "it is damaged: its fact chunk says %u samples, and there are %zu", wav->fact, wav->samples);
    }
    return true;
}

bool wav_is_ours(const struct wav *wav, struct why *why) {
    if (!wav_is_readable(wav) || !is_float(wav->bits)) {
        return refuse(
            why,
            "%sanother program rewrote it (format %u): %u %s of %u bits; the desk goes on from one channel of "
            "32-bit or 64-bit floats (format %u) alone; render again",
            wav_is_readable(wav) ? "it is an export, or " : "", wav->format, wav->channels,
            counted(wav->channels, "channel", "channels"), wav->bits, IEEE_FLOAT);
    }
    if (wav->gain[0] == '\0') return true;
    return refuse(why, "it is an export with a gain of %s dB, and not the render itself; render again without --gain",
                  wav->gain);
}

bool wav_look(const uint8_t *file, size_t len, struct wav *wav, struct why *why) {
    return wav_read(file, len, wav, why) && wav_is_ours(wav, why) && wav_agrees(wav, why);
}

size_t wav_without_peak(uint8_t *file, size_t len) {
    size_t kept = WAV_CHUNKS;
    struct chunk chunk;
    for (size_t at = WAV_CHUNKS; at < len && wav_chunk(file, len, at, &chunk); at = chunk.next) {
        if (wav_is_chunk(&chunk, "PEAK")) continue;
        memmove(file + kept, file + at, chunk.next - at);
        kept += chunk.next - at;
    }
    put_u32(file + 4, (uint32_t)(kept - CHUNK_HEAD));
    return kept;
}
