/* A live host under JACK, as a judge of the library: it plays a score in the buffers that jackd asks for, each from the
   state that the one before it left, and gives the library a record only with the buffer that holds its position.
     jack_host SETTING.. N <SCORE
   The settings are those of struct gav_settings, in its order, but for the rate, which is jackd's. Its port is
   gavberin:sound. Once that is connected it has jackd freewheel, is silent for some samples, plays a click of 1, which
   tells a recording where sample zero comes, then the N samples, and ends the freewheeling. */
#include "gavberin.h"

#include <jack/jack.h>
#include <stdatomic.h>
#include <stdbool.h>
#include <stdio.h>
#include <stdlib.h>
#include <time.h>

#define RECORD 10
#define MOST_BUFFER 8192
#define SILENCE 5000

struct host {
    jack_port_t *port;
    struct gav_settings settings;
    uint8_t score[40960];
    size_t score_len, heard;
    uint64_t state[GAV_STATE_WORDS], position, samples;
    size_t silence;
    atomic_bool freewheels, done;
    atomic_uint calls, refused;
};

static uint32_t position_of(const uint8_t *record) {
    return (uint32_t)record[2] | (uint32_t)record[3] << 8 | (uint32_t)record[4] << 16 | (uint32_t)record[5] << 24;
}

/* The next samples of the score; the library gets the records at positions before the last of them. */
static void play(struct host *host, float *to, size_t n) {
    static double part[MOST_BUFFER];
    while (host->heard < host->score_len && position_of(host->score + host->heard) < host->position + n)
        host->heard += RECORD;
    uint64_t said = gav_continue_with(&host->settings, host->score, host->heard, host->state, GAV_STATE_WORDS,
                                      host->position, part, n);
    host->calls++;
    if (gav_number(said) != 0) host->refused++;
    for (size_t i = 0; i < n; i++) to[i] = (float)part[i];
    host->position += n;
}

/* What jackd calls for each buffer. */
static int process(jack_nframes_t n, void *given) {
    struct host *host = given;
    float *to = jack_port_get_buffer(host->port, n);
    size_t i = 0;
    if (host->freewheels) {
        for (; i < n && host->silence > 0; i++) to[i] = --host->silence == 0 ? 1.0F : 0.0F;
        uint64_t left = host->samples - host->position;
        size_t now = left < n - i ? (size_t)left : n - i;
        if (now > 0) play(host, to + i, now);
        i += now;
        if (host->position == host->samples) host->done = true;
    }
    for (; i < n; i++) to[i] = 0.0F;
    return 0;
}

static void freewheels(int on, void *given) { ((struct host *)given)->freewheels = on != 0; }

/* Waits a millisecond at a time, for five minutes at most: on a busy machine a buffer takes jackd some ten of them. */
static bool wait_for(bool (*holds)(const struct host *), const struct host *host) {
    for (int i = 0; i < 300000 && !holds(host); i++) nanosleep(&(struct timespec){.tv_nsec = 1000000}, NULL);
    return holds(host);
}

static bool is_connected(const struct host *host) { return jack_port_connected(host->port) > 0; }
static bool is_done(const struct host *host) { return host->done; }
static bool is_slow(const struct host *host) { return !host->freewheels; }

static bool run(struct host *host, jack_client_t *client) {
    host->settings.rate = jack_get_sample_rate(client);
    host->silence = SILENCE;
    host->port = jack_port_register(client, "sound", JACK_DEFAULT_AUDIO_TYPE, JackPortIsOutput, 0);
    if (!host->port || jack_get_buffer_size(client) > MOST_BUFFER) return false;
    jack_set_process_callback(client, process, host);
    jack_set_freewheel_callback(client, freewheels, host);
    return jack_activate(client) == 0 && wait_for(is_connected, host) && jack_set_freewheel(client, 1) == 0 &&
           wait_for(is_done, host) && jack_set_freewheel(client, 0) == 0 && wait_for(is_slow, host);
}

static uint32_t whole(const char *text) { return (uint32_t)strtoul(text, NULL, 10); }
static double number(const char *text) { return strtod(text, NULL); }

int main(int argc, char **argv) {
    static struct host host;
    if (argc != 13) return 2;
    host.settings = (struct gav_settings){
        .code = whole(argv[1]),
        .duty = number(argv[2]),
        .attack = number(argv[3]),
        .decay = number(argv[4]),
        .sustain = number(argv[5]),
        .release = number(argv[6]),
        .lfo_code = whole(argv[7]),
        .lfo_duty = number(argv[8]),
        .lfo_frequency = number(argv[9]),
        .lfo_depth = number(argv[10]),
        .joined = whole(argv[11]),
    };
    host.samples = strtoul(argv[12], NULL, 10);
    host.score_len = fread(host.score, 1, sizeof host.score, stdin);
    gav_fresh(host.state, GAV_STATE_WORDS);
    jack_client_t *client = jack_client_open("gavberin", JackNoStartServer, NULL);
    if (!client) return 1;
    bool ran = run(&host, client);
    jack_client_close(client);
    printf("%u calls, %u refused\n", host.calls, host.refused);
    return ran && host.refused == 0 ? 0 : 1;
}
