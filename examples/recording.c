/* recording.c: a recording as a WAV file is measured, read and heard block by block, from 200 to 300 Hz. Prints what the file holds and a line for
 * each block; exits 1 where the file is refused or the hive could not be opened.
 *
 *     cc -I include examples/recording.c crates/ladlespindle/out/libladlespindle.a -o recording && ./recording
 *
 * `./recording FILE` hears a file; without an argument one is made here, and written as a WAV file first. */
#include "ladlespindle_hive.h"
#include "sounds.h"
#include <stdio.h>
#include <stdlib.h>

enum { N = 960, RATE = 16000, LO = 200, HI = 300, TONE = N / 2 / 32, THRESHOLD = TONE * TONE };

static float room[LADLESPINDLE_HIVE_ROOM(N)];
static ladlespindle_hive hive = LADLESPINDLE_HIVE_INIT;

/* Tells why a call was refused. */
static int refused(uint32_t number, size_t place)
{
    printf("refused %u at %zu: %s\n", (unsigned)number, place, ladlespindle_sentence(number));
    return 1;
}

/* A file that is read whole, or NULL. */
static uint8_t *load(const char *name, size_t *length)
{
    FILE *from = fopen(name, "rb");
    uint8_t *file = NULL, *more;
    size_t got = 1;
    for (*length = 0; from != NULL && got > 0; *length += got) {
        more = (uint8_t *)realloc(file, *length + 65536);
        if (more == NULL) break;
        file = more;
        got = fread(file + *length, 1, 65536, from);
    }
    if (from != NULL) fclose(from);
    return file;
}

/* A recording of silence, bees and hum, and the start of a block more, as a WAV file, or NULL. */
static uint8_t *make(size_t *length)
{
    static const sound sounds[] = {
        {"silence", N, 0, 0, 0, 0, 0, 0},
        {"bees fan", N, 250, 0.0625, 0, 0, 0, 0},
        {"hum", N, 0, 0, 50, 0.25, 0, 0},
        {"bees fan under hum", 700, 250, 0.0625, 50, 0.25, 0, 0},
    };
    static int16_t numbers[N];
    static float samples[4 * N];
    size_t count = 0;
    uint8_t *file;
    for (size_t i = 0; i < sizeof sounds / sizeof *sounds; i++) {
        record(&sounds[i], RATE, numbers);
        for (size_t j = 0; j < sounds[i].count; j++) samples[count++] = (float)numbers[j] / 32768;
    }
    *length = 44 + 2 * count;
    file = (uint8_t *)malloc(*length);
    if (file == NULL || ladlespindle_wav_write(RATE, samples, count, file, *length).number == 0) return file;
    free(file);
    return NULL;
}

int main(int count, char **words)
{
    size_t length;
    uint8_t *file = count > 1 ? load(words[1], &length) : make(&length);
    ladlespindle_wav found;
    ladlespindle_opened opened;
    float *samples;
    size_t at = 0;
    if (file == NULL) return printf("recording: the file cannot be read\n"), 1;
    found = ladlespindle_wav_measure(file, length);
    if (found.number != 0) return refused(found.number, found.place);
    printf("%zu samples at %u Hz\n", found.samples, (unsigned)found.rate);
    samples = (float *)malloc((found.samples + 1) * sizeof *samples);
    if (samples == NULL) return printf("recording: no memory for the samples\n"), 1;
    found = ladlespindle_wav_read(file, length, samples, found.samples);
    if (found.number != 0) return refused(found.number, found.place);
    opened = ladlespindle_hive_open(&hive, N, (float)found.rate, LO, HI, THRESHOLD, room, sizeof room / sizeof *room);
    if (opened.outcome != LADLESPINDLE_HIVE_OPEN) return printf("recording: %s\n", ladlespindle_hive_sentence(opened)), 1;
    for (; found.samples - at >= N; at += N)
        printf("%.2f s: %s\n", (double)at / found.rate, ladlespindle_heard_sentence(ladlespindle_hive_hear(&hive, samples + at, N)));
    if (at < found.samples) printf("%.2f s: %zu samples, no whole block\n", (double)at / found.rate, found.samples - at);
    free(samples);
    free(file);
    return 0;
}
