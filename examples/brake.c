/* brake.c: the regulator's brake: the heating runs only while blocks from the microphone are quiet from 200 to 300 Hz. The samples are made
 * in sounds.h in place of an ADC. Prints a line for each block, and exits 1 where the hive could not be opened.
 *
 *     cc -I include examples/brake.c crates/ladlespindle/out/libladlespindle.a -o brake && ./brake
 *
 * `./brake THRESHOLD` takes another threshold: the power of the band at which the heating stops. A tone of amplitude A at a bin, full scale
 * being 1, has the power (A * n / 2)^2; without an argument the threshold is that of 1/32, far above what rounding hides: in 1,680 samples
 * of 16 bits a tone of a thousandth is proved to be seen.
 *
 * 960 samples at 16,000 Hz have bins of 16.67 Hz: the band is the bins 12 to 18, and hum of 50, 100 and 150 Hz, the bins 3, 6 and 9, leaks
 * nothing into it. Mains that are 0.5 Hz off leak less than the threshold while each of the three is below 0.32 of full scale, and under 1/4
 * of them a tone at a bin is heard from 1/26 of full scale on. With 1,680 samples, where 50 Hz is no bin, hum of 0.12 can feign bees. Hum of
 * 200, 250 and 300 Hz is in the band, and brakes. */
#include "ladlespindle_hive.h"
#include "sounds.h"
#include <stdio.h>
#include <stdlib.h>

enum { N = 960, RATE = 16000, LO = 200, HI = 300, TONE = N / 2 / 32, THRESHOLD = TONE * TONE };

/* ---- the brake */

static float room[LADLESPINDLE_HIVE_ROOM(N)];
static ladlespindle_hive hive = LADLESPINDLE_HIVE_INIT;

/* Switches the heating: here a log line takes the place of a relay. */
static void switch_heating(int on, const char *name, const char *why) { printf("heating %-3s %s: %s\n", on ? "on" : "off", name, why); }

/* Opens the hive. Where that fails it stays closed, and every block that it is to hear stops the heating. */
static int begin(float threshold)
{
    ladlespindle_opened opened = ladlespindle_hive_open(&hive, N, RATE, LO, HI, threshold, room, sizeof room / sizeof *room);
    switch_heating(0, "start", ladlespindle_hive_sentence(opened));
    return opened.outcome == LADLESPINDLE_HIVE_OPEN;
}

/* Hears a block, and lets the heating run if it is quiet and in no other case. */
static void regulate(const char *name, const int16_t *samples, size_t count)
{
    ladlespindle_heard heard = ladlespindle_hive_hear16(&hive, samples, count);
    switch_heating(ladlespindle_may_heat(heard), name, ladlespindle_heard_sentence(heard));
}

/* ---- a trial of it */

static const sound sounds[] = {
    {"first block after a power cut, bees fan", 700, 250, 0.0625, 0, 0, 0, 0},
    {"silence", N, 0, 0, 0, 0, 0, 0},
    {"offset of 1/8", N, 0, 0, 0, 0, 0.125, 0},
    {"hum of 50, 100 and 150 Hz, 1/4 each", N, 0, 0, 50, 0.25, 0, 0},
    {"the same hum, mains at 50.5 Hz", N, 0, 0, 50.5, 0.25, 0, 0},
    {"noise of 1/32", N, 0, 0, 0, 0, 0, 0.03125},
    {"bees far away, 250 Hz, 1/64", N, 250, 0.015625, 0, 0, 0, 0},
    {"bees fan at 200 Hz, 1/16", N, 200, 0.0625, 0, 0, 0, 0},
    {"bees fan between bins, 242 Hz, 1/16", N, 242, 0.0625, 0, 0, 0, 0},
    {"bees fan at 300 Hz, 1/16", N, 300, 0.0625, 0, 0, 0, 0},
    {"bees fan under hum, offset and noise", N, 250, 0.0625, 50.5, 0.25, 0.125, 0.03125},
    {"silence again", N, 0, 0, 0, 0, 0, 0},
};

int main(int count, char **words)
{
    static int16_t samples[N];
    char *rest = NULL;
    float threshold = count > 1 ? (float)strtod(words[1], &rest) : THRESHOLD;
    int begun;
    if (count > 2 || (rest != NULL && (rest == words[1] || *rest != 0))) {
        fprintf(stderr, "brake: give one threshold, a number, or none for %d\n", THRESHOLD);
        return 2;
    }
    begun = begin(threshold);
    for (size_t i = 0; i < sizeof sounds / sizeof *sounds; i++) {
        record(&sounds[i], RATE, samples);
        regulate(sounds[i].name, samples, sounds[i].count);
    }
    return !begun;
}
