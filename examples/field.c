/* field.c: a hive in the field, with blocks of 640 samples, a length that filling does not serve: plan and words are constants in ROM. The
 * samples are made in sounds.h. Prints a line for each try, and exits 1 where the hive could not be opened.
 *
 *     cc -I include examples/field.c crates/ladlespindle/out/libladlespindle.a -o field && ./field
 *
 * words_640.h is what `tools/words 640 --rust` writes. At 16,000 Hz the band is the bins 8 to 12, of 25 Hz each, and the threshold is the
 * power of a tone of 1/32 of full scale. */
#include "ladlespindle_hive.h"
#include "sounds.h"
#include "words_640.h"
#include <stdio.h>

enum { N = 640, RATE = 16000, LO = 200, HI = 300, TONE = N / 2 / 32, THRESHOLD = TONE * TONE };

static float room[LADLESPINDLE_HIVE_ROOM(N)];
static ladlespindle_hive hive = LADLESPINDLE_HIVE_INIT;

static const sound sounds[] = {
    {"silence", N, 0, 0, 0, 0, 0, 0},
    {"hum of 50, 100 and 150 Hz, 1/4 each, and an offset", N, 0, 0, 50, 0.25, 0.125, 0},
    {"bees fan at 237 Hz, 1/16", N, 237, 0.0625, 0, 0, 0, 0},
    {"bees fan at 237 Hz under hum and an offset", N, 237, 0.0625, 50, 0.25, 0.125, 0},
};

/* Opens the hive with the plan and the end words of the ROM, and with these stage words. */
static ladlespindle_opened open_with(const float *stage)
{
    return ladlespindle_hive_open_rom(&hive, ladlespindle_plan_640, ladlespindle_width_640, stage, LADLESPINDLE_STAGE_WORDS(N),
                                      ladlespindle_end_640, LADLESPINDLE_END_WORDS(N), RATE, LO, HI, THRESHOLD, room,
                                      sizeof room / sizeof *room);
}

/* Tells how opening ended, and what the hive then says of every sound. */
static void try_sounds(const char *name, ladlespindle_opened opened)
{
    static int16_t samples[N];
    printf("%s: %s\n", name, ladlespindle_hive_sentence(opened));
    for (size_t i = 0; i < sizeof sounds / sizeof *sounds; i++) {
        ladlespindle_heard heard;
        record(&sounds[i], RATE, samples);
        heard = ladlespindle_hive_hear16(&hive, samples, sounds[i].count);
        printf("    heating %-3s %s: %s\n", ladlespindle_may_heat(heard) ? "on" : "off", sounds[i].name,
               ladlespindle_heard_sentence(heard));
    }
}

int main(void)
{
    static const float erased[LADLESPINDLE_STAGE_ROOM(N)] = {0};
    ladlespindle_opened opened;
    try_sounds("filled words", ladlespindle_hive_open(&hive, N, RATE, LO, HI, THRESHOLD, room, sizeof room / sizeof *room));
    try_sounds("words of a ROM that is erased", open_with(erased));
    opened = open_with(ladlespindle_stage_640);
    try_sounds("words of the ROM", opened);
    return opened.outcome != LADLESPINDLE_HIVE_OPEN;
}
