/* listen.c: a C host that hears blocks as the listen program states it: Hann's window, ladlespindle_hear, and ladlespindle_power beside the band, in
 * decibels against a tone of full scale. Without words it checks that a tone of full scale has 0 decibels there and fainter ones what they should;
 *
 *     listen FILE N LO HI
 *
 * prints the decibels of each block of N samples of a WAV file, in the bins LO to HI and outside them, for tests/listen to compare. Cosines and
 * logarithms are worked out here. Exits 1 on a difference. */
#include "host.h"
#include <stdlib.h>

enum { MOST = 6720 };

static float stage[34560], end[4094], block[MOST], spectrum[MOST + 2], scratch[6 * MOST];

/* The cosine and the sine of a part of a circle, by their sums. */
static double turned(double part, int is_sine)
{
    const double pi = 3.14159265358979323846;
    double x = 2 * pi * (part > 0.5 ? part - 1 : part), term = is_sine ? x : 1, sum = 0;
    for (int k = is_sine ? 1 : 0; k < 60; k += 2) {
        sum += term;
        term *= -x * x / ((k + 1) * (k + 2));
    }
    return sum;
}

/* Ten times the decimal logarithm: doublings are counted, then halves of one, quarters and so on. */
static double decibels(double x)
{
    double doublings = 0, part = 1;
    if (!(x > 0)) return -9999;
    for (; x >= 2; x /= 2) doublings++;
    for (; x < 1; x *= 2) doublings--;
    for (int k = 0; k < 40; k++) {
        part /= 2;
        x *= x;
        if (x >= 2) {
            x /= 2;
            doublings += part;
        }
    }
    return doublings * 3.0102999566398119521;
}

/* The decibels of the n samples in `block`, in bins lo to hi and outside them. */
static int heard(size_t n, size_t lo, size_t hi, double levels[2])
{
    uint8_t list[13];
    size_t length = list_of(list, n), words = 2 * ladlespindle_stage_twiddles(list, length), ends = 2 * ladlespindle_end_twiddles(list, length);
    ladlespindle_record plan = ladlespindle_plan(list, length);
    double full = 3.0 * (double)n * (double)n / 32, beside = 0;
    ladlespindle_heard inside;
    if (ladlespindle_fill_forward(plan, 1, stage, words, end, ends).number != 0) return 0;
    for (size_t i = 0; i < n; i++) block[i] *= (float)(0.5 - 0.5 * turned((double)i / (double)n, 0));
    inside = ladlespindle_hear(plan, 1, block, n, spectrum, n + 2, scratch, 6 * n, stage, words, end, ends, lo, hi, 1);
    if (inside.number != 0) return 0;
    if (lo > 1) beside += (double)ladlespindle_power(spectrum, n + 2, 1, lo - 1).power;
    if (hi < plan.half) beside += (double)ladlespindle_power(spectrum, n + 2, hi + 1, plan.half).power;
    levels[0] = decibels((double)inside.power / full);
    levels[1] = decibels(beside / full);
    return 1;
}

/* Tones of many frequencies and sizes in the hive's band have the decibels that they should. */
static void tones(void)
{
    for (int hertz = 225; hertz <= 275; hertz++)
        for (int halvings = 0; halvings <= 10; halvings++) {
            double levels[2], size = 1;
            for (int k = 0; k < halvings; k++) size /= 2;
            for (int i = 0; i < 1680; i++) {
                double parts = hertz * i / 16000.0;
                block[i] = (float)(size * turned(parts - (double)(long)parts, 1));
            }
            check(heard(1680, 21, 31, levels), "tones", "refused");
            check(levels[0] > -6.0206 * halvings - 0.02 && levels[0] < -6.0206 * halvings + 0.02, "tones", "another level");
            check(levels[1] < levels[0] - 40, "tones", "too much outside the band");
        }
}

/* The blocks of a file. */
static int told(const char *name, size_t n, size_t lo, size_t hi)
{
    static uint8_t file[1 << 22];
    static float samples[1 << 21];
    FILE *from = fopen(name, "rb");
    size_t length = from == NULL ? 0 : fread(file, 1, sizeof file, from);
    ladlespindle_wav wav = ladlespindle_wav_measure(file, length);
    if (from != NULL) fclose(from);
    if (wav.number != 0 || ladlespindle_wav_read(file, length, samples, wav.samples).number != 0) return 1;
    for (size_t at = 0; at + n <= wav.samples; at += n) {
        double levels[2];
        memcpy(block, samples + at, n * sizeof *block);
        if (!heard(n, lo, hi, levels)) return 1;
        printf("%.4f %.4f\n", levels[0], levels[1]);
    }
    return 0;
}

int main(int count, char **words)
{
    if (count == 5) return told(words[1], strtoul(words[2], NULL, 10), strtoul(words[3], NULL, 10), strtoul(words[4], NULL, 10));
    tones();
    return ended("listen.c");
}
