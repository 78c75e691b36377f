/* measure.h: how far both transforms are from sums worked out in double precision, as a part of the distance that is proved for filled
 * twiddles: what the tests of accuracy share. */
#ifndef MEASURE_H
#define MEASURE_H

#include "host.h"

enum { LONGEST = 8192, BLOCKS = 4 };

/* A plan with its twiddles, packed for a width. */
struct twiddled {
    ladlespindle_record plan;
    size_t width, stage_words, end_words;
    float stage[LADLESPINDLE_STAGE_WORDS_MAX], end[LADLESPINDLE_END_WORDS_MAX];
};

static const char *const blocks[BLOCKS] = {"random", "square", "tone", "worst signs"};

/* The turns of a circle of so many parts. */
static size_t parts;
static double cosines[LONGEST + 1], sines[LONGEST + 1];

/* The largest part of the proved distance, forward and inverse. */
static double largest[2];

static float input[LADLESPINDLE_SPECTRUM_WORDS_MAX], output[LADLESPINDLE_SPECTRUM_WORDS_MAX], scratch[LADLESPINDLE_SCRATCH_WORDS_MAX];

/* The cosine of an angle by its series from power 0 on, its sine from power 1 on. */
static inline double series(double angle, int power)
{
    double term = power ? angle : 1, sum = term;
    for (int k = power + 1; k < 40; k += 2) sum += term *= -angle * angle / (k * (k + 1));
    return sum;
}

/* Takes a circle of so many parts. */
static inline void circle(size_t of)
{
    parts = of;
    for (size_t t = 0; 2 * t <= parts; t++) {
        double angle = (double)t * 6.283185307179586476925 / (double)parts;
        cosines[t] = cosines[parts - t] = series(angle, 0);
        sines[parts - t] = -(sines[t] = series(angle, 1));
    }
}

static inline double square_root(double x)
{
    double root = x > 1 ? x : 1;
    for (int i = 0; i < 60; i++) root = (root + x / root) / 2;
    return root;
}

/* A number from -1 to 1. */
static inline float between(void) { return (float)random_below(1 << 24) / (1 << 23) - 1; }

static inline float sign(double x) { return x < 0 ? -1 : 1; }

/* The plan of a length for a width, with no words made. */
static inline void plan_twiddled(struct twiddled *t, size_t n, size_t width)
{
    uint8_t list[16];
    size_t length = list_of(list, n);
    t->plan = ladlespindle_plan(list, length);
    t->width = width;
    t->stage_words = 2 * ladlespindle_stage_twiddles(list, length);
    t->end_words = 2 * ladlespindle_end_twiddles(list, length);
}

/* The same with its words filled: the number of the answer. */
static inline uint32_t fill_twiddled(struct twiddled *t, size_t n, size_t width, int back)
{
    plan_twiddled(t, n, width);
    return (back ? ladlespindle_fill_inverse : ladlespindle_fill_forward)(t->plan, width, t->stage, t->stage_words, t->end, t->end_words).number;
}

/* n samples of at most 1; m is the bin of a tone, or the one that worst signs make largest. The circle has n parts. */
static inline void samples(int block, size_t n, size_t m)
{
    for (size_t j = 0; j < n; j++) {
        double c = cosines[j * m % n];
        input[j] = block == 0 ? between() : block == 1 ? (j / (m + 1) % 2 ? -1 : 1) : block == 2 ? (float)c : sign(c);
    }
}

/* Half and one more bins of numbers of at most 1; m is the sample that worst signs make largest: in bins 0 and half the imaginary part is taken
 * from the real one. */
static inline void bins(int block, size_t n, size_t m)
{
    for (size_t k = 0; k <= n / 2; k++)
        for (size_t part = 0; part < 2; part++) {
            double c = !part ? cosines[k * m % n] : k % (n / 2) ? -sines[k * m % n] : -cosines[k * m % n];
            input[2 * k + part] = block == 0 ? between() : block == 1 ? (k / (m + 1) % 2 ? -1 : 1) : block == 2 ? k == m : sign(c);
        }
}

/* How far bin k is from its sum. */
static inline double bin_error(size_t n, size_t k)
{
    double re = -(double)output[2 * k], im = -(double)output[2 * k + 1];
    for (size_t j = 0, at = 0; j < n; j++, at = at + k < n ? at + k : at + k - n) re += input[j] * cosines[at], im -= input[j] * sines[at];
    return square_root(re * re + im * im);
}

/* How far sample j is from its sum: bins 0 and half less their imaginary parts, the others with their mirror images. */
static inline double sample_error(size_t n, size_t j)
{
    double sum = (double)input[0] - input[1] + (j % 2 ? -1 : 1) * ((double)input[n] - input[n + 1]) - output[j];
    for (size_t k = 1, at = j; k < n / 2; k++, at = at + j < n ? at + j : at + j - n)
        sum += 2 * (input[2 * k] * cosines[at] - input[2 * k + 1] * sines[at]);
    return sum < 0 ? -sum : sum;
}

/* Transforms the input. */
static inline ladlespindle_answer transformed(const struct twiddled *t, int back)
{
    size_t n = t->plan.n;
    return (back ? ladlespindle_inverse : ladlespindle_forward)(t->plan, t->width, input, back ? n + 2 : n, output, back ? n : n + 2, scratch, 6 * n,
                                                                t->stage, t->stage_words, t->end, t->end_words);
}

/* Every block in one direction; so many numbers of each are worked out, the one that worst signs make largest and others that are drawn, or
 * all where there are no more. The circle has n parts. */
static inline void measure(const struct twiddled *t, int back, size_t tries)
{
    size_t n = t->plan.n, h = t->plan.half, all = back ? n : h + 1;
    double distance = (double)(back ? 64 * t->plan.count + 25 : 33 * t->plan.count + 20) * (double)h / (1 << 24);
    for (int block = 0; block < BLOCKS; block++) {
        size_t m = random_below(h + 1);
        (back ? bins : samples)(block, n, m);
        check_at(transformed(t, back).number == 0, back ? "inverse" : "forward", n, "refused");
        for (size_t i = 0; i < all && i < tries; i++) {
            size_t k = tries >= all ? i : i == 0 && m < all ? m : random_below(all);
            double part = (back ? sample_error(n, k) : bin_error(n, k)) / distance;
            if (part > largest[back]) largest[back] = part;
            check_at(part <= 1, back ? "inverse" : "forward", n, blocks[block]);
        }
    }
}

#endif
