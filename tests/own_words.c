/* own_words.c: a C host that makes its twiddle words from the text of ladlespindle.h alone. Where filling serves, they are what is filled, bit for
 * bit; where it does not, both transforms with them are held against sums in double precision. Prints the largest error as a part of the
 * distance that is proved where filling serves, and exits 1 if it is above the 5 % that the header tells, or a word differs. */
#include "measure.h"

enum { TRIES = 8 };

/* ---- turns, worked out in 64 binary digits */

/* The words of the turns of a circle of n parts. */
static float res[LONGEST], ims[LONGEST];

/* The cosine of an angle of at most a quarter of a circle by its series from power 0 on, its sine from power 1 on. */
static long double sum_from(long double angle, int power)
{
    long double term = power ? angle : 1, sum = 0;
    for (int k = power; k < 30; k += 2) sum += term, term *= -angle * angle / ((k + 1) * (k + 2));
    return sum;
}

/* Notes the words of a turn, a 0 without a minus. */
static void note(size_t t, float cosine, float sine)
{
    res[t] = cosine == 0 ? 0 : cosine;
    ims[t] = sine == 0 ? 0 : -sine;
}

/* All turns of n parts: those of the first quarter, and their mirror images. */
static void turns(size_t n)
{
    for (size_t t = 0; 4 * t <= n; t++) {
        long double angle = 6.283185307179586476925286766559005768L * (long double)t / (long double)n;
        float cosine = 4 * t == n ? 0 : (float)sum_from(angle, 0), sine = (float)sum_from(angle, 1);
        note(t, cosine, sine), note(n / 2 - t, -cosine, sine);
        note(n / 2 + t, -cosine, -sine), note((n - t) % n, cosine, -sine);
    }
}

/* ---- words */

static struct twiddled own, filled;

/* Adds a turn to a row of words: where the row goes on. */
static float *put(float *at, size_t t)
{
    *at++ = res[t];
    *at++ = ims[t];
    return at;
}

/* The words of all stages: whole groups of `width` iterations, then what is left one by one. */
static void make_stages(void)
{
    size_t n = own.plan.n, stride = 1;
    float *at = own.stage;
    for (size_t j = 0; j < own.plan.count; j++) {
        size_t r = own.plan.radices[j], left = own.plan.half / r, p = stride * r, group;
        for (size_t i = 0; j > 0 && left > 0; i += group, left -= group) {
            group = left >= own.width ? own.width : 1;
            for (size_t k = 1; k < r; k++)
                for (size_t side = 0; side < group; side++) at = put(at, (i + side) % stride * k * (n / p));
        }
        stride = p;
    }
    check_at((size_t)(at - own.stage) == own.stage_words, "stage words", n, "their number");
}

/* The words of the ends. */
static void make_ends(int back)
{
    for (size_t k = 1; 2 * k <= own.end_words; k++) {
        own.end[2 * k - 2] = back ? res[k] : res[k] / 2;
        own.end[2 * k - 1] = back ? -ims[k] : ims[k] / 2;
    }
}

/* The words are those that are filled, or filling refuses with 7. */
static void compare(int back, int served)
{
    size_t n = own.plan.n;
    uint32_t number = fill_twiddled(&filled, n, own.width, back);
    check_at(number == (served ? LADLESPINDLE_ACCEPTED : LADLESPINDLE_NOT_HOUSED), "filling", n, "serves the listed lengths alone");
    if (!served) return;
    check_at(memcmp(own.stage, filled.stage, own.stage_words * sizeof(float)) == 0, "stage words", n, "as they are filled");
    check_at(memcmp(own.end, filled.end, own.end_words * sizeof(float)) == 0, "end words", n, "as they are filled");
}

/* A length in both directions: at every width where filling serves, measured at one that is drawn where it does not. */
static void try_length(size_t n, int served)
{
    size_t drawn = (size_t)1 << random_below(3);
    turns(n);
    if (!served) circle(n);
    for (size_t width = 1; width <= 4; width *= 2) {
        if (!served && width != drawn) continue;
        plan_twiddled(&own, n, width);
        make_stages();
        for (int back = 0; back < 2; back++) {
            make_ends(back);
            compare(back, served);
            if (!served) measure(&own, back, TRIES);
        }
    }
}

int main(void)
{
    static const size_t served[] = {2,   4,   6,   8,   10,  12,  14,  16,  20,  24,   28,   30,   32,   40,   42,   48,
                                    56,  60,  64,  70,  80,  84,  96,  112, 120, 140,  160,  168,  192,  210,  224,  240,
                                    280, 320, 336, 420, 448, 480, 560, 672, 840, 960, 1120, 1344, 1680, 2240, 3360, 6720};
    size_t lengths = 0, next = 0;
    for (size_t n = 2; n <= LONGEST; n += 2) {
        uint8_t list[16];
        int is_served = next < sizeof served / sizeof *served && served[next] == n;
        if (ladlespindle_plan(list, list_of(list, n)).n != n) continue;
        try_length(n, is_served);
        next += (size_t)is_served;
        lengths++;
    }
    check(largest[0] <= 0.05 && largest[1] <= 0.05, "errors", "at most 5 % of the proved distance");
    check(next == 48 && lengths == 248, "lengths", "48 of 248 that filling serves");
    printf("largest error as a part of the distance that is proved where filling serves: forward %.4f, inverse %.4f\n", largest[0], largest[1]);
    return ended("own_words");
}
