/* stages.c: a C host that runs single float stages and compares every word with the stage worked out step by step.
 * Exits 1 on a difference. */
#include "host.h"

enum { CELLS = 4096, WORDS = 40000, EDGE = 8 };

/* ---- a stage, step by step */

struct cell {
    float re, im;
};

static struct cell add(struct cell a, struct cell b)
{
    return (struct cell){a.re + b.re, a.im + b.im};
}

static struct cell mul(struct cell a, struct cell b)
{
    return (struct cell){a.re * b.re - a.im * b.im, a.re * b.im + a.im * b.re};
}

/* Turned by t of r parts of a circle: whole quarters exchange and flip signs, any other turn multiplies. */
static struct cell turned(struct cell a, size_t t, size_t r)
{
    static ladlespindle_turn_words turns[9][8];
    if (4 * t % r) {
        if (turns[r][t].re == 0) turns[r][t] = ladlespindle_turn((uint32_t)t, (uint32_t)r);
        return mul(a, (struct cell){turns[r][t].re, turns[r][t].im});
    }
    switch (4 * t / r) {
    case 0: return a;
    case 1: return (struct cell){a.im, -a.re};
    case 2: return (struct cell){-a.re, -a.im};
    default: return (struct cell){-a.im, a.re};
    }
}

static void plain(ladlespindle_record plan, size_t number, size_t width, const float *in, float *out, const float *twiddles)
{
    size_t r = plan.radices[number], m = plan.half / r, s = 1;
    for (size_t j = 0; j < number; j++) s *= plan.radices[j];
    for (size_t i = 0; i < m; i++) {
        struct cell x[8];
        for (size_t q = 0; q < r; q++) {
            x[q] = (struct cell){in[2 * (i + q * m)], in[2 * (i + q * m) + 1]};
            if (q == 0 || number == 0) continue;
            size_t at = standing(m, r, width, i, q);
            x[q] = mul(x[q], (struct cell){twiddles[2 * at], twiddles[2 * at + 1]});
        }
        for (size_t p = 0; p < r; p++) {
            struct cell sum = x[0];
            size_t to = i / s * s * r + i % s + p * s;
            for (size_t q = 1; q < r; q++) sum = add(sum, turned(x[q], p * q % r, r));
            out[2 * to] = sum.re, out[2 * to + 1] = sum.im;
        }
    }
}

/* ---- accepted stages */

/* A number of magnitude up to 2^48 or up to 1: any, small, subnormal, a zero of either sign, or the largest. */
static float random_number(int exponent)
{
    uint32_t sign = random_below(2) << 31, largest = (uint32_t)(127 + exponent) << 23;
    switch (random_below(8)) {
    case 0: return of_bits(sign);
    case 1: return of_bits(sign | random_below(8388608));
    case 2: return of_bits(sign | largest);
    case 3: return of_bits(sign | random_below(largest));
    default: return of_bits(sign | (uint32_t)(110 + random_below((uint32_t)exponent + 17)) << 23 | random_below(8388608));
    }
}

static float in[2 * CELLS], want[2 * CELLS], twiddles[WORDS];
static struct {
    float before[EDGE], at[2 * CELLS + 1], after[EDGE];
} out;

/* Whether every other word is the NaN that it was lent as, bit for bit: the proved promise does not tell one NaN from another. */
static int untouched(size_t used)
{
    const unsigned char *byte = (const unsigned char *)&out;
    size_t first = sizeof out.before, end = first + used * sizeof *out.at;
    for (size_t i = 0; i < sizeof out; i++)
        if ((i < first || i >= end) && byte[i] != 0xff) return 0;
    return 1;
}

/* How many words of its own twiddles a stage is lent. */
static size_t own_words(ladlespindle_record plan, size_t number)
{
    return number ? 2 * (plan.half / plan.radices[number] * (plan.radices[number] - 1u)) : 0;
}

static void fill_at_random(size_t words, size_t own)
{
    for (size_t i = 0; i < words; i++) in[i] = random_number(48);
    for (size_t i = 0; i < own; i++) twiddles[i] = random_number(0);
}

static ladlespindle_answer staged(ladlespindle_record plan, size_t number, size_t width, size_t in_length, size_t out_length, size_t own)
{
    memset(&out, 0xff, sizeof out);
    return ladlespindle_stage(plan, number, width, in_length ? in : NULL, in_length, out_length ? out.at : NULL, out_length, own ? twiddles : NULL, own);
}

/* Every stage of every length, at every width. */
static void accepted(void)
{
    size_t lengths = 0;
    for (size_t n = 2; n <= 8192; n += 2) {
        uint8_t list[16];
        size_t length = list_of(list, n);
        if (length == 0) continue;
        lengths++;
        ladlespindle_record plan = ladlespindle_plan(list, length);
        for (size_t number = 0; number < plan.count; number++)
            for (size_t width = 1; width <= 4; width *= 2) {
                size_t own = own_words(plan, number);
                fill_at_random(n, own);
                plain(plan, number, width, in, want, twiddles);
                ladlespindle_answer answer = staged(plan, number, width, n, n, own);
                check(answer.number == 0 && answer.place == 0, "a stage", "accepted");
                check(memcmp(out.at, want, n * sizeof *want) == 0, "a stage", "every word");
                check(untouched(n), "a stage", "nothing else is written");
            }
    }
    check(lengths == 248, "lengths", "their number");
}

/* ---- refused stages */

static void refused(const char *name, ladlespindle_record plan, size_t number, size_t width, size_t in_length, size_t out_length, size_t own,
                    uint32_t why, size_t at)
{
    ladlespindle_answer answer = staged(plan, number, width, in_length, out_length, own);
    check(answer.number == why, name, "number");
    check(answer.place == at, name, "place");
    check(untouched(0), name, "nothing is written");
}

/* Each word in turn is no number, infinite, or the first beyond the bound. */
static void poisoned(ladlespindle_record plan, size_t number, size_t width)
{
    static const uint32_t beyond[] = {0x7fc00000, 0xffffffff, 0x7f800000, 0xff800000, 0x57800001, 0xd7800001}, above[] = {0x7fc00000, 0xff800001, 0x7f800000, 0xff800000, 0x3f800001, 0xbf800001};
    size_t n = plan.n, own = own_words(plan, number);
    fill_at_random(n, own);
    for (size_t i = 0; i < n + own; i++) {
        float *word = i < n ? &in[i] : &twiddles[i - n], kept = *word;
        for (size_t k = 0; k < 6; k++) {
            *word = of_bits(i < n ? beyond[k] : above[k]);
            refused("a poisoned word", plan, number, width, n, n, own, i < n ? LADLESPINDLE_NUMBER : LADLESPINDLE_TWIDDLE, i < n ? i : i - n);
        }
        *word = kept;
    }
    if (own == 0) return;
    in[n - 1] = twiddles[0] = of_bits(0x7fc00000);
    refused("a poisoned cell and twiddle", plan, number, width, n, n, own, LADLESPINDLE_NUMBER, n - 1);
}

static void refusals(void)
{
    static const size_t lengths[] = {4, 6, 12, 30, 64, 588}, widths[] = {0, 3, 5, 8, SIZE_MAX};
    uint8_t list[16] = {2};
    refused("no stage at n 2", ladlespindle_plan(list, 1), 0, 3, 1, 1, 1, LADLESPINDLE_STAGE, 0);
    for (size_t i = 0; i < sizeof lengths / sizeof *lengths; i++) {
        size_t n = lengths[i];
        ladlespindle_record plan = ladlespindle_plan(list, list_of(list, n)), other = plan;
        other.half++;
        refused("a false plan", other, 99, 3, 1, 1, 1, LADLESPINDLE_NOT_PLANNED, 0);
        refused("past the last stage", plan, plan.count, 3, 1, 1, 1, LADLESPINDLE_STAGE, 0);
        refused("the largest stage number", plan, SIZE_MAX, 1, n, n, 0, LADLESPINDLE_STAGE, 0);
        for (size_t number = 0; number < plan.count; number++) {
            size_t own = own_words(plan, number);
            fill_at_random(n, own);
            twiddles[own] = 0;
            for (size_t k = 0; k < sizeof widths / sizeof *widths; k++) refused("no width", plan, number, widths[k], n + 1, n, own, LADLESPINDLE_WIDTH, 0);
            for (size_t width = 1; width <= 4; width *= 2) {
                static const int steps[] = {-1, 1, 0};
                for (int k = 0; k < 3; k++) {
                    int step = steps[k];
                    size_t wrong = step ? n + (size_t)step : 0, odd = step ? own + (size_t)step : 0;
                    refused("input of a wrong length", plan, number, width, wrong, n, own, LADLESPINDLE_LENGTH, 0);
                    refused("output of a wrong length", plan, number, width, n, wrong, own, LADLESPINDLE_LENGTH, 1);
                    refused("all of a wrong length", plan, number, width, wrong, wrong, own + 1, LADLESPINDLE_LENGTH, 0);
                    if (own || step > 0) refused("twiddles of a wrong length", plan, number, width, n, n, odd, LADLESPINDLE_LENGTH, 3);
                }
                if (n < 588 || (width == 4 && number == 1)) poisoned(plan, number, width);
            }
        }
    }
}

int main(void)
{
    accepted();
    refusals();
    return ended("stages");
}
