/* hear.c: a C host that holds ladlespindle_hear against ladlespindle_forward and a sum of its own: decisions at, above and below every
 * power, every refusal in its order, and what a refused call was lent. Exits 1 on a difference. */
#include "host.h"
#include <math.h>

enum { LONGEST = 6720, STAGE = 40000, END = 4096 };

static float samples[LONGEST + 1], stage[STAGE], end[END];
static float output[LONGEST + 4], scratch[6 * LONGEST + 1], other_output[LONGEST + 4], other_scratch[6 * LONGEST + 1];

/* What a hearing is lent. */
struct lent {
    ladlespindle_record plan;
    size_t width, samples, output, scratch, stage, end, lo, hi;
    float threshold;
};

static ladlespindle_heard hear(struct lent a)
{
    return ladlespindle_hear(a.plan, a.width, samples, a.samples, output, a.output, scratch, a.scratch, stage, a.stage, end, a.end, a.lo, a.hi,
                             a.threshold);
}

/* The same block lent to forward. */
static ladlespindle_answer forward(struct lent a)
{
    return ladlespindle_forward(a.plan, a.width, samples, a.samples, other_output, a.output, other_scratch, a.scratch, stage, a.stage, end, a.end);
}

/* What a plan and a width ask for, with filled words, all bins and random samples of at most 1. */
static struct lent right(size_t n, size_t width)
{
    uint8_t list[16];
    size_t length = list_of(list, n);
    struct lent a = {ladlespindle_plan(list, length), width, n, n + 2, 6 * n, 0, 0, 0, n / 2, 1};
    a.stage = 2 * ladlespindle_stage_twiddles(list, length);
    a.end = 2 * ladlespindle_end_twiddles(list, length);
    check_at(ladlespindle_fill_forward(a.plan, width, stage, a.stage, end, a.end).number == 0, "filling", n, "accepted");
    for (size_t i = 0; i < n; i++) samples[i] = (float)random_below(65536) / 32768 - 1;
    return a;
}

/* Words that no call may touch, NaNs with a number each, in both pairs of buffers. */
static void lay(void)
{
    for (size_t i = 0; i < sizeof output / sizeof *output; i++) output[i] = other_output[i] = of_bits(0x7fc00000u + (uint32_t)i);
    for (size_t i = 0; i < sizeof scratch / sizeof *scratch; i++) scratch[i] = other_scratch[i] = of_bits(0xffc00000u + (uint32_t)i);
}

/* Both pairs of buffers hold the same bytes. */
static int alike(void)
{
    return memcmp(output, other_output, sizeof output) == 0 && memcmp(scratch, other_scratch, sizeof scratch) == 0;
}

/* The power of bins, each product and sum rounded once. */
static float power(size_t lo, size_t hi)
{
    volatile float sum = 0, re, im;
    for (size_t k = lo; k <= hi; k++) {
        re = other_output[2 * k] * other_output[2 * k];
        im = other_output[2 * k + 1] * other_output[2 * k + 1];
        re = re + im;
        sum = sum + re;
    }
    return sum;
}

/* The next number above and below one that has no minus sign; above an infinity stands a NaN. */
static float above(float x) { return of_bits(bits(x) + 1); }
static float below(float x) { return of_bits(bits(x) > 0 ? bits(x) - 1 : 0x80000001u); }

/* An accepted hearing: what forward leaves, the power, and the decision at the power, one step above and below it, and at odd thresholds. */
static void accepted(const char *name, struct lent a)
{
    ladlespindle_heard heard;
    float sum;
    lay();
    check_at(forward(a).number == 0, name, a.plan.n, "forward accepts");
    sum = power(a.lo, a.hi);
    const float thresholds[] = {sum, above(sum), below(sum), 0, -0.0f, -1, 1e-45f, 3.4028235e38f, INFINITY, -INFINITY, NAN, -NAN};
    for (size_t i = 0; i < sizeof thresholds / sizeof *thresholds; i++) {
        a.threshold = thresholds[i];
        heard = hear(a);
        check_at(heard.number == 0 && heard.place == 0, name, a.plan.n, "accepted");
        check_at(bits(heard.power) == bits(sum), name, a.plan.n, "the power");
        check_at(heard.decision == (sum < a.threshold ? LADLESPINDLE_QUIET : LADLESPINDLE_FANNING), name, a.plan.n, "the decision");
        check_at(alike(), name, a.plan.n, "what forward leaves");
    }
}

/* A refused hearing: number and place, zeros and fanning beside them, and every word as lent. */
static void refused(const char *name, struct lent a, uint32_t number, size_t place)
{
    ladlespindle_heard heard;
    lay();
    heard = hear(a);
    check(heard.number == number && heard.place == place, name, "number and place");
    check(bits(heard.power) == 0 && heard.decision == LADLESPINDLE_FANNING, name, "no power, and fanning");
    check(alike(), name, "as lent");
}

/* Refused as forward is, also where the band is none: the band is looked at last. */
static void as_forward(const char *name, struct lent a, uint32_t number)
{
    ladlespindle_answer answer;
    lay();
    answer = forward(a);
    check(answer.number == number, name, "forward's number");
    refused(name, a, answer.number, answer.place);
    a.lo = 3;
    a.hi = 2;
    refused(name, a, answer.number, answer.place);
}

/* Every refusal of forward, and those of the band. */
static void refusals(void)
{
    static const float unfit[] = {4294967808.0f, INFINITY, -INFINITY, NAN};
    struct lent good = right(960, 4), a;
    a = good, a.plan.radices[12] = 1, as_forward("a false plan", a, 5);
    a = good, memset(&a.plan, 0, sizeof a.plan), as_forward("a plan of zeros", a, 5);
    a = good, a.width = 3, as_forward("a width of 3", a, 6);
    a = good, a.samples--, as_forward("a short block", a, 8);
    a = good, a.samples++, as_forward("a long block", a, 8);
    a = good, a.samples = 0, as_forward("an empty block", a, 8);
    a = good, a.output--, as_forward("a short output", a, 8);
    a = good, a.output++, as_forward("a long output", a, 8);
    a = good, a.scratch--, as_forward("a short scratch", a, 8);
    a = good, a.stage--, as_forward("short stage words", a, 8);
    a = good, a.end++, as_forward("long end words", a, 8);
    for (size_t i = 0; i < sizeof unfit / sizeof *unfit; i++) {
        float kept = samples[959];
        samples[959] = unfit[i];
        as_forward("an unfit sample", good, 9);
        samples[959] = kept;
        kept = end[0];
        end[0] = unfit[i];
        as_forward("an unfit twiddle", good, 10);
        end[0] = kept;
    }
    a = good, a.lo = 1, a.hi = 0, refused("a band upside down", a, 14, 0);
    a = good, a.hi = 481, refused("a bin above half", a, 14, 0);
    a = good, a.lo = a.hi = 481, refused("one bin above half", a, 14, 0);
    a = good, a.hi = SIZE_MAX, refused("the largest bin", a, 14, 0);
    a = good, a.lo = SIZE_MAX, a.hi = SIZE_MAX, refused("the largest bins", a, 14, 0);
    a = good, a.lo = SIZE_MAX, refused("a band from the largest bin", a, 14, 0);
    a = good, a.scratch++, accepted("a long scratch", a);
}

/* The loudest samples, with words that are all 1: the power may be infinite, and is then never below a threshold. */
static void loudest(size_t n)
{
    struct lent a = right(n, 1);
    for (size_t i = 0; i < n; i++) samples[i] = 4294967296.0f;
    for (size_t i = 0; i < a.stage; i++) stage[i] = 1;
    for (size_t i = 0; i < a.end; i++) end[i] = 1;
    accepted("the loudest block", a);
}

int main(void)
{
    static const size_t widths[] = {1, 2, 4};
    for (size_t n = 2; n <= LONGEST; n += 2) {
        if (LONGEST % n) continue;
        for (size_t w = 0; w < 3; w++) {
            struct lent a = right(n, widths[w]);
            accepted("all bins", a);
            a.lo = a.hi = n / 2;
            accepted("the last bin", a);
            a.lo = random_below(n / 2 + 1), a.hi = a.lo + random_below(n / 2 + 1 - a.lo);
            accepted("some bins", a);
        }
        loudest(n);
    }
    refusals();
    return ended("hear");
}
