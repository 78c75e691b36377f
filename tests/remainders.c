/* remainders.c: a C host that runs stages in remainders and compares every cell with sums worked out by their definition.
 * Exits 1 on a difference. */
#include "host.h"

enum { MOST = 4096, EDGE = 8, LARGE = 256 };

/* A buffer between two edges that no call may write. */
struct buffer {
    uint32_t before[EDGE], cells[MOST + 1], after[EDGE];
};

static void edge(struct buffer *b)
{
    memset(b, 0xa5, sizeof *b);
}

/* The edges are as they were, and so are the cells past the first `used`. */
static int kept(const struct buffer *b, size_t used)
{
    const unsigned char *byte = (const unsigned char *)b;
    size_t first = sizeof b->before, end = first + used * sizeof *b->cells;
    for (size_t i = 0; i < sizeof *b; i++)
        if ((i < first || i >= end) && byte[i] != 0xa5) return 0;
    return 1;
}

/* ---- sums by their definition */

static uint64_t power(uint64_t w, uint64_t e, uint64_t m)
{
    uint64_t y = 1 % m;
    for (; e; e >>= 1, w = w * w % m)
        if (e & 1) y = y * w % m;
    return y;
}

/* The powers of w from 0 to h - 1; that of h is 1. */
static uint64_t turns[MOST];
static void make_turns(uint64_t w, size_t h, uint64_t m)
{
    turns[0] = 1 % m;
    for (size_t e = 1; e < h; e++) turns[e] = turns[e - 1] * w % m;
}

/* Cell b * S + k when the stride is S: the sum over u below S of x(b + (h/S)u) * w^((h/S)uk). With S = h it is the transform. */
static uint32_t block_sum(const uint32_t *x, size_t h, size_t S, size_t b, size_t k, uint64_t m)
{
    uint64_t sum = 0;
    for (size_t u = 0; u < S; u++) sum = (sum + x[b + h / S * u] * turns[h / S * u * k % h]) % m;
    return (uint32_t)sum;
}

/* Whether the cells are the block sums of x: every cell of a short list, some of a long one. */
static int is_blocks(const uint32_t *cells, const uint32_t *x, size_t h, size_t S, uint64_t m)
{
    for (size_t t = 0; t < (h > LARGE ? 24 : h); t++) {
        size_t n = h > LARGE ? random_below(h) : t;
        if (cells[n] != block_sum(x, h, S, n / S, n % S, m)) return 0;
    }
    return 1;
}

/* ---- accepted calls */

/* All stages of a plan one by one and then in one run: every block sum, both buffers whole, the buffer named. */
static void runs(const char *name, ladlespindle_record plan, uint32_t m, uint32_t w, const uint32_t *x)
{
    static struct buffer data, scratch, from, to;
    size_t h = plan.half, size = h * sizeof *x, S = 1;
    uint32_t last;
    make_turns(w, h, m);
    edge(&data), edge(&scratch), edge(&from), edge(&to);
    memcpy(data.cells, x, size);
    memcpy(from.cells, x, size);
    memset(scratch.cells, 0xff, size);
    memset(to.cells, 0xff, size);
    ladlespindle_ran ran = ladlespindle_remainder_run(plan, m, w, data.cells, h, scratch.cells, h);
    for (size_t j = 0; j < plan.count; j++) {
        struct buffer *in = j % 2 ? &to : &from, *out = j % 2 ? &from : &to;
        static struct buffer old;
        old = *in;
        ladlespindle_answer one = ladlespindle_remainder_stage(plan, j, m, w, in->cells, h, out->cells, h);
        S *= plan.radices[j];
        check(one.number == 0 && one.place == 0, name, "a stage is accepted");
        check(memcmp(&old, in, sizeof old) == 0 && kept(out, h), name, "a stage writes the other buffer alone");
        check(is_blocks(out->cells, x, h, S, m), name, "every block holds the shorter sum");
    }
    check(S == h, name, "the last stride");
    if (plan.count == 1) memcpy(from.cells, to.cells, size);
    last = plan.count > 1 && plan.count % 2;
    check(ran.number == 0 && ran.place == 0 && ran.buffer == last, name, "a run's answer");
    check(memcmp(data.cells, from.cells, size) == 0, name, "data after a run");
    check(memcmp(scratch.cells, to.cells, size) == 0, name, "scratch after a run");
    check(kept(&data, h) && kept(&scratch, h), name, "a run stays within its buffers");
    check(is_blocks(ran.buffer ? scratch.cells : data.cells, x, h, h, m), name, "the transform");
}

static ladlespindle_record planned(const char *text)
{
    uint8_t list[16];
    size_t length = strlen(text);
    for (size_t i = 0; i < length; i++) list[i] = (uint8_t)(text[i] - '0');
    return ladlespindle_plan(list, length);
}

/* The listed sums, and the least lengths. */
static void listed(void)
{
    static const uint32_t pulse[6] = {0, 1, 0, 0, 0, 0}, sums[6] = {1, 3, 2, 6, 4, 5}, top[1] = {4294967294u};
    uint32_t data[6], scratch[6];
    memcpy(data, pulse, sizeof data);
    ladlespindle_ran ran = ladlespindle_remainder_run(planned("322"), 7, 3, data, 6, scratch, 6);
    check(ran.number == 0 && ran.place == 0 && ran.buffer == 0, "h 6, m 7, w 3", "answer");
    check(memcmp(data, sums, sizeof sums) == 0, "h 6, m 7, w 3", "sums");
    memcpy(data, pulse, sizeof data);
    ran = ladlespindle_remainder_run(planned("8"), 7, 3, data, 4, scratch, 4);
    check(ran.number == LADLESPINDLE_BASE && ran.place == 0 && ran.buffer == 0, "h 4, m 7, w 3", "refused");
    check(memcmp(data, pulse, sizeof data) == 0, "h 4, m 7, w 3", "data as it was");
    runs("h 6, m 7, w 3", planned("322"), 7, 3, pulse);
    runs("h 6, m 9, w 2", planned("322"), 9, 2, pulse);
    runs("h 1", planned("2"), 4294967295u, 1, top);
    runs("h 2", planned("4"), 4294967295u, 4294967294u, (const uint32_t[]){4294967294u, 4294967294u});
    runs("m 2", planned("4222"), 2, 1, (const uint32_t[16]){1, 1, 0, 1});
}

/* ---- random plans, moduli and bases */

static uint64_t gcd(uint64_t a, uint64_t b)
{
    while (b) {
        uint64_t r = a % b;
        a = b, b = r;
    }
    return a;
}

/* A number whose power leaves 1 for every base without a common factor with m: (p - 1) * p^(e - 1) for each p^e, in common. */
static uint64_t exponent_of(uint64_t m)
{
    uint64_t all = 1;
    for (uint64_t p = 2; m > 1; p++) {
        uint64_t part = 1;
        if (p * p > m) p = m;
        if (m % p) continue;
        for (m /= p, part = p - 1; m % p == 0; m /= p) part *= p;
        all = all / gcd(all, part) * part;
    }
    return all;
}

static int is_prime(uint64_t p)
{
    for (uint64_t d = 2; d * d <= p; d++)
        if (p % d == 0) return 0;
    return p > 1;
}

/* A modulus: any, or the largest, or a prime that leaves 1 by h, so that a base of full order is to be found. */
static uint32_t random_modulus(size_t h)
{
    uint64_t p;
    if (random_below(3) == 0) return 2 + random_below(random_below(2) ? 4294967294u : 1000);
    if (random_below(20) == 0) return 4294967295u;
    do p = h * (1 + (uint64_t)random_below(4294967294u / h)) + 1;
    while (!is_prime(p));
    return (uint32_t)p;
}

/* A base whose power h leaves 1. */
static uint32_t random_base(uint64_t m, size_t h)
{
    uint64_t a, all = exponent_of(m);
    do a = 1 + random_below(m - 1);
    while (gcd(a, m) > 1);
    return (uint32_t)power(a, all / gcd(all, h), m);
}

/* A list of radices with an even product of at most `limit`. */
static ladlespindle_record random_plan(size_t limit)
{
    static const uint8_t radices[6] = {2, 3, 4, 5, 7, 8};
    uint8_t list[13] = {2};
    size_t length = 1, n = 2;
    for (size_t tries = random_below(20); tries && length < 13; tries--) {
        uint8_t r = radices[random_below(6)];
        if (n * r <= limit) list[length++] = r, n *= r;
    }
    return ladlespindle_plan(list, length);
}

static void random_runs(void)
{
    static uint32_t x[MOST];
    size_t full = 0;
    for (int run = 0; run < 2000; run++) {
        ladlespindle_record plan = random_plan(run % 10 ? 128 : 8192);
        uint32_t m = random_modulus(plan.half), w = random_base(m, plan.half), top = random_below(8) ? 0 : m - 1;
        for (size_t i = 0; i < plan.half; i++) x[i] = top ? top : random_below(m);
        full += plan.half > 1 && m > 2 && power(w, plan.half / plan.radices[0], m) != 1;
        runs("a random run", plan, m, w, x);
    }
    check(full > 500, "random runs", "bases of more than a small order");
}

/* ---- refused calls */

/* A run and a stage that are to be refused so: 0 cells, or cells at the places given, are lent. */
static void refused(const char *name, ladlespindle_record plan, size_t stage, uint32_t m, uint32_t w, const uint32_t *x, size_t data_length,
                    size_t scratch_length, uint32_t number, size_t place)
{
    static struct buffer data, scratch, old_data, old_scratch;
    int none = data_length == 0 && scratch_length == 0;
    edge(&data), edge(&scratch);
    memcpy(data.cells, x, data_length * sizeof *x);
    old_data = data, old_scratch = scratch;
    ladlespindle_answer one = ladlespindle_remainder_stage(plan, stage, m, w, none ? NULL : data.cells, data_length, none ? NULL : scratch.cells, scratch_length);
    check(one.number == number, name, "number of a stage's refusal");
    check(one.place == place, name, "place of a stage's refusal");
    if (number != LADLESPINDLE_STAGE) {
        ladlespindle_ran ran = ladlespindle_remainder_run(plan, m, w, none ? NULL : data.cells, data_length, none ? NULL : scratch.cells, scratch_length);
        check(ran.number == number && ran.buffer == 0, name, "number of a run's refusal");
        check(ran.place == place, name, "place of a run's refusal");
    }
    check(memcmp(&data, &old_data, sizeof data) == 0 && memcmp(&scratch, &old_scratch, sizeof scratch) == 0, name, "nothing is written");
}

static void refusals(void)
{
    static uint32_t x[MOST + 1];
    static const size_t wrong[] = {0, 1, 5, 7, 12, MOST};
    ladlespindle_record plan = planned("322"), other = plan, none = {0};
    for (int part = 0; part < 6; part++) {
        other = plan;
        if (part == 0) other.n = 14;
        if (part == 1) other.half = 5;
        if (part == 2) other.count = SIZE_MAX;
        if (part == 3) other.radices[0] = 3, other.radices[1] = 2;
        if (part == 4) other.radices[12] = 1;
        if (part == 5) other = none;
        refused("a false plan", other, 0, 0, 9, x, 5, 5, LADLESPINDLE_NOT_PLANNED, 0);
    }
    refused("past the last stage", plan, 2, 0, 9, x, 5, 5, LADLESPINDLE_STAGE, 0);
    refused("the largest stage number", plan, SIZE_MAX, 7, 3, x, 6, 6, LADLESPINDLE_STAGE, 0);
    refused("no stage at n 2", planned("2"), 0, 7, 1, x, 1, 1, LADLESPINDLE_STAGE, 0);
    refused("m 0", plan, 0, 0, 9, x, 5, 5, LADLESPINDLE_MODULUS, 0);
    refused("m 1", plan, 1, 1, 0, x, 5, 5, LADLESPINDLE_MODULUS, 0);
    refused("w is m", plan, 0, 7, 7, x, 5, 5, LADLESPINDLE_BASE, 0);
    refused("w above m", plan, 0, 7, 4294967295u, x, 5, 5, LADLESPINDLE_BASE, 0);
    refused("w 0", plan, 0, 7, 0, x, 6, 6, LADLESPINDLE_BASE, 0);
    refused("a power that is not 1", plan, 0, 4294967295u, 2, x, 5, 5, LADLESPINDLE_BASE, 0);
    refused("h 4, m 7, w 3", planned("8"), 0, 7, 3, x, 4, 4, LADLESPINDLE_BASE, 0);
    x[0] = 7;
    for (size_t i = 0; i < sizeof wrong / sizeof *wrong; i++) {
        refused("input of a wrong length", plan, 0, 7, 3, x, wrong[i], 6, LADLESPINDLE_LENGTH, 0);
        refused("other buffer of a wrong length", plan, 1, 7, 3, x, 6, wrong[i], LADLESPINDLE_LENGTH, 2);
        refused("both of a wrong length", plan, 1, 7, 3, x, wrong[i], wrong[i], LADLESPINDLE_LENGTH, 0);
    }
    for (size_t i = 6; i-- > 0;) {
        x[i] = i % 2 ? 7 : 4294967295u;
        for (size_t k = 0; k < i; k++) x[k] = 6;
        refused("a number not below m", plan, 0, 7, 3, x, 6, 6, LADLESPINDLE_REMAINDER, i);
    }
    memset(x, 0, sizeof x);
    x[4095] = 4294967295u;
    refused("the last of 4,096", planned("88882"), 3, 4294967295u, 1, x, 4096, 4096, LADLESPINDLE_REMAINDER, 4095);
}

int main(void)
{
    listed();
    refusals();
    random_runs();
    return ended("remainders");
}
