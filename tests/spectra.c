/* spectra.c: a C host that runs both transforms and sums of power, and compares every word with the steps worked out here, and every
 * filled length with the sums that define it. Exits 1 on a difference. */
#include "host.h"

enum { INPUT, OUTPUT, SCRATCH, STAGE, END, SLICES, EDGE = 9, ROOM = 50000, CELLS = 4096, PARTS = 6720 };

/* A number of magnitude up to 2^exponent: any, small, subnormal, a zero of either sign, or the largest. */
static float random_number(int exponent)
{
    uint32_t sign = random_below(2) << 31, largest = (uint32_t)(127 + exponent) << 23;
    switch (random_below(8)) {
    case 0: return of_bits(sign);
    case 1: return of_bits(sign | random_below(8388608));
    case 2: return of_bits(sign | largest);
    case 3: return of_bits(sign | random_below(largest));
    default: return of_bits(sign | (uint32_t)(110 + random_below((uint32_t)exponent + 17)) << 23 | random_below(8388608));
    }
}

/* ---- the steps */

struct cell {
    float re, im;
};

static struct cell add(struct cell a, struct cell b)
{
    return (struct cell){a.re + b.re, a.im + b.im};
}

static struct cell sub(struct cell a, struct cell b)
{
    return (struct cell){a.re - b.re, a.im - b.im};
}

static struct cell mul(struct cell a, struct cell b)
{
    return (struct cell){a.re * b.re - a.im * b.im, a.re * b.im + a.im * b.re};
}

static struct cell conjugate(struct cell a)
{
    return (struct cell){a.re, -a.im};
}

/* Turned by t of r parts of a circle: whole quarters exchange and flip signs, any other turn multiplies. */
static struct cell turned(struct cell a, size_t t, size_t r)
{
    static ladlespindle_turn_words turns[9][8];
    if (4 * t % r) {
        if (turns[r][t].re == 0) turns[r][t] = ladlespindle_turn((uint32_t)t, (uint32_t)r);
        return mul(a, (struct cell){turns[r][t].re, turns[r][t].im});
    }
    switch (4 * t / r) {
    case 0: return a;
    case 1: return (struct cell){a.im, -a.re};
    case 2: return (struct cell){-a.re, -a.im};
    default: return (struct cell){-a.im, a.re};
    }
}

/* One stage of radix r at stride s. */
static void one_stage(size_t h, size_t r, size_t s, size_t width, const struct cell *in, struct cell *out, const struct cell *twiddles)
{
    size_t m = h / r;
    for (size_t i = 0; i < m; i++) {
        struct cell x[8];
        for (size_t q = 0; q < r; q++) {
            x[q] = in[i + q * m];
            if (q > 0 && s > 1) x[q] = mul(x[q], twiddles[standing(m, r, width, i, q)]);
        }
        for (size_t p = 0; p < r; p++) {
            struct cell sum = x[0];
            for (size_t q = 1; q < r; q++) sum = add(sum, turned(x[q], p * q % r, r));
            out[i / s * s * r + i % s + p * s] = sum;
        }
    }
}

static struct cell data[2 * CELLS], bins[CELLS + 1], twiddles[ROOM / 2], ends[ROOM / 2];

/* All stages, from the first h cells of data to the next and back, a single one copied back: where the result is. */
static struct cell *run(ladlespindle_record plan, size_t width)
{
    size_t h = plan.half, s = 1;
    struct cell *from = data, *to = data + h, *own = twiddles;
    for (size_t j = 0; j < plan.count; j++) {
        size_t r = plan.radices[j];
        one_stage(h, r, s, width, from, to, own);
        struct cell *other = from;
        from = to, to = other;
        if (j > 0) own += h / r * (r - 1);
        s *= r;
    }
    if (plan.count != 1) return from;
    memcpy(data, data + h, h * sizeof *data);
    return data;
}

/* From samples in data to bins. */
static void forward(ladlespindle_record plan, size_t width)
{
    size_t h = plan.half;
    const struct cell *z = run(plan, width);
    bins[0] = (struct cell){z[0].re + z[0].im, 0};
    bins[h] = (struct cell){z[0].re - z[0].im, 0};
    for (size_t k = 1; 2 * k < h; k++) {
        struct cell sum = add(z[k], z[h - k]), diff = sub(z[k], z[h - k]), t = ends[k - 1];
        float re = sum.im * t.re + diff.re * t.im, im = sum.im * t.im - diff.re * t.re;
        bins[k] = (struct cell){0.5f * sum.re + re, 0.5f * diff.im + im};
        bins[h - k] = (struct cell){0.5f * sum.re - re, im - 0.5f * diff.im};
    }
    if (h % 2 == 0) bins[h / 2] = conjugate(z[h / 2]);
}

/* From bins in data to samples in its first h cells. */
static void inverse(ladlespindle_record plan, size_t width)
{
    size_t h = plan.half;
    struct cell sum = add(data[0], data[h]), diff = sub(data[0], data[h]);
    data[0] = (struct cell){sum.re - sum.im, diff.re - diff.im};
    for (size_t k = 1; 2 * k < h; k++) {
        struct cell t = ends[k - 1];
        sum = add(data[k], data[h - k]), diff = sub(data[k], data[h - k]);
        float re = sum.im * t.re + diff.re * t.im, im = sum.im * t.im - diff.re * t.re;
        data[k] = (struct cell){sum.re - re, diff.im - im};
        data[h - k] = (struct cell){sum.re + re, -im - diff.im};
    }
    if (h % 2 == 0) data[h / 2] = conjugate(add(data[h / 2], data[h / 2]));
    for (size_t i = 0; i < h; i++) data[i] = conjugate(data[i]);
    struct cell *z = run(plan, width);
    for (size_t i = 0; i < h; i++) z[i] = conjugate(z[i]);
    if (z != data) memcpy(data, z, h * sizeof *data);
}

/* ---- a call: five slices between edges, and what each must hold after it */

typedef ladlespindle_answer transform(ladlespindle_record, size_t, const float *, size_t, float *, size_t, float *, size_t, const float *,
                                      size_t, const float *, size_t);
static transform *const both[] = {ladlespindle_forward, ladlespindle_inverse};

struct call {
    int back; /* 0 forward, 1 inverse */
    ladlespindle_record plan;
    size_t width, length[SLICES], needed[SLICES];
};

static float lent[SLICES][ROOM], want[SLICES][ROOM];

/* A call of the length n with slices as they should be. */
static struct call right(int back, size_t n, size_t width)
{
    uint8_t list[16];
    size_t length = list_of(list, n), spectrum = n + 2;
    struct call c = {back, ladlespindle_plan(list, length), width, {back ? spectrum : n, back ? n : spectrum, 6 * n, 0, 0}, {0}};
    c.length[STAGE] = 2 * ladlespindle_stage_twiddles(list, length);
    c.length[END] = 2 * ladlespindle_end_twiddles(list, length);
    memcpy(c.needed, c.length, sizeof c.length);
    return c;
}

/* How many words of a slice are watched: its edges, and what is lent or what a right call would lend. */
static size_t watched(struct call c, size_t i)
{
    return (c.length[i] > c.needed[i] ? c.length[i] : c.needed[i]) + 2 * EDGE;
}

/* Every word that is watched tells where it stands. Those of output and scratch are NaNs, which must keep their very bits where nothing is
 * written: the proved promise does not tell one NaN from another. */
static void mark(struct call c)
{
    for (size_t i = 0; i < SLICES; i++)
        for (size_t j = 0; j < watched(c, i); j++)
            lent[i][j] = of_bits((uint32_t)((i == OUTPUT || i == SCRATCH ? 0x7f900000 : 0x40000000) + i * ROOM + j));
}

/* What is read: random numbers, or the largest with random signs, or zeros and ones of both signs, which often cancel. */
enum kind { RANDOM, LARGEST, CANCELLING, KINDS };
static void numbers(struct call c, enum kind kind)
{
    for (size_t i = 0; i < SLICES; i++) {
        int exponent = i != INPUT ? 0 : c.back ? 48 : 32;
        for (size_t j = 0; j < c.length[i] && i != OUTPUT && i != SCRATCH; j++) {
            uint32_t sign = random_below(2) << 31, largest = (uint32_t)(127 + exponent) << 23;
            if (kind == RANDOM) lent[i][EDGE + j] = random_number(exponent);
            else lent[i][EDGE + j] = of_bits(sign | (kind == LARGEST ? largest : random_below(2) * 0x3f800000));
        }
    }
}

static ladlespindle_answer called(struct call c, int null)
{
    float *at[SLICES];
    for (size_t i = 0; i < SLICES; i++) at[i] = null && c.length[i] == 0 ? NULL : lent[i] + EDGE;
    return both[c.back](c.plan, c.width, at[INPUT], c.length[INPUT], at[OUTPUT], c.length[OUTPUT], at[SCRATCH], c.length[SCRATCH], at[STAGE],
                        c.length[STAGE], at[END], c.length[END]);
}

static void want_as_lent(struct call c)
{
    for (size_t i = 0; i < SLICES; i++) memcpy(want[i], lent[i], watched(c, i) * sizeof **lent);
}

static int as_wanted(struct call c)
{
    for (size_t i = 0; i < SLICES; i++)
        if (memcmp(lent[i], want[i], watched(c, i) * sizeof **lent)) return 0;
    return 1;
}

/* What the steps leave of the slices of a call. */
static void work_out(struct call c)
{
    size_t n = c.plan.n;
    want_as_lent(c);
    memcpy(data, want[SCRATCH] + EDGE, 2 * n * sizeof **want);
    memcpy(data, want[INPUT] + EDGE, c.length[INPUT] * sizeof **want);
    memcpy(twiddles, want[STAGE] + EDGE, c.length[STAGE] * sizeof **want);
    memcpy(ends, want[END] + EDGE, c.length[END] * sizeof **want);
    if (c.back) {
        inverse(c.plan, c.width);
        memset(want[OUTPUT] + EDGE, 0, c.length[OUTPUT] * sizeof **want);
        memcpy(want[OUTPUT] + EDGE, data, n * sizeof **want);
    } else {
        forward(c.plan, c.width);
        memcpy(want[OUTPUT] + EDGE, bins, (n + 2) * sizeof **want);
    }
    memcpy(want[SCRATCH] + EDGE, data, 2 * n * sizeof **want);
}

static void accepted(const char *name, struct call c)
{
    work_out(c);
    ladlespindle_answer answer = called(c, random_below(2) == 0);
    check_at(answer.number == 0 && answer.place == 0, name, c.plan.n, "accepted");
    check_at(memcmp(lent[OUTPUT] + EDGE, want[OUTPUT] + EDGE, c.length[OUTPUT] * sizeof **want) == 0, name, c.plan.n, "every word of the output");
    check_at(memcmp(lent[SCRATCH] + EDGE, want[SCRATCH] + EDGE, c.length[SCRATCH] * sizeof **want) == 0, name, c.plan.n, "every word of the scratch");
    check_at(as_wanted(c), name, c.plan.n, "nothing else is written");
}

static void refused(const char *name, struct call c, uint32_t number, size_t at)
{
    int empty = 0;
    for (size_t i = 0; i < SLICES; i++) empty |= c.length[i] == 0;
    want_as_lent(c);
    for (int null = 0; null <= empty; null++) {
        ladlespindle_answer answer = called(c, null);
        check_at(answer.number == number, name, c.plan.n, "number");
        check_at(answer.place == at, name, c.plan.n, "place");
        check_at(as_wanted(c), name, c.plan.n, "nothing is written");
    }
}

/* ---- the sums that define a transform */

static double cosines[4 * PARTS];

/* The cosines of quarters of n parts of a circle, by their Taylor sums. */
static void make_cosines(size_t n)
{
    const long double circle = 6.283185307179586476925286766559005768394L;
    for (size_t t = 0; t < 4 * n; t++) {
        long double angle = circle * (t > 2 * n ? 4 * n - t : t) / (4 * n), term = 1, sum = 0;
        for (int k = 0; k < 60; k += 2) {
            sum += term;
            term *= -angle * angle / ((k + 1) * (k + 2));
        }
        cosines[t] = (double)sum;
    }
}

/* Whether the output is the sum that its direction defines, up to a part of 2,000,000 of its size. */
static int near_sums(struct call c)
{
    size_t n = c.plan.n, h = c.plan.half;
    const float *in = lent[INPUT] + EDGE, *out = lent[OUTPUT] + EDGE;
    double error = 0, size = 0;
    for (size_t k = 0; k <= h && !c.back; k++) {
        double re = 0, im = 0;
        for (size_t j = 0; j < n; j++) {
            re += in[j] * cosines[j * k % n * 4];
            im += in[j] * cosines[(j * k % n * 4 + n) % (4 * n)];
        }
        error += (out[2 * k] - re) * (out[2 * k] - re) + (out[2 * k + 1] - im) * (out[2 * k + 1] - im);
        size += re * re + im * im;
    }
    for (size_t j = 0; j < n && c.back; j++) {
        double sum = ((double)in[0] - in[1]) + ((double)in[n] - in[n + 1]) * (j % 2 ? -1 : 1);
        for (size_t k = 1; k < h; k++)
            sum += 2 * (in[2 * k] * cosines[j * k % n * 4] + in[2 * k + 1] * cosines[(j * k % n * 4 + n) % (4 * n)]);
        error += (out[j] - sum) * (out[j] - sum);
        size += sum * sum;
    }
    return error <= size / 2000000 / 2000000;
}

/* ---- accepted calls */

static void fill(struct call c)
{
    float *stage = lent[STAGE] + EDGE, *end = lent[END] + EDGE;
    ladlespindle_answer answer = c.back ? ladlespindle_fill_inverse(c.plan, c.width, stage, c.length[STAGE], end, c.length[END])
                                        : ladlespindle_fill_forward(c.plan, c.width, stage, c.length[STAGE], end, c.length[END]);
    check_at(answer.number == 0, "a filling", c.plan.n, "accepted");
}

/* All lengths that can be filled, with their twiddles, and with zeros alone. */
static void filled(void)
{
    size_t lengths = 0;
    for (size_t n = 2; n <= PARTS; n += 2) {
        if (PARTS % n) continue;
        lengths++;
        make_cosines(n);
        for (int back = 0; back < 2; back++)
            for (size_t width = 1; width <= 4; width *= 2) {
                struct call c = right(back, n, width);
                mark(c);
                numbers(c, RANDOM);
                fill(c);
                accepted(back ? "filled inverse" : "filled forward", c);
                check_at(width > 1 || near_sums(c), back ? "filled inverse" : "filled forward", n, "the sums that define it");
                memset(lent[INPUT] + EDGE, 0, c.length[INPUT] * sizeof **lent);
                accepted("zeros", c);
                for (size_t k = 0; k <= c.plan.half && !back; k++) {
                    const float *bin = lent[OUTPUT] + EDGE + 2 * k;
                    int flipped = 2 * k >= c.plan.half && k < c.plan.half;
                    check_at(bits(bin[0]) == 0 && bits(bin[1]) == (flipped ? 0x80000000 : 0), "zeros", n, "their signs");
                }
            }
    }
    check_at(lengths == 48, "lengths that can be filled", 0, "their number");
}

/* Every length with any words up to 1, scratch and an inverse's output longer than they need be. */
static void any_words(void)
{
    size_t lengths = 0;
    for (size_t n = 2; n <= 8192; n += 2) {
        uint8_t list[16];
        if (list_of(list, n) == 0) continue;
        lengths++;
        for (int back = 0; back < 2; back++)
            for (size_t width = 1; width <= 4; width *= 2)
                for (enum kind kind = RANDOM; kind < (width == 2 ? KINDS : LARGEST); kind++) {
                    struct call c = right(back, n, width);
                    c.length[SCRATCH] += random_below(8);
                    if (back) c.length[OUTPUT] += random_below(8);
                    mark(c);
                    numbers(c, kind);
                    accepted(back ? "inverse" : "forward", c);
                }
    }
    check_at(lengths == 248, "lengths", 0, "their number");
}

/* One slice lent three times over to be read. */
static void overlapping(void)
{
    for (int back = 0; back < 2; back++) {
        struct call c = right(back, 64, 4);
        mark(c);
        numbers(c, RANDOM);
        memcpy(lent[INPUT] + EDGE, lent[STAGE] + EDGE, c.length[INPUT] * sizeof **lent);
        memcpy(lent[END] + EDGE, lent[STAGE] + EDGE, c.length[END] * sizeof **lent);
        work_out(c);
        float *read = lent[STAGE] + EDGE;
        ladlespindle_answer answer = both[back](c.plan, 4, read, c.length[INPUT], lent[OUTPUT] + EDGE, c.length[OUTPUT], lent[SCRATCH] + EDGE,
                                                c.length[SCRATCH], read, c.length[STAGE], read, c.length[END]);
        check_at(answer.number == 0 && as_wanted(c), "slices that overlap", 64, "every word");
    }
}

/* A transform whose output must be these words. */
static void gives(const char *name, int back, size_t n, const float *in, const float *out)
{
    struct call c = right(back, n, 1);
    mark(c);
    fill(c);
    memcpy(lent[INPUT] + EDGE, in, c.length[INPUT] * sizeof **lent);
    check_at(called(c, 1).number == 0, name, n, "accepted");
    check_at(memcmp(lent[OUTPUT] + EDGE, out, c.length[OUTPUT] * sizeof **lent) == 0, name, n, "every word");
}

/* Whole-number samples at n = 2 and 4: the exact transform, and n times the samples back. */
static void exact(const int32_t *x)
{
    float samples[4], back[4];
    for (int j = 0; j < 4; j++) samples[j] = (float)x[j];
    for (size_t n = 2; n <= 4; n += 2) {
        struct call c = right(0, n, 1), b = right(1, n, 1);
        int32_t two[] = {x[0] + x[1], 0, x[0] - x[1], 0};
        int32_t four[] = {x[0] + x[1] + x[2] + x[3], 0, x[0] - x[2], x[3] - x[1], x[0] - x[1] + x[2] - x[3], 0};
        mark(b);
        memcpy(lent[INPUT] + EDGE, samples, n * sizeof *samples);
        int same = called(c, 0).number == 0;
        for (size_t i = 0; i < n + 2; i++) same = same && lent[OUTPUT][EDGE + i] == (float)(n == 2 ? two : four)[i];
        check_at(same, "whole numbers", n, "the exact transform");
        memcpy(lent[INPUT] + EDGE, lent[OUTPUT] + EDGE, (n + 2) * sizeof *samples);
        same = called(b, 0).number == 0;
        memcpy(back, lent[OUTPUT] + EDGE, n * sizeof *back);
        for (size_t j = 0; j < n; j++) same = same && back[j] == (float)((int32_t)n * x[j]);
        check_at(same, "whole numbers", n, "n times the samples");
    }
}

static void known(void)
{
    static const float samples[] = {1, 2, 3, 4}, spectrum[] = {10, 0, -2, 2, -2, 0}, again[] = {4, 8, 12, 16};
    static const float zeros[] = {0, 0, 0, 0, 0, 0}, signs[] = {0, -0.0f, 0, 0};
    static const int32_t whole[] = {-1048576, -1048575, -1, 0, 1, 1048575, 1048576};
    gives("samples 1, 2, 3, 4", 0, 4, samples, spectrum);
    gives("their spectrum", 1, 4, spectrum, again);
    gives("a spectrum of zeros", 1, 4, zeros, signs);
    ladlespindle_summed summed = ladlespindle_power(spectrum, 6, 0, 2);
    check_at(summed.number == 0 && summed.place == 0 && summed.power == 112, "their spectrum", 4, "its power");
    for (int i = 0; i < 7 * 7 * 7 * 7; i++) exact((int32_t[]){whole[i % 7], whole[i / 7 % 7], whole[i / 49 % 7], whole[i / 343]});
    for (int i = 0; i < 2000; i++) {
        int32_t x[4];
        for (int j = 0; j < 4; j++) x[j] = (int32_t)random_below(2097153) - 1048576;
        exact(x);
    }
}

/* ---- refused calls */

/* No number, infinite, or the first beyond a bound, of 2^32, 2^48 or 1. */
static float unfit(int kind, int exponent)
{
    const uint32_t beyond = ((uint32_t)(127 + exponent) << 23) + 1;
    return of_bits((const uint32_t[]){0x7fc00000, 0xff800001, 0x7f800000, 0xff800000, beyond, beyond | 0x80000000}[kind]);
}

/* Each word that is read in turn is unfit. */
static void poisoned(struct call c)
{
    for (size_t i = 0; i < SLICES; i++) {
        if (i == OUTPUT || i == SCRATCH) continue;
        for (size_t j = 0; j < c.length[i]; j++) {
            float *word = &lent[i][EDGE + j], kept = *word;
            for (int kind = 0; kind < 6; kind++) {
                *word = unfit(kind, i != INPUT ? 0 : c.back ? 48 : 32);
                if (i == INPUT) refused("an unfit number", c, LADLESPINDLE_NUMBER, j);
                else refused("an unfit twiddle", c, LADLESPINDLE_TWIDDLE, i == STAGE ? j : c.length[STAGE] + j);
            }
            *word = kept;
        }
    }
}

/* Slices of wrong lengths, one at a time. */
static void wrong_lengths(struct call c)
{
    for (size_t i = 0; i < SLICES; i++) {
        struct call wrong = c;
        size_t length = c.length[i], more = i == SCRATCH || (i == OUTPUT && c.back) ? 0 : length + 1;
        size_t lengths[] = {0, 1, length / 2, length - 2, length - 1, more};
        for (size_t k = 0; k < 6; k++) {
            if (lengths[k] == length || lengths[k] > length + 1) continue;
            wrong.length[i] = lengths[k];
            refused("a slice of a wrong length", wrong, LADLESPINDLE_LENGTH, i);
        }
    }
}

/* All that can be refused at once, mended one by one in the order of the refusals. */
static void in_order(struct call c)
{
    struct call bad = c;
    size_t first = c.length[INPUT] - 1, last = c.length[END] - 1;
    lent[INPUT][EDGE + first] = of_bits(0x7fc00000);
    if (c.length[STAGE]) lent[STAGE][EDGE + c.length[STAGE] - 1] = 2;
    if (c.length[END]) lent[END][EDGE + last] = of_bits(0xff800000);
    for (size_t i = 0; i < SLICES; i++) bad.length[i] = i == SCRATCH ? c.length[i] - 1 : i == OUTPUT && c.back ? 0 : c.length[i] + 1;
    bad.width = 3, bad.plan.radices[12] = 2;
    refused("everything wrong", bad, LADLESPINDLE_NOT_PLANNED, 0);
    bad.plan = c.plan;
    refused("all but the plan wrong", bad, LADLESPINDLE_WIDTH, 0);
    bad.width = c.width;
    for (size_t i = 0; i < SLICES; i++) {
        refused("several slices of a wrong length", bad, LADLESPINDLE_LENGTH, i);
        bad.length[i] = c.length[i];
    }
    refused("an unfit number and unfit twiddles", c, LADLESPINDLE_NUMBER, first);
    lent[INPUT][EDGE + first] = 0;
    if (c.length[STAGE]) {
        refused("unfit twiddles", c, LADLESPINDLE_TWIDDLE, c.length[STAGE] - 1);
        lent[STAGE][EDGE + c.length[STAGE] - 1] = 1;
    }
    if (c.length[END]) {
        refused("an unfit end twiddle", c, LADLESPINDLE_TWIDDLE, c.length[STAGE] + last);
        lent[END][EDGE + last] = -1;
    }
    accepted("everything mended", c);
}

static void false_plans(struct call c)
{
    ladlespindle_record plan = c.plan;
    for (int i = 0; i < 6; i++) {
        c.plan = plan;
        switch (i) {
        case 0: c.plan.n += 2; break;
        case 1: c.plan.half++; break;
        case 2: c.plan.count++; break;
        case 3: c.plan.radices[12] = 2; break;
        case 4: memset(&c.plan, 0, sizeof c.plan); break;
        default:
            c.plan.radices[0] = plan.radices[plan.count ? plan.count - 1 : 0];
            if (plan.count) c.plan.radices[plan.count - 1] = plan.radices[0];
            if (c.plan.radices[0] == plan.radices[0]) return;
        }
        refused("a false plan", c, LADLESPINDLE_NOT_PLANNED, 0);
    }
}

static void refusals(void)
{
    static const size_t lengths[] = {2, 4, 6, 12, 30, 64, 588}, widths[] = {0, 3, 5, SIZE_MAX};
    for (size_t i = 0; i < sizeof lengths / sizeof *lengths; i++)
        for (int back = 0; back < 2; back++) {
            struct call c = right(back, lengths[i], 1);
            mark(c);
            numbers(c, RANDOM);
            false_plans(c);
            for (size_t k = 0; k < sizeof widths / sizeof *widths; k++) {
                c.width = widths[k];
                refused("no width", c, LADLESPINDLE_WIDTH, 0);
            }
            for (c.width = 1; c.width <= 4; c.width *= 2) {
                mark(c);
                numbers(c, RANDOM);
                wrong_lengths(c);
                poisoned(c);
                in_order(c);
            }
        }
}

/* ---- power */

static float room[8197], *const spectrum = room + 1;

static void sums(size_t length, size_t lo, size_t hi)
{
    float sum = 0;
    for (size_t k = lo; k <= hi; k++) sum += spectrum[2 * k] * spectrum[2 * k] + spectrum[2 * k + 1] * spectrum[2 * k + 1];
    ladlespindle_summed summed = ladlespindle_power(spectrum, length, lo, hi);
    check_at(summed.number == 0 && summed.place == 0, "a power", length, "accepted");
    check_at(bits(summed.power) == bits(sum), "a power", length, "the sum");
}

static void no_sum(const char *name, size_t length, size_t lo, size_t hi, uint32_t number, size_t at)
{
    ladlespindle_summed summed = ladlespindle_power(spectrum, length, lo, hi);
    check_at(summed.number == number, name, length, "number");
    check_at(summed.place == at, name, length, "place");
    check_at(bits(summed.power) == 0, name, length, "no sum");
}

static void powers(void)
{
    static const size_t lengths[] = {4, 6, 14, 66, 590, 8194}, wrong[] = {0, 1, 2, 3, 5, 15, 591, 8193, 8195, 8196};
    static const float steps[] = {4096, 0, 1, 0, 1, 0, 1, 0, 1, 1};
    static float copy[8196];
    memcpy(spectrum, steps, sizeof steps);
    check_at(ladlespindle_power(spectrum, 10, 0, 3).power == 16777216, "the order of a sum", 10, "ascending");
    check_at(ladlespindle_power(spectrum, 10, 1, 4).power == 5, "the order of a sum", 10, "ascending");
    check_at(ladlespindle_power(spectrum, 10, 0, 4).power == 16777218, "the order of a sum", 10, "a bin at a time");
    for (size_t i = 0; i < sizeof lengths / sizeof *lengths; i++) {
        size_t length = lengths[i], last = length / 2 - 1;
        for (size_t k = 0; k < length; k++) spectrum[k] = of_bits(random_below(2) << 31 | 0x57800000);
        sums(length, 0, last);
        for (size_t k = 0; k < 8196; k++) spectrum[k] = random_number(48);
        memcpy(copy, spectrum, sizeof copy);
        sums(length, 0, last);
        for (int k = 0; k < 50; k++) {
            size_t lo = random_below((uint32_t)last + 1), hi = lo + random_below((uint32_t)(last - lo) + 1);
            sums(length, lo, hi);
            sums(length, lo, lo);
        }
        no_sum("hi is no bin", length, 0, last + 1, LADLESPINDLE_BINS, 0);
        no_sum("hi is no bin", length, SIZE_MAX, SIZE_MAX, LADLESPINDLE_BINS, 0);
        no_sum("hi is no bin", length, 0, SIZE_MAX, LADLESPINDLE_BINS, 0);
        no_sum("lo above hi", length, 1, 0, LADLESPINDLE_BINS, 0);
        no_sum("lo above hi", length, last, last - 1, LADLESPINDLE_BINS, 0);
        no_sum("lo above hi", length, SIZE_MAX, last, LADLESPINDLE_BINS, 0);
        for (size_t k = 0; k < length; k++) {
            float kept = spectrum[k];
            for (int kind = 0; kind < 6; kind++) {
                spectrum[k] = unfit(kind, 48);
                no_sum("an unfit number", length, 0, last, LADLESPINDLE_NUMBER, k);
                no_sum("an unfit number, asked for or not", length, last, last, LADLESPINDLE_NUMBER, k);
                no_sum("lo above hi and an unfit number", length, 1, 0, LADLESPINDLE_BINS, 0);
            }
            spectrum[k] = kept;
        }
        spectrum[length - 1] = spectrum[1] = of_bits(0x7f800000);
        no_sum("two unfit numbers", length, last, last, LADLESPINDLE_NUMBER, 1);
        for (size_t k = 0; k < sizeof wrong / sizeof *wrong; k++) {
            no_sum("a wrong length", wrong[k], 0, 1, LADLESPINDLE_LENGTH, 0);
            no_sum("a wrong length", wrong[k], 1, 0, LADLESPINDLE_LENGTH, 0);
        }
        spectrum[length - 1] = copy[length - 1], spectrum[1] = copy[1];
        check_at(memcmp(spectrum, copy, sizeof copy) == 0, "a spectrum", length, "not written");
    }
    ladlespindle_summed summed = ladlespindle_power(NULL, 0, 0, 0);
    check_at(summed.number == LADLESPINDLE_LENGTH && summed.place == 0 && bits(summed.power) == 0, "no spectrum", 0, "refused");
}

int main(void)
{
    filled();
    any_words();
    overlapping();
    known();
    refusals();
    powers();
    return ended("spectra");
}
