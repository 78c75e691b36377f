/* numbers.c: a C host that transforms 10,000 blocks of whole numbers, which must come out exact, and the largest numbers at every
 * length, where every word that a call writes must be finite and within its proved bound. Exits 1 on a difference. */
#include "host.h"

enum { BLOCKS = 10000, LARGEST_WHOLE = 1 << 20, N = 8192, TWIDDLES = 50000 };

/* A power of two. */
static double power_of_two(size_t exponent)
{
    double x = 1;
    while (exponent-- > 0) x *= 2;
    return x;
}

/* Whether so many words are finite and at most this in magnitude. */
static int within(const float *words, size_t length, double bound)
{
    for (size_t i = 0; i < length; i++) {
        double x = words[i] < 0 ? -(double)words[i] : (double)words[i];
        if ((bits(words[i]) >> 23 & 255) == 255 || x > bound) return 0;
    }
    return 1;
}

static float input[N + 2], output[N + 2], scratch[6 * N], stage[TWIDDLES], end[TWIDDLES];

/* Any bits at all where a call may only write. */
static void spoil(float *words, size_t length)
{
    for (size_t i = 0; i < length; i++) words[i] = of_bits(random_below((uint64_t)1 << 32));
}

/* A plan and how many words its twiddles are. */
struct planned {
    ladlespindle_record plan;
    size_t stage, end;
};

static struct planned planned(size_t n)
{
    uint8_t list[16];
    size_t length = list_of(list, n);
    return (struct planned){ladlespindle_plan(list, length), 2 * ladlespindle_stage_twiddles(list, length),
                            2 * ladlespindle_end_twiddles(list, length)};
}

/* ---- whole numbers */

/* A whole number up to 2^20 in magnitude, the largest and both zeros among them. */
static float random_whole(void)
{
    switch (random_below(8)) {
    case 0: return LARGEST_WHOLE;
    case 1: return -LARGEST_WHOLE;
    case 2: return -0.0f;
    case 3: return (float)random_below(3) - 1;
    default: return (float)((int32_t)random_below(2 * LARGEST_WHOLE + 1) - LARGEST_WHOLE);
    }
}

/* One part of bin k by its sum: x(j) times a power of -i, the real part (0) or the imaginary one (1). */
static int64_t bin(const float *x, size_t n, size_t k, size_t part)
{
    static const int powers[4][2] = {{1, 0}, {0, -1}, {-1, 0}, {0, 1}};
    int64_t sum = 0;
    for (size_t j = 0; j < n; j++) sum += (int64_t)x[j] * powers[4 * j * k / n % 4][part];
    return sum;
}

/* Lengths 2 and 4: every bin is its sum, and the inverse of the spectrum is n times the samples, with filled twiddles and with others. */
static void whole(void)
{
    for (int block = 0; block < BLOCKS; block++) {
        size_t n = block % 2 ? 2 : 4, width = (size_t)1 << random_below(3);
        struct planned p = planned(n);
        float samples[4];
        for (size_t j = 0; j < n; j++) samples[j] = random_whole();
        for (int back = 0; back < 2; back++) {
            spoil(output, N + 2);
            spoil(scratch, 6 * n + 8);
            for (size_t i = 0; i < p.stage + p.end; i++)
                (i < p.stage ? stage : end - p.stage)[i] = (float)random_below(3) - 1;
            if (random_below(2))
                check_at((back ? ladlespindle_fill_inverse : ladlespindle_fill_forward)(p.plan, width, stage, p.stage, end, p.end).number == 0,
                      "a filling", n, "accepted");
            size_t room = 6 * n + random_below(8);
            if (back) {
                ladlespindle_answer a =
                    ladlespindle_inverse(p.plan, width, input, n + 2, output, n, scratch, room, stage, p.stage, end, p.end);
                check_at(a.number == 0 && a.place == 0, "an inverse of whole numbers", n, "accepted");
                for (size_t j = 0; j < n; j++)
                    check_at((double)output[j] == (double)n * samples[j], "an inverse of whole numbers", n, "n times the sample");
            } else {
                ladlespindle_answer a =
                    ladlespindle_forward(p.plan, width, samples, n, output, n + 2, scratch, room, stage, p.stage, end, p.end);
                check_at(a.number == 0 && a.place == 0, "a spectrum of whole numbers", n, "accepted");
                for (size_t i = 0; i < n + 2; i++)
                    check_at((double)output[i] == (double)bin(samples, n, i / 2, i % 2), "a spectrum of whole numbers", n, "the sum");
                memcpy(input, output, (n + 2) * sizeof *input);
            }
        }
    }
}

/* ---- the largest numbers */

/* All positive, all negative, in turn, or at random. */
enum signs { POSITIVE, NEGATIVE, IN_TURN, RANDOM, SIGNS };
static void fill(float *words, size_t length, float size, enum signs signs)
{
    for (size_t i = 0; i < length; i++)
        words[i] = signs == POSITIVE || (signs == IN_TURN && i % 2) || (signs == RANDOM && random_below(2)) ? size : -size;
}

/* A direction at its largest numbers: what it writes is within 2^bits of a stage's growth. */
static void direction(struct planned p, size_t width, int back, enum signs numbers, enum signs twiddles)
{
    size_t n = p.plan.n, bits = (back ? 51 : 32) + 5 * p.plan.count, in = back ? n + 2 : n, out = back ? n : n + 2;
    const char *name = back ? "an inverse of the largest" : "a spectrum of the largest";
    fill(input, in, (float)power_of_two(back ? 48 : 32), numbers);
    fill(stage, p.stage, 1, twiddles);
    fill(end, p.end, 1, twiddles);
    spoil(output, out);
    spoil(scratch, 2 * n);
    ladlespindle_answer a = (back ? ladlespindle_inverse : ladlespindle_forward)(p.plan, width, input, in, output, out, scratch, 6 * n,
                                                                                stage, p.stage, end, p.end);
    check_at(a.number == 0 && a.place == 0, name, n, "accepted");
    check_at(within(output, out, power_of_two(back ? bits : bits + 3)), name, n, "every word of the output");
    check_at(within(scratch, back || p.plan.count > 0 ? 2 * n : n, power_of_two(bits)), name, n, "every word written in the scratch");
}

/* Every stage by itself: what it writes is at most 2^53. */
static void stages(struct planned p, size_t width, enum signs signs)
{
    size_t n = p.plan.n;
    for (size_t j = 0; j < p.plan.count; j++) {
        size_t r = p.plan.radices[j], own = j == 0 ? 0 : 2 * (p.plan.half / r) * (r - 1);
        fill(input, n, (float)power_of_two(48), signs);
        fill(stage, own, 1, signs);
        spoil(output, n);
        ladlespindle_answer a = ladlespindle_stage(p.plan, j, width, input, n, output, n, stage, own);
        check_at(a.number == 0 && a.place == 0, "a stage of the largest", n, "accepted");
        check_at(within(output, n, power_of_two(53)), "a stage of the largest", n, "every word of the output");
    }
}

/* The power of all bins: at most as many times 2^96 as there are words. */
static void power(size_t n, enum signs signs)
{
    fill(input, n + 2, (float)power_of_two(48), signs);
    ladlespindle_summed sum = ladlespindle_power(input, n + 2, 0, n / 2);
    check_at(sum.number == 0 && sum.place == 0, "a power of the largest", n, "accepted");
    check_at(within(&sum.power, 1, (double)(n + 2) * power_of_two(96)), "a power of the largest", n, "the sum");
}

static void largest(void)
{
    size_t lengths = 0;
    for (size_t n = 2; n <= N; n += 2) {
        uint8_t list[16];
        if (list_of(list, n) == 0) continue;
        struct planned p = planned(n);
        lengths++;
        for (enum signs numbers = POSITIVE; numbers < SIGNS; numbers++) {
            power(n, numbers);
            for (size_t width = 1; width <= 4; width *= 2) {
                stages(p, width, numbers);
                for (enum signs twiddles = POSITIVE; twiddles < SIGNS; twiddles++)
                    for (int back = 0; back < 2; back++) direction(p, width, back, numbers, twiddles);
            }
        }
    }
    check_at(lengths == 248, "lengths", 0, "their number");
}

int main(void)
{
    whole();
    largest();
    return ended("numbers");
}
