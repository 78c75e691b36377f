/* twiddles.c: a C host that compares turns with cosines worked out afresh, and filled twiddles with the turns, place by place.
 * Exits 1 on a difference. */
#include "host.h"

enum { PARTS = 6720, STAGE = 40000, EDGE = 8 };

/* ---- cosines, by their Taylor sum in 64 binary digits */

static long double cosine_below(long double angle)
{
    long double term = 1, sum = 0;
    for (int k = 0; k < 40; k += 2) {
        sum += term;
        term *= -angle * angle / ((k + 1) * (k + 2));
    }
    return sum;
}

/* The cosine of t / 6,720 of a circle; exact at whole quarters, where a sum would not be 0. */
static float cosine(unsigned t)
{
    const long double circle = 6.283185307179586476925286766559005768394L;
    t %= PARTS;
    if (t > PARTS / 2) t = PARTS - t;
    if (t == PARTS / 4) return 0;
    if (t == PARTS / 2) return -1;
    if (t > PARTS / 4) return (float)-cosine_below(circle * (PARTS / 2 - t) / PARTS);
    return (float)cosine_below(circle * t / PARTS);
}

/* -sin x is cos (x + a quarter). */
static float negated_sine(unsigned t)
{
    return cosine(t % PARTS + PARTS / 4);
}

static int is_turn(ladlespindle_turn_words turn, unsigned index)
{
    return turn.number == 0 && turn.place == 0 && bits(turn.re) == bits(cosine(index)) && bits(turn.im) == bits(negated_sine(index));
}

/* A number of parts is accepted exactly if it divides 6,720. */
static void parts(uint32_t l)
{
    ladlespindle_turn_words turn = ladlespindle_turn(l / 2, l);
    int taken = l > 0 && PARTS % l == 0;
    check((turn.number == 0) == taken, "a number of parts", "accepted exactly if it divides 6,720");
    if (taken) return;
    check(turn.number == LADLESPINDLE_NOT_HOUSED && turn.place == 0, "a number of parts", "refused");
    check(bits(turn.re) == 0 && bits(turn.im) == 0, "a number of parts", "no words on a refusal");
}

static void turns(void)
{
    static const uint32_t far[] = {6720, 6721, 1000000007, 2147483648u, 4294967294u, 4294967295u};
    for (uint32_t l = 1; l <= PARTS; l++) {
        if (PARTS % l) continue;
        for (uint32_t t = 0; t < l; t++) check(is_turn(ladlespindle_turn(t, l), t * (PARTS / l)), "a turn", "its words");
        for (size_t i = 0; i < sizeof far / sizeof *far; i++)
            check(is_turn(ladlespindle_turn(far[i], l), far[i] % l * (PARTS / l)), "a turn by more than a circle", "its words");
    }
    for (uint32_t l = 0; l < 8000; l++) parts(l);
    parts(4294967295u);
}

/* ---- filling */

/* Words between two edges that no call may write. All are NaNs at first, and where nothing is written they must stay so bit for bit: the
 * proved promise does not tell one NaN from another. */
struct words {
    float before[EDGE], at[STAGE], after[EDGE];
};

static void edge(struct words *w)
{
    memset(w, 0xff, sizeof *w);
}

static int kept(const struct words *w, size_t used)
{
    const unsigned char *byte = (const unsigned char *)w;
    size_t first = sizeof w->before, end = first + used * sizeof *w->at;
    for (size_t i = 0; i < sizeof *w; i++)
        if ((i < first || i >= end) && byte[i] != 0xff) return 0;
    return 1;
}

typedef ladlespindle_answer filler(ladlespindle_record, size_t, float *, size_t, float *, size_t);

/* Every word of a filling. */
static void filled(ladlespindle_record plan, size_t width, int inverse, filler *fill)
{
    static struct words stage, end;
    static char seen[STAGE];
    uint8_t list[16];
    size_t length = list_of(list, plan.n), twiddles = ladlespindle_stage_twiddles(list, length), ends = ladlespindle_end_twiddles(list, length);
    size_t start = 0, s = 1, wrong = 0, unseen = 0;
    edge(&stage), edge(&end);
    memset(seen, 0, sizeof seen);
    ladlespindle_answer answer = fill(plan, width, stage.at, 2 * twiddles, end.at, 2 * ends);
    check(answer.number == 0 && answer.place == 0, "a filling", "accepted");
    for (size_t j = 0; j < plan.count; j++) {
        size_t r = plan.radices[j], m = plan.half / r;
        for (size_t i = 0; j > 0 && i < m; i++)
            for (size_t k = 1; k < r; k++) {
                size_t at = start + standing(m, r, width, i, k);
                unsigned turn = (unsigned)(i % s * k * (PARTS / (s * r)));
                wrong += bits(stage.at[2 * at]) != bits(cosine(turn)) || bits(stage.at[2 * at + 1]) != bits(negated_sine(turn)) || seen[at];
                seen[at] = 1;
            }
        if (j > 0) start += m * (r - 1);
        s *= r;
    }
    for (size_t i = 0; i < twiddles; i++) unseen += !seen[i];
    check(start == twiddles && unseen == 0, "a filling", "each place is one twiddle's");
    check(wrong == 0, "a filling", "stage words");
    for (size_t k = 1; k <= ends; k++) {
        unsigned turn = (unsigned)(k * (PARTS / plan.n));
        float re = cosine(turn), im = negated_sine(turn);
        if (inverse) im = -im;
        else re *= 0.5f, im *= 0.5f;
        check(bits(end.at[2 * k - 2]) == bits(re) && bits(end.at[2 * k - 1]) == bits(im), "a filling", "end words");
    }
    check(ends == (plan.n % 4 ? plan.n / 4 : plan.n / 4 - 1), "a filling", "how many end twiddles");
    check(kept(&stage, 2 * twiddles) && kept(&end, 2 * ends), "a filling", "nothing else is written");
}

/* All lengths that divide 6,720, both directions, three widths. */
static void fillings(void)
{
    size_t lengths = 0;
    for (size_t n = 2; n <= PARTS; n += 2) {
        uint8_t list[16];
        if (PARTS % n) continue;
        ladlespindle_record plan = ladlespindle_plan(list, list_of(list, n));
        check(plan.n == n, "a length that divides 6,720", "is planned");
        for (size_t width = 1; width <= 4; width *= 2) {
            filled(plan, width, 0, ladlespindle_fill_forward);
            filled(plan, width, 1, ladlespindle_fill_inverse);
        }
        lengths++;
    }
    check(lengths == 48, "lengths that divide 6,720", "their number");
}

/* ---- refusals */

static void refused(const char *name, ladlespindle_record plan, size_t width, size_t stage_length, size_t end_length, uint32_t number, size_t at)
{
    static struct words stage, end;
    filler *both[] = {ladlespindle_fill_forward, ladlespindle_fill_inverse};
    for (int i = 0; i < 2; i++) {
        edge(&stage), edge(&end);
        ladlespindle_answer answer = both[i](plan, width, stage_length ? stage.at : NULL, stage_length, end_length ? end.at : NULL, end_length);
        check(answer.number == number, name, "number");
        check(answer.place == at, name, "place");
        check(kept(&stage, 0) && kept(&end, 0), name, "nothing is written");
    }
}

static void refusals(void)
{
    static const size_t lengths[] = {2, 4, 6, 12, 20, 30, 64, 210, 960, 6720}, foreign[] = {588, 640, 512, 882, 1280, 1536, 18};
    static const size_t widths[] = {0, 3, 5, 6, 8, SIZE_MAX};
    uint8_t list[16];
    for (size_t i = 0; i < sizeof lengths / sizeof *lengths; i++) {
        size_t length = list_of(list, lengths[i]), stage = 2 * ladlespindle_stage_twiddles(list, length), end = 2 * ladlespindle_end_twiddles(list, length);
        ladlespindle_record plan = ladlespindle_plan(list, length), other = plan;
        for (size_t width = 1; width <= 4; width *= 2) {
            refused("one word more for the stages", plan, width, stage + 1, end, LADLESPINDLE_LENGTH, 3);
            refused("one word more for the ends", plan, width, stage, end + 1, LADLESPINDLE_LENGTH, 4);
            refused("one word more for both", plan, width, stage + 1, end + 1, LADLESPINDLE_LENGTH, 3);
            if (stage) refused("one word less for the stages", plan, width, stage - 1, end, LADLESPINDLE_LENGTH, 3);
            if (stage) refused("no word for the stages", plan, width, 0, end, LADLESPINDLE_LENGTH, 3);
            if (end) refused("one word less for the ends", plan, width, stage, end - 1, LADLESPINDLE_LENGTH, 4);
            if (end) refused("no word for the ends", plan, width, stage, 0, LADLESPINDLE_LENGTH, 4);
        }
        for (size_t w = 0; w < sizeof widths / sizeof *widths; w++) refused("no width", plan, widths[w], stage + 1, end, LADLESPINDLE_WIDTH, 0);
        other.n++;
        refused("a false plan", other, 3, stage + 1, end, LADLESPINDLE_NOT_PLANNED, 0);
        other = plan, other.radices[12] = 2;
        refused("a false plan", other, 1, stage, end, LADLESPINDLE_NOT_PLANNED, 0);
    }
    for (size_t i = 0; i < sizeof foreign / sizeof *foreign; i++) {
        size_t length = list_of(list, foreign[i]), stage = 2 * ladlespindle_stage_twiddles(list, length), end = 2 * ladlespindle_end_twiddles(list, length);
        ladlespindle_record plan = ladlespindle_plan(list, length);
        check(plan.n == foreign[i], "a length that does not divide 6,720", "is planned");
        refused("a length that does not divide 6,720", plan, 1, stage, end, LADLESPINDLE_NOT_HOUSED, 0);
        refused("a length that does not divide 6,720", plan, 4, stage + 1, 0, LADLESPINDLE_NOT_HOUSED, 0);
        refused("a length that does not divide 6,720", plan, 3, stage, end, LADLESPINDLE_WIDTH, 0);
    }
}

int main(void)
{
    turns();
    fillings();
    refusals();
    return ended("twiddles");
}
