/* planning.c: a C host that calls every planning function and compares what they answer. Exits 1 on a difference. */
#include "host.h"

/* An array of 13 holds these bytes and then 0s. */
static int holds(const uint8_t *array, const uint8_t *list, size_t length)
{
    for (size_t i = 0; i < 13; i++)
        if (array[i] != (i < length ? list[i] : 0)) return 0;
    return 1;
}

/* The same record. */
static int same(ladlespindle_record a, ladlespindle_record b)
{
    return a.n == b.n && a.half == b.half && a.count == b.count && holds(a.radices, b.radices, 13);
}

/* What a list is to be planned to. */
struct plan {
    const char *list, *radices, *letters;
    size_t n, stage, end;
    uint32_t result;
};

/* Every function's answer for an accepted list. */
static void accepted(const char *name, const uint8_t *list, size_t length, struct plan want)
{
    uint8_t radices[13];
    size_t stages = digits(radices, want.radices), merges = strlen(want.letters);
    ladlespindle_record plan = ladlespindle_plan(list, length);
    ladlespindle_planned planned = ladlespindle_plan_list(list, length);
    check(ladlespindle_refusal_number(list, length) == 0, name, "number");
    check(ladlespindle_refusal_place(list, length) == 0, name, "place");
    check(planned.number == 0 && planned.place == 0 && same(planned.plan, plan), name, "all in one answer");
    check(plan.n == want.n && plan.half == want.n / 2 && plan.count == stages, name, "numbers of the plan");
    check(holds(plan.radices, radices, stages), name, "radices of the plan");
    check(ladlespindle_n(list, length) == want.n, name, "n");
    check(ladlespindle_half(list, length) == want.n / 2, name, "half");
    check(ladlespindle_stages(list, length) == stages, name, "stages");
    check(ladlespindle_merges(list, length) == merges, name, "merges");
    for (size_t i = 0; i < 20; i++) {
        check(ladlespindle_radix(list, length, i) == (i < stages ? radices[i] : 0), name, "radix");
        check(ladlespindle_merge_letter(list, length, i) == (i < merges ? (uint8_t)want.letters[i] : 0), name, "letter");
    }
    check(ladlespindle_radix(list, length, SIZE_MAX) == 0, name, "radix of the largest number");
    check(ladlespindle_merge_letter(list, length, SIZE_MAX) == 0, name, "letter of the largest number");
    check(ladlespindle_stage_twiddles(list, length) == want.stage, name, "stage twiddles");
    check(ladlespindle_end_twiddles(list, length) == want.end, name, "end twiddles");
    check(ladlespindle_result(list, length) == want.result, name, "result");
    check(ladlespindle_accepts(plan) == 1, name, "the plan is accepted");
}

/* Every function's answer for a refused list. */
static void refused(const char *name, const uint8_t *list, size_t length, uint32_t number, size_t place)
{
    ladlespindle_record none = {0};
    check(ladlespindle_refusal_number(list, length) == number, name, "number");
    check(ladlespindle_refusal_place(list, length) == place, name, "place");
    check(same(ladlespindle_plan(list, length), none), name, "no plan");
    ladlespindle_planned planned = ladlespindle_plan_list(list, length);
    check(planned.number == number && planned.place == place && same(planned.plan, none), name, "all in one answer");
    check(ladlespindle_n(list, length) == 0, name, "no n");
    check(ladlespindle_half(list, length) == 0, name, "no half");
    check(ladlespindle_stages(list, length) == 0, name, "no stages");
    check(ladlespindle_merges(list, length) == 0, name, "no merges");
    for (size_t i = 0; i < 14; i++) {
        check(ladlespindle_radix(list, length, i) == 0, name, "no radix");
        check(ladlespindle_merge_letter(list, length, i) == 0, name, "no letter");
    }
    check(ladlespindle_stage_twiddles(list, length) == 0, name, "no stage twiddles");
    check(ladlespindle_end_twiddles(list, length) == 0, name, "no end twiddles");
    check(ladlespindle_result(list, length) == 0, name, "no result");
}

/* Lists that are planned. */
static void plans(void)
{
    static const struct plan table[] = {
        {"2", "", "", 2, 0, 0, 0},
        {"4", "2", "", 4, 0, 0, 0},
        {"8", "4", "", 8, 0, 1, 0},
        {"222", "4", "D", 8, 0, 1, 0},
        {"322", "23", "", 12, 4, 2, 0},
        {"223", "23", "", 12, 4, 2, 0},
        {"2222", "8", "B", 16, 0, 3, 0},
        {"83", "34", "", 24, 9, 5, 0},
        {"84", "28", "C", 32, 14, 7, 0},
        {"4444", "288", "AC", 256, 224, 63, 1},
        {"4377", "2377", "", 588, 700, 146, 0},
        {"2588", "588", "", 640, 560, 159, 1},
        {"4333333", "2333333", "", 2916, 5832, 728, 1},
        {"2222222222222", "8888", "BBBB", 8192, 10752, 2047, 0},
    };
    for (size_t i = 0; i < sizeof table / sizeof *table; i++) {
        uint8_t list[13], lent[13];
        size_t length = digits(list, table[i].list);
        memcpy(lent, list, length);
        accepted(table[i].list, lent, length, table[i]);
        check(memcmp(lent, list, length) == 0, table[i].list, "the list is as it was lent");
    }
}

/* Lists that are refused. */
static void refusals(void)
{
    static const struct {
        const char *list;
        uint32_t number;
        size_t place;
    } table[] = {
        {"", LADLESPINDLE_EMPTY, 0},
        {"236", LADLESPINDLE_NO_RADIX, 2},
        {"616", LADLESPINDLE_NO_RADIX, 0},
        {"351", LADLESPINDLE_NO_RADIX, 2},
        {"888889", LADLESPINDLE_NO_RADIX, 5},
        {"22222222222222", LADLESPINDLE_TOO_LARGE, 13},
        {"88888", LADLESPINDLE_TOO_LARGE, 4},
        {"77777", LADLESPINDLE_TOO_LARGE, 4},
        {"33333333333", LADLESPINDLE_TOO_LARGE, 8},
        {"88882222", LADLESPINDLE_TOO_LARGE, 5},
        {"35", LADLESPINDLE_ODD, 0},
        {"7", LADLESPINDLE_ODD, 0},
    };
    for (size_t i = 0; i < sizeof table / sizeof *table; i++) {
        uint8_t list[16];
        size_t length = digits(list, table[i].list);
        refused(table[i].list, list, length, table[i].number, table[i].place);
    }
    refused("NULL", NULL, 0, LADLESPINDLE_EMPTY, 0);
}

/* Every byte, alone and after a 2. */
static void bytes(void)
{
    for (unsigned byte = 0; byte < 256; byte++) {
        uint8_t list[2] = {2, (uint8_t)byte};
        int radix = byte != 0 && byte < 9 && memchr("\2\3\4\5\7\10", (int)byte, 6) != NULL;
        check((ladlespindle_refusal_number(list, 2) == 0) == radix, "a byte after a 2", "taken exactly if it is a radix");
        if (!radix) refused("a byte after a 2", list, 2, LADLESPINDLE_NO_RADIX, 1);
        if (!radix) refused("a single byte", list + 1, 1, LADLESPINDLE_NO_RADIX, 0);
        if (radix && byte % 2 == 1) refused("a single odd radix", list + 1, 1, LADLESPINDLE_ODD, 0);
    }
}

/* Lists of 10,000 bytes. */
static void long_lists(void)
{
    static uint8_t list[10000];
    size_t length = sizeof list;
    static const struct {
        uint8_t byte;
        uint32_t number;
        size_t place;
    } table[] = {
        {2, LADLESPINDLE_TOO_LARGE, 13}, {3, LADLESPINDLE_TOO_LARGE, 8}, {4, LADLESPINDLE_TOO_LARGE, 6},
        {5, LADLESPINDLE_TOO_LARGE, 5},  {7, LADLESPINDLE_TOO_LARGE, 4}, {8, LADLESPINDLE_TOO_LARGE, 4},
        {0, LADLESPINDLE_NO_RADIX, 0},   {1, LADLESPINDLE_NO_RADIX, 0},  {9, LADLESPINDLE_NO_RADIX, 0},
        {50, LADLESPINDLE_NO_RADIX, 0},  {255, LADLESPINDLE_NO_RADIX, 0},
    };
    for (size_t i = 0; i < sizeof table / sizeof *table; i++) {
        memset(list, table[i].byte, length);
        refused("10,000 of one byte", list, length, table[i].number, table[i].place);
    }
    /* a byte that is no radix is found before the product is looked at */
    memset(list, 2, length);
    list[9999] = 9;
    refused("10,000 bytes, the last bad", list, length, LADLESPINDLE_NO_RADIX, 9999);
    list[5000] = 255;
    refused("10,000 bytes, two bad", list, length, LADLESPINDLE_NO_RADIX, 5000);
}

/* The list of n's prime factors, or 0 where a factor is no radix. */
static size_t factored(uint8_t *list, size_t n)
{
    size_t length = 0;
    for (uint8_t prime = 2; prime < 8; prime++)
        for (; n % prime == 0; n /= prime) list[length++] = prime;
    return n == 1 ? length : 0;
}

/* A plan's own numbers, worked out afresh from its radices. */
static void counted(const uint8_t *list, size_t length, size_t n)
{
    ladlespindle_record plan = ladlespindle_plan(list, length);
    size_t product = 1, twiddles = 0, small = 0, ends = 0;
    int ascending = 1;
    for (size_t i = 0; i < plan.count; i++) {
        size_t radix = plan.radices[i];
        product *= radix;
        if (i > 0) twiddles += n / 2 / radix * (radix - 1);
        if (i > 0 && plan.radices[i - 1] > radix) ascending = 0;
        if (radix == 2 || radix == 4) small++;
    }
    for (size_t k = 1; 4 * k < n; k++) ends++;
    check(plan.n == n && plan.half == n / 2 && product == n / 2, "every length", "numbers of the plan");
    check(ascending && small <= 1, "every length", "radices in order, at most one 2 or 4");
    check(ladlespindle_stage_twiddles(list, length) == twiddles, "every length", "stage twiddles");
    check(ladlespindle_end_twiddles(list, length) == ends, "every length", "end twiddles");
    check(ladlespindle_result(list, length) == (plan.count > 1 && plan.count % 2 == 1), "every length", "result");
    check(ladlespindle_accepts(plan) == 1, "every length", "the plan is accepted");
}

/* Every length that can be planned, 248 of them. */
static void lengths(void)
{
    size_t plannable = 0;
    for (size_t n = 2; n <= 8192; n++) {
        uint8_t list[16];
        size_t length = factored(list, n);
        if (length > 0 && n % 2 == 1) refused("an odd length", list, length, LADLESPINDLE_ODD, 0);
        if (length == 0 || n % 2 == 1) continue;
        plannable++;
        counted(list, length, n);
    }
    check(plannable == 248, "every length", "248 of them");
}

/* A record with one number changed is not accepted. */
static void changed(ladlespindle_record good)
{
    static const size_t numbers[] = {0, 1, 2, 3, 4, 7, 8, 12, 13, 14, 255, 256, 4096, 8191, 8192, 8193, 16384,
                                     (size_t)1 << 32, (size_t)1 << 63, SIZE_MAX / 2, SIZE_MAX - 1, SIZE_MAX};
    for (size_t i = 0; i < sizeof numbers / sizeof *numbers; i++) {
        ladlespindle_record n = good, half = good, count = good;
        n.n = numbers[i];
        half.half = numbers[i];
        count.count = numbers[i];
        check(ladlespindle_accepts(n) == (numbers[i] == good.n), "a false record", "n");
        check(ladlespindle_accepts(half) == (numbers[i] == good.half), "a false record", "half");
        check(ladlespindle_accepts(count) == (numbers[i] == good.count), "a false record", "count");
    }
    for (size_t i = 0; i < 13; i++)
        for (unsigned byte = 0; byte < 256; byte++) {
            ladlespindle_record radix = good;
            radix.radices[i] = (uint8_t)byte;
            check(ladlespindle_accepts(radix) == (byte == good.radices[i]), "a false record", "radix");
        }
}

/* Records that planning does not give. */
static void false_records(void)
{
    static const ladlespindle_record table[] = {
        {0, 0, 0, {0}},
        {1, 0, 0, {0}},
        {0, (size_t)1 << 63, 0, {0}},
        {30, 15, 2, {5, 3}},
        {16, 8, 3, {2, 2, 2}},
        {16, 8, 2, {2, 4}},
        {32, 16, 2, {4, 4}},
        {18, 9, 1, {9}},
        {12, 6, 1, {6}},
        {16384, 8192, 5, {2, 8, 8, 8, 8}},
        {2, 1, 1, {1}},
        {SIZE_MAX, SIZE_MAX, SIZE_MAX, {255, 255, 255, 255, 255, 255, 255, 255, 255, 255, 255, 255, 255}},
        {SIZE_MAX - 1, SIZE_MAX / 2, 13, {8, 8, 8, 8, 8, 8, 8, 8, 8, 8, 8, 8, 8}},
    };
    static const char *const good[] = {"2", "4", "223", "2588", "4377", "4444", "4333333", "2222222222222"};
    for (size_t i = 0; i < sizeof table / sizeof *table; i++)
        check(ladlespindle_accepts(table[i]) == 0, "a false record", "as a whole");
    for (size_t i = 0; i < sizeof good / sizeof *good; i++) {
        uint8_t list[13];
        changed(ladlespindle_plan(list, digits(list, good[i])));
    }
}

/* Two lists that are scaled to two others by p. */
static void scaled(const char *in, const char *out, size_t p, const char *grown_in, const char *grown_out)
{
    uint8_t ins[13], outs[13], more_in[13], more_out[13];
    size_t in_length = digits(ins, in), out_length = digits(outs, out), in_product = 1, out_product = 1;
    size_t in_count = digits(more_in, grown_in), out_count = digits(more_out, grown_out);
    ladlespindle_scaling s = ladlespindle_scale(ins, in_length, outs, out_length);
    for (size_t i = 0; i < in_count; i++) in_product *= more_in[i];
    for (size_t i = 0; i < out_count; i++) out_product *= more_out[i];
    check(s.number == 0 && s.place == 0, in, "scaling is accepted");
    check(s.p == p, in, "p");
    check(s.in_product == in_product && s.out_product == out_product, in, "scaled products");
    check(s.in_list.count == in_count && holds(s.in_list.entries, more_in, in_count), in, "scaled in-list");
    check(s.out_list.count == out_count && holds(s.out_list.entries, more_out, out_count), in, "scaled out-list");
}

/* Two lists that scaling refuses. */
static void unscaled(const uint8_t *in, size_t in_length, const uint8_t *out, size_t out_length, uint32_t number, size_t place)
{
    ladlespindle_scaling s = ladlespindle_scale(in, in_length, out, out_length);
    int none = s.in_list.count == 0 && holds(s.in_list.entries, NULL, 0) && s.out_list.count == 0 && holds(s.out_list.entries, NULL, 0);
    check(s.number == number, "scaling refused", "number");
    check(s.place == place, "scaling refused", "place");
    check(s.p == 0 && s.in_product == 0 && s.out_product == 0 && none, "scaling refused", "every other number 0");
}

/* Scaling: listed bases, the edges, and empty lists. */
static void scalings(void)
{
    ladlespindle_scaling both = ladlespindle_scale(NULL, 0, NULL, 0);
    scaled("377", "485", 4, "3774", "4854");
    scaled("4337", "485", 4, "43374", "4854");
    scaled("884", "2", 2, "8842", "22");
    scaled("888", "", 1, "888", "");
    scaled("2337", "5", 8, "23378", "58");
    scaled("", "", 512, "888", "888");
    scaled("", "44", 512, "888", "44888");
    scaled("2", "48", 256, "2884", "48884");
    scaled("4", "88", 128, "4882", "88882");
    scaled("333333", "35", 1, "333333", "35");
    scaled("2222222222222", "2222222222222", 1, "2222222222222", "2222222222222");
    check(both.number == 0 && both.p == 512 && both.in_product == 512 && both.out_list.count == 3, "NULL", "scaling");
}

/* Scaling's refusals in their order, with places that run on. */
static void scaling_refusals(void)
{
    static const struct {
        const char *in, *out;
        uint32_t number;
        size_t place;
    } table[] = {
        {"236", "9", LADLESPINDLE_NO_RADIX, 2},
        {"888889", "", LADLESPINDLE_NO_RADIX, 5},
        {"22222222222222", "9", LADLESPINDLE_TOO_LARGE, 13},
        {"35", "29", LADLESPINDLE_NO_RADIX, 3},
        {"2", "888889", LADLESPINDLE_NO_RADIX, 6},
        {"2", "88888", LADLESPINDLE_TOO_LARGE, 5},
        {"8888", "77777", LADLESPINDLE_TOO_LARGE, 8},
        {"", "22222", LADLESPINDLE_TOO_LARGE, 5},
        {"", "8882", LADLESPINDLE_TOO_LARGE, 4},
        {"377", "8882222", LADLESPINDLE_TOO_LARGE, 10},
        {"", "0", LADLESPINDLE_NO_RADIX, 0},
    };
    static uint8_t list[10000];
    for (size_t i = 0; i < sizeof table / sizeof *table; i++) {
        uint8_t in[16], out[16];
        size_t in_length = digits(in, table[i].in), out_length = digits(out, table[i].out);
        unscaled(in, in_length, out, out_length, table[i].number, table[i].place);
    }
    memset(list, 2, sizeof list);
    unscaled(list, sizeof list, NULL, 0, LADLESPINDLE_TOO_LARGE, 13);
    unscaled(list, 1, list, sizeof list, LADLESPINDLE_TOO_LARGE, 14);
    unscaled(NULL, 0, list, sizeof list, LADLESPINDLE_TOO_LARGE, 13);
    list[9999] = 255;
    unscaled(list, sizeof list, list, 1, LADLESPINDLE_NO_RADIX, 9999);
    unscaled(list, 13, list, sizeof list, LADLESPINDLE_NO_RADIX, 10012);
}

int main(void)
{
    plans();
    refusals();
    bytes();
    long_lists();
    lengths();
    false_records();
    scalings();
    scaling_refusals();
    return ended("planning");
}
