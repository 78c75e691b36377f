/* listed.c: a C host that runs the listed lists and sums, and compares what is answered. Exits 1 on a difference. */
#include "host.h"

static ladlespindle_record planned(const char *text)
{
    uint8_t list[16];
    return ladlespindle_plan(list, digits(list, text));
}

/* ---- lists */

/* A list that planning refuses with this number and place. */
static void refused(const char *text, uint32_t number, size_t place)
{
    uint8_t list[16];
    size_t length = digits(list, text);
    check(ladlespindle_refusal_number(list, length) == number, text, "number");
    check(ladlespindle_refusal_place(list, length) == place, text, "place");
    check(ladlespindle_plan(list, length).n == 0, text, "no plan");
}

/* A list that planning makes these radices, by merges with these letters. */
static void made(const char *text, const char *radices, const char *letters)
{
    uint8_t list[16], wanted[16], got[16] = {0};
    size_t length = digits(list, text), stages = digits(wanted, radices), merges = strlen(letters);
    ladlespindle_record plan = ladlespindle_plan(list, length);
    check(ladlespindle_refusal_number(list, length) == 0, text, "accepted");
    check(plan.count == stages && memcmp(plan.radices, wanted, stages) == 0, text, "half list");
    check(ladlespindle_merges(list, length) == merges, text, "count of merges");
    for (size_t i = 0; i < merges; i++) got[i] = ladlespindle_merge_letter(list, length, i);
    check(memcmp(got, letters, merges) == 0, text, "letters of the merges");
}

/* A list whose plan has this length, so many twiddles, and its result there. */
static void counted(const char *text, size_t n, size_t stage, size_t end, uint32_t result)
{
    uint8_t list[16];
    size_t length = digits(list, text);
    check(ladlespindle_n(list, length) == n, text, "n");
    check(ladlespindle_stage_twiddles(list, length) == stage, text, "stage twiddles");
    check(ladlespindle_end_twiddles(list, length) == end, text, "end twiddles");
    check(ladlespindle_result(list, length) == result, text, "the buffer with the result");
}

/* An in-list with this product, which is scaled by p. */
static void scaled(const char *text, size_t base, size_t p)
{
    uint8_t list[16];
    ladlespindle_scaling s = ladlespindle_scale(list, digits(list, text), NULL, 0);
    check(s.number == 0 && s.place == 0, text, "scaling is accepted");
    check(s.p == p, text, "p");
    check(s.in_product == p * base && s.out_product == p, text, "scaled products");
}

static void lists(void)
{
    check(ladlespindle_refusal_number(NULL, 0) == 1 && ladlespindle_refusal_place(NULL, 0) == 0, "NULL", "an empty list");
    refused("", 1, 0);
    refused("236", 2, 2);
    refused("35", 4, 0);
    refused("22222222222222", 3, 13);
    made("2222222222222", "8888", "BBBB");
    made("2", "", "");
    made("2222", "8", "B");
    made("4444", "288", "AC");
    made("83", "34", "");
    scaled("377", 147, 4);
    scaled("4337", 252, 4);
    scaled("884", 256, 2);
    scaled("888", 512, 1);
    scaled("2337", 126, 8);
    made("2588", "588", "");
    counted("2588", 640, 560, 159, 1);
    made("4377", "2377", "");
    counted("4377", 588, 700, 146, 0);
}

/* ---- sums in remainders */

/* A run on the samples 0, 1, 0 .. that is answered so, and what it leaves in data, where the result of these plans is. */
static void summed(const char *name, const char *list, size_t h, uint32_t m, uint32_t w, uint32_t number, const uint32_t *sums)
{
    uint32_t data[6] = {0, 1, 0, 0, 0, 0}, scratch[6] = {0};
    ladlespindle_record plan = planned(list);
    ladlespindle_ran ran = ladlespindle_remainder_run(plan, m, w, data, h, scratch, h);
    check(plan.half == h, name, "h");
    check(ran.number == number && ran.place == 0 && ran.buffer == 0, name, "answer");
    check(memcmp(data, sums, h * sizeof *sums) == 0, name, "cells");
}

static void remainders(void)
{
    summed("h 6, m 7, w 3", "322", 6, 7, 3, 0, (const uint32_t[]){1, 3, 2, 6, 4, 5});
    summed("h 4, m 7, w 3", "8", 4, 7, 3, 12, (const uint32_t[]){0, 1, 0, 0});
    summed("h 6, m 9, w 2", "322", 6, 9, 2, 0, (const uint32_t[]){1, 2, 4, 8, 7, 5});
}

/* ---- samples 1, 2, 3, 4 */

static void samples(void)
{
    static const float in[4] = {1, 2, 3, 4}, spectrum[6] = {10, 0, -2, 2, -2, 0}, again[4] = {4, 8, 12, 16};
    for (size_t width = 1; width <= 4; width *= 2) {
        float bins[6], back[4], scratch[24];
        ladlespindle_record plan = planned("4");
        ladlespindle_answer there = ladlespindle_forward(plan, width, in, 4, bins, 6, scratch, 24, NULL, 0, NULL, 0);
        check(there.number == 0 && there.place == 0, "samples 1, 2, 3, 4", "forward is accepted");
        check(memcmp(bins, spectrum, sizeof bins) == 0, "samples 1, 2, 3, 4", "bins");
        ladlespindle_answer here = ladlespindle_inverse(plan, width, bins, 6, back, 4, scratch, 24, NULL, 0, NULL, 0);
        check(here.number == 0 && here.place == 0, "samples 1, 2, 3, 4", "inverse is accepted");
        check(memcmp(back, again, sizeof back) == 0, "samples 1, 2, 3, 4", "samples back");
        ladlespindle_summed all = ladlespindle_power(bins, 6, 0, 2);
        check(all.number == 0 && all.place == 0 && all.power == 112, "samples 1, 2, 3, 4", "power of all bins");
    }
}

int main(void)
{
    lists();
    remainders();
    samples();
    return ended("listed");
}
