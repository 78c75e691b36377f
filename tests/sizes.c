/* sizes.c: a C host that compares the sizes of ladlespindle_sizes.h with what the calls answer, at every length. Exits 1 on a difference. */
#include "host.h"

/* Every length that is planned. */
#define LENGTHS(X)                                                                                                                       \
    X(2) X(4) X(6) X(8) X(10) X(12) X(14) X(16) X(18) X(20) X(24) X(28) X(30) X(32) X(36) X(40) X(42) X(48) X(50) X(54) X(56) X(60)      \
    X(64) X(70) X(72) X(80) X(84) X(90) X(96) X(98) X(100) X(108) X(112) X(120) X(126) X(128) X(140) X(144) X(150) X(160) X(162) X(168)  \
    X(180) X(192) X(196) X(200) X(210) X(216) X(224) X(240) X(250) X(252) X(256) X(270) X(280) X(288) X(294) X(300) X(320) X(324) X(336) \
    X(350) X(360) X(378) X(384) X(392) X(400) X(420) X(432) X(448) X(450) X(480) X(486) X(490) X(500) X(504) X(512) X(540) X(560) X(576) \
    X(588) X(600) X(630) X(640) X(648) X(672) X(686) X(700) X(720) X(750) X(756) X(768) X(784) X(800) X(810) X(840) X(864) X(882) X(896) \
    X(900) X(960) X(972) X(980) X(1000) X(1008) X(1024) X(1050) X(1080) X(1120) X(1134) X(1152) X(1176) X(1200) X(1250) X(1260) X(1280)  \
    X(1296) X(1344) X(1350) X(1372) X(1400) X(1440) X(1458) X(1470) X(1500) X(1512) X(1536) X(1568) X(1600) X(1620) X(1680) X(1728)      \
    X(1750) X(1764) X(1792) X(1800) X(1890) X(1920) X(1944) X(1960) X(2000) X(2016) X(2048) X(2058) X(2100) X(2160) X(2240) X(2250)      \
    X(2268) X(2304) X(2352) X(2400) X(2430) X(2450) X(2500) X(2520) X(2560) X(2592) X(2646) X(2688) X(2700) X(2744) X(2800) X(2880)      \
    X(2916) X(2940) X(3000) X(3024) X(3072) X(3136) X(3150) X(3200) X(3240) X(3360) X(3402) X(3430) X(3456) X(3500) X(3528) X(3584)      \
    X(3600) X(3750) X(3780) X(3840) X(3888) X(3920) X(4000) X(4032) X(4050) X(4096) X(4116) X(4200) X(4320) X(4374) X(4410) X(4480)      \
    X(4500) X(4536) X(4608) X(4704) X(4800) X(4802) X(4860) X(4900) X(5000) X(5040) X(5120) X(5184) X(5250) X(5292) X(5376) X(5400)      \
    X(5488) X(5600) X(5670) X(5760) X(5832) X(5880) X(6000) X(6048) X(6144) X(6174) X(6250) X(6272) X(6300) X(6400) X(6480) X(6720)      \
    X(6750) X(6804) X(6860) X(6912) X(7000) X(7056) X(7168) X(7200) X(7290) X(7350) X(7500) X(7560) X(7680) X(7776) X(7840) X(7938)      \
    X(8000) X(8064) X(8100) X(8192)

/* Arrays of every length, which only constants make, and the same sizes in a table. */
#define ARRAYS(n) \
    float spectrum_##n[LADLESPINDLE_SPECTRUM_WORDS(n)], scratch_##n[LADLESPINDLE_SCRATCH_WORDS(n)]; \
    float stage_##n[LADLESPINDLE_STAGE_ROOM(n)], end_##n[LADLESPINDLE_END_ROOM(n)];
#define ROW(n) \
    {n, LADLESPINDLE_SPECTRUM_WORDS(n), LADLESPINDLE_SCRATCH_WORDS(n), LADLESPINDLE_STAGE_WORDS(n), LADLESPINDLE_END_WORDS(n), \
     sizeof(((struct arrays *)0)->stage_##n) / sizeof(float), sizeof(((struct arrays *)0)->end_##n) / sizeof(float)},
struct arrays {
    LENGTHS(ARRAYS)
};
static const struct row {
    size_t n, spectrum, scratch, stage, end, stage_room, end_room;
} rows[] = {LENGTHS(ROW)};

/* The sizes of a length are those that its list has, and those that forward asks for: with one number of scratch less it refuses. */
static void sizes(struct row row)
{
    static float input[8192], spectrum[LADLESPINDLE_SPECTRUM_WORDS_MAX], scratch[LADLESPINDLE_SCRATCH_WORDS_MAX];
    static float stage[LADLESPINDLE_STAGE_WORDS_MAX], end[LADLESPINDLE_END_WORDS_MAX];
    uint8_t list[16];
    size_t length = list_of(list, row.n);
    ladlespindle_record plan = ladlespindle_plan(list, length);
    check_at(row.stage == 2 * ladlespindle_stage_twiddles(list, length), "stage words", row.n, "twice the stage twiddles");
    check_at(row.end == 2 * ladlespindle_end_twiddles(list, length), "end words", row.n, "twice the end twiddles");
    check_at(row.spectrum == 2 * (plan.half + 1) && row.scratch == 6 * plan.n, "spectrum and scratch", row.n, "what the header says");
    check_at(row.stage_room == (row.stage ? row.stage : 1) && row.end_room == (row.end ? row.end : 1), "room", row.n, "1 where there are no words");
    check_at(ladlespindle_forward(plan, 1, input, row.n, spectrum, row.spectrum, scratch, row.scratch, stage, row.stage, end, row.end).number == 0,
             "all sizes", row.n, "accepted");
    check_at(ladlespindle_forward(plan, 1, input, row.n, spectrum, row.spectrum, scratch, row.scratch - 1, stage, row.stage, end, row.end).place == 2,
             "one number of scratch less", row.n, "refused");
}

/* The rows are exactly the lengths that planning accepts. */
static void lengths(void)
{
    size_t row = 0, count = sizeof rows / sizeof *rows;
    for (size_t n = 0; n <= 10000; n++) {
        uint8_t list[16];
        int planned = n > 0 && ladlespindle_plan(list, list_of(list, n)).n == n, listed = row < count && rows[row].n == n;
        check_at(planned == listed, "a length", n, "in the table exactly if it is planned");
        row += listed;
    }
    check(row == count && count == 248, "lengths", "their number");
}

/* The largest of each size over all lengths. */
static void largest(void)
{
    struct row most = {0};
    for (size_t i = 0; i < sizeof rows / sizeof *rows; i++) {
        if (rows[i].spectrum > most.spectrum) most.spectrum = rows[i].spectrum;
        if (rows[i].scratch > most.scratch) most.scratch = rows[i].scratch;
        if (rows[i].stage > most.stage) most.stage = rows[i].stage;
        if (rows[i].end > most.end) most.end = rows[i].end;
    }
    check(most.spectrum == LADLESPINDLE_SPECTRUM_WORDS_MAX && most.scratch == LADLESPINDLE_SCRATCH_WORDS_MAX, "spectrum and scratch", "the largest");
    check(most.stage == LADLESPINDLE_STAGE_WORDS_MAX && most.end == LADLESPINDLE_END_WORDS_MAX, "stage and end words", "the largest");
}

int main(void)
{
    lengths();
    for (size_t i = 0; i < sizeof rows / sizeof *rows; i++) sizes(rows[i]);
    largest();
    return ended("sizes");
}
