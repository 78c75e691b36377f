/* hive.c: a C host that opens hives in every way that may go wrong and looks for one that then reads quiet when the bees fan: tones of
 * twice the threshold's power, at every bin of the band and between them, at 16 phases. Prints what became of wrong words, and exits 1 if a
 * tone is missed or an answer is not as stated. */
#include "host.h"

/* The library's interface number as this host sees it. */
static uint32_t raised_by;
static uint32_t linked_interface(void) { return ladlespindle_interface() + raised_by; }
#define ladlespindle_interface linked_interface
#include "../examples/words_588.h"
#include "../examples/words_640.h"
#include "ladlespindle_hive.h"

enum {
    PARTS = 6720,
    LONGEST = 6720,
    PHASES = 16,
    EDGE = 8,
    ROOM = 8 * LONGEST + 2 + LADLESPINDLE_STAGE_WORDS_MAX + LADLESPINDLE_END_WORDS_MAX
};

/* The amplitude of a tone of twice the power of one of 1/32. */
static const double twice = 1.4142135623730951 / 32;

static float room[ROOM + EDGE], samples[LONGEST + 1], cosines[2 * PARTS];
static ladlespindle_hive hive = LADLESPINDLE_HIVE_INIT;

/* ---- sounds */

/* Two periods of a cosine. */
static void make_cosines(void)
{
    for (uint32_t t = 0; t < 2 * PARTS; t++) cosines[t] = ladlespindle_turn(t, PARTS).re;
}

static void silence(size_t n) { memset(samples, 0, n * sizeof *samples); }

/* Adds a tone of so many half periods in n samples, so many sixteenths of a period along. At the bins 0 and half, which get twice the
 * number of any other, it has half the amplitude and no phase. */
static void add_tone(size_t n, size_t halves, size_t phase, double amplitude)
{
    int end = halves % n == 0;
    size_t ahead = end ? 0 : phase * PARTS / PHASES, turned = 0;
    for (size_t j = 0; j < n; j++, turned += halves) {
        if (turned >= 2 * n) turned -= 2 * n;
        samples[j] += (float)((end ? amplitude / 2 : amplitude) * cosines[turned * PARTS / (2 * n) + ahead]);
    }
}

/* Adds mains of 50 Hz, as bins, with two harmonics, and an offset. */
static void add_hum(size_t n, size_t rate, double amplitude, double offset)
{
    for (size_t k = 1; k <= 3; k++) add_tone(n, 2 * k * 50 * n / rate, k, amplitude);
    for (size_t j = 0; j < n; j++) samples[j] += (float)offset;
}

/* Whether what is in the samples may be heated to. */
static int is_missed(size_t n)
{
    ladlespindle_heard heard = ladlespindle_hive_hear(&hive, samples, n);
    return heard.decision != LADLESPINDLE_FANNING || ladlespindle_may_heat(heard);
}

/* How many of the tones from bin lo to bin hi, bins and halves between them, bare and on an offset, may be heated to. */
static size_t unbraked(size_t n, size_t lo, size_t hi)
{
    static const float offsets[] = {0.125f, -0.125f, 0.5f, -0.5f};
    size_t missed = 0;
    for (size_t halves = 2 * lo; halves <= 2 * hi; halves++)
        for (size_t phase = 0; phase < PHASES; phase++) {
            silence(n);
            add_tone(n, halves, phase, twice);
            missed += is_missed(n);
            for (size_t i = 0; i < n; i++) samples[i] += offsets[phase % 4];
            missed += is_missed(n);
        }
    return missed;
}

/* ---- answers */

static int is(ladlespindle_opened opened, uint32_t outcome, uint32_t number, size_t place)
{
    return opened.outcome == outcome && opened.number == number && opened.place == place;
}

static int brakes(ladlespindle_heard heard, uint32_t number, size_t place)
{
    return heard.number == number && heard.place == place && heard.decision == LADLESPINDLE_FANNING && !ladlespindle_may_heat(heard);
}

static int is_quiet(ladlespindle_heard heard)
{
    return heard.number == 0 && heard.place == 0 && heard.decision == LADLESPINDLE_QUIET && ladlespindle_may_heat(heard);
}

/* Only a decision that is quiet, of a call that is accepted, is leave to heat. */
static void leave(void)
{
    for (uint32_t number = 0; number < 20; number++)
        for (uint32_t decision = 0; decision < 4; decision++) {
            ladlespindle_heard heard = {number, 0, 0, decision};
            check(ladlespindle_may_heat(heard) == (number == 0 && decision == 1), "leave to heat", "on quiet alone");
        }
}

/* The threshold of tones of 1/32. */
static float threshold_of(size_t n) { return (float)n / 64 * ((float)n / 64); }

/* A hive that is closed hears nothing, whatever it is lent, and is all zeros. */
static void closed(const char *name)
{
    static const ladlespindle_hive zeros = LADLESPINDLE_HIVE_INIT;
    static int16_t small[960];
    check(memcmp(&hive, &zeros, sizeof hive) == 0, name, "the hive is all zeros");
    silence(960);
    check(brakes(ladlespindle_hive_hear(&hive, samples, 960), 5, 0), name, "silence is refused");
    check(brakes(ladlespindle_hive_hear(&hive, NULL, 0), 5, 0), name, "nothing is refused");
    check(brakes(ladlespindle_hive_hear16(&hive, small, 960), 5, 0), name, "silence of 16 bits is refused");
    check(brakes(ladlespindle_hive_hear16(&hive, NULL, 0), 5, 0), name, "nothing of 16 bits is refused");
    check(unbraked(960, 15, 15) == 0 && unbraked(640, 10, 10) == 0, name, "tones brake");
}

/* The hive of the examples. */
static ladlespindle_opened open_960(void)
{
    return ladlespindle_hive_open(&hive, 960, 16000, 200, 300, threshold_of(960), room, LADLESPINDLE_HIVE_ROOM(960));
}

/* ---- a hive that is open */

static void decisions(void)
{
    static int16_t small[961];
    const float mark = 0.375f;
    check(is(open_960(), LADLESPINDLE_HIVE_OPEN, 0, 0) && hive.lo == 12 && hive.hi == 18, "960", "opens with the bins 12 to 18");
    check(unbraked(960, 12, 18) == 0, "960", "tones brake");
    silence(961);
    check(is_quiet(ladlespindle_hive_hear(&hive, samples, 960)), "silence", "quiet");
    check(is_quiet(ladlespindle_hive_hear16(&hive, small, 960)), "silence of 16 bits", "quiet");
    check(brakes(ladlespindle_hive_hear(&hive, samples, 959), 8, 0), "a short block", "refused");
    check(brakes(ladlespindle_hive_hear(&hive, samples, 961), 8, 0), "a long block", "refused");
    hive.block[0] = mark;
    check(brakes(ladlespindle_hive_hear16(&hive, small, 959), 8, 0) && hive.block[0] == mark, "a short block of 16 bits",
          "refused, nothing kept");
    check(brakes(ladlespindle_hive_hear16(&hive, small, 961), 8, 0), "a long block of 16 bits", "refused");
    check(brakes(ladlespindle_hive_hear(&hive, NULL, 0), 8, 0) && brakes(ladlespindle_hive_hear(&hive, NULL, 960), 8, 0), "no block",
          "refused");
    check(brakes(ladlespindle_hive_hear16(&hive, NULL, 960), 8, 0), "no block of 16 bits", "refused");
    check(brakes(ladlespindle_hive_hear(NULL, samples, 960), 5, 0) && brakes(ladlespindle_hive_hear16(NULL, small, 960), 5, 0), "no hive",
          "refused");
    samples[700] = of_bits(0x7fc00000);
    check(brakes(ladlespindle_hive_hear(&hive, samples, 960), 9, 700), "a sample that is a NaN", "refused");
    silence(960);
    add_hum(960, 16000, 0.25, 1);
    check(is_quiet(ladlespindle_hive_hear(&hive, samples, 960)), "hum and an offset", "quiet");
    for (size_t halves = 24; halves <= 36; halves++)
        for (size_t phase = 0; phase < PHASES; phase++) {
            silence(960);
            add_hum(960, 16000, 0.25, 1);
            add_tone(960, halves, phase, twice);
            check(brakes(ladlespindle_hive_hear(&hive, samples, 960), 0, 0), "a tone under hum and an offset", "fanning");
            silence(960);
            add_tone(960, halves, phase, twice / 2);
            check(is_quiet(ladlespindle_hive_hear(&hive, samples, 960)), "a tone of half the threshold's power", "quiet");
        }
}

/* A hive whose words change after it was opened refuses until they are as they were; so does one that nobody made zeros of. */
static void spoilt(void)
{
    float *words = room + LADLESPINDLE_HIVE_ROM_ROOM(960), kept;
    size_t count = LADLESPINDLE_STAGE_WORDS(960) + LADLESPINDLE_END_WORDS(960);
    check(is(open_960(), LADLESPINDLE_HIVE_OPEN, 0, 0), "words that change", "opens");
    silence(960);
    for (size_t i = 0; i < count; i += i + 97 < count ? 97 : 1) {
        kept = words[i];
        words[i] = of_bits(bits(kept) ^ 1);
        check_at(brakes(ladlespindle_hive_hear(&hive, samples, 960), 5, 0), "a word that changes", i, "refused");
        words[i] = kept;
        check_at(is_quiet(ladlespindle_hive_hear(&hive, samples, 960)), "a word that is as it was", i, "heard");
    }
    memset(room, 0, sizeof room);
    check(brakes(ladlespindle_hive_hear(&hive, samples, 960), 5, 0) && unbraked(960, 12, 18) == 0, "a room that is wiped", "refused");
    memset(&hive, 0xa5, sizeof hive);
    check(brakes(ladlespindle_hive_hear(&hive, samples, 960), 5, 0), "a hive that is no zeros", "refused");
}

/* Samples of 16 bits are heard as the floats that they stand for, the first and the last numbers among them. */
static void sixteen_bits(void)
{
    static int16_t small[960];
    for (int block = 0; block < 8; block++) {
        for (size_t j = 0; j < 960; j++) {
            small[j] = (int16_t)(block == 0 ? -32768 : block == 1 ? 32767 : (int)random_below(65536) - 32768);
            samples[j] = (float)(small[j] / 32768.0);
        }
        ladlespindle_heard whole = ladlespindle_hive_hear16(&hive, small, 960), real = ladlespindle_hive_hear(&hive, samples, 960);
        check(whole.number == 0 && bits(whole.power) == bits(real.power) && whole.decision == real.decision, "16 bits",
              "heard as floats are");
        check(memcmp(hive.block, samples, 960 * sizeof *samples) == 0, "16 bits", "exact");
    }
}

/* ---- openings that are refused */

/* An opening that fails closes a hive that was open, and no tone is missed after it. Then a small hive is opened, for the next one to
 * close. */
static void refused(const char *name, ladlespindle_opened opened, uint32_t outcome, uint32_t number, size_t place)
{
    check(is(opened, outcome, number, place), name, "outcome, number and place");
    closed(name);
    check(is(ladlespindle_hive_open(&hive, 60, 60, 3, 3, 1, room, ROOM), LADLESPINDLE_HIVE_OPEN, 0, 0), name, "opens again");
}

static void lengths(void)
{
    static const struct {
        size_t n;
        uint32_t number;
        size_t place;
    } rows[] = {{0, 1, 0},
                {1, 1, 0},
                {3, 4, 0},
                {2205, 4, 0},
                {11, 2, 0},
                {22, 2, 1},
                {8190, 2, 5},
                {8194, 2, 1},
                {8232, 3, 6},
                {16384, 3, 13},
                {588, 7, 0},
                {640, 7, 0},
                {1024, 7, 0},
                {512, 7, 0},
                {8192, 7, 0},
                {SIZE_MAX, 2, 2},
                {SIZE_MAX / 2 + 1, 3, 13}};
    for (size_t i = 0; i < sizeof rows / sizeof *rows; i++) {
        ladlespindle_opened opened = ladlespindle_hive_open(&hive, rows[i].n, 16000, 200, 300, 1, room, ROOM);
        refused("a length that cannot be opened", opened, LADLESPINDLE_HIVE_REFUSED, rows[i].number, rows[i].place);
    }
}

static void bands(void)
{
    const float nan = of_bits(0x7fc00000), infinite = of_bits(0x7f800000), least = of_bits(1);
    const float wrong[][3] = {{16000, 201, 216},
                              {16000, 300, 200},
                              {16000, nan, 300},
                              {16000, 200, nan},
                              {nan, 200, 300},
                              {0, 200, 300},
                              {0, 0, 0},
                              {-16000, 200, 300},
                              {infinite, 200, 300},
                              {16000, -1, 300},
                              {16000, -infinite, 300},
                              {16000, 200, 8001},
                              {16000, 8001, 8002},
                              {16000, 200, infinite},
                              {16000, infinite, infinite},
                              {400, 200, 200.00002f},
                              {16000, 200.00002f, 216.66665f},
                              {16000, least, 16.666666f}};
    static const struct {
        float rate, lo_hz, hi_hz;
        size_t lo, hi;
    } right[] = {{16000, 200, 300, 12, 18},
                 {16000, 200, 200, 12, 12},
                 {16000, 199.99998f, 300.00003f, 12, 18},
                 {16000, 200.00002f, 299.99997f, 13, 17},
                 {16000, 7999, 8000, 480, 480},
                 {16000, 0, 16, 0, 0},
                 {16000, 0.001f, 17, 1, 1},
                 {44100, 200, 300, 5, 6},
                 {0x1p-120f, 0x1p-123f, 0x1.1p-123f, 120, 127},
                 {0x1p127f, 0x1p122f, 0x1.1p122f, 30, 31}};
    for (size_t i = 0; i < sizeof wrong / sizeof *wrong; i++) {
        ladlespindle_opened opened = ladlespindle_hive_open(&hive, 960, wrong[i][0], wrong[i][1], wrong[i][2], 225, room, ROOM);
        refused("no band", opened, LADLESPINDLE_HIVE_REFUSED, LADLESPINDLE_BINS, 0);
    }
    for (size_t i = 0; i < sizeof right / sizeof *right; i++) {
        ladlespindle_opened opened = ladlespindle_hive_open(&hive, 960, right[i].rate, right[i].lo_hz, right[i].hi_hz, 225, room, ROOM);
        check_at(is(opened, LADLESPINDLE_HIVE_OPEN, 0, 0), "a band", i, "opens");
        check_at(hive.lo == right[i].lo && hive.hi == right[i].hi, "a band", i, "its bins");
    }
}

static void thresholds(void)
{
    const float wrong[] = {0,      -0.0f, 9e-31f, -1, -225, of_bits(0x7fc00000), of_bits(0xffc00000), of_bits(0x7f800000), of_bits(0xff800000),
                           230401, 1e30f};
    static const float right[] = {230400, 230399, 57600, 225, 1, 1e-3f, 1e-30f};
    for (size_t i = 0; i < sizeof wrong / sizeof *wrong; i++) {
        ladlespindle_opened opened = ladlespindle_hive_open(&hive, 960, 16000, 200, 300, wrong[i], room, ROOM);
        refused("no threshold", opened, LADLESPINDLE_HIVE_NO_THRESHOLD, 5, 0);
    }
    for (size_t i = 0; i < sizeof right / sizeof *right; i++)
        check_at(is(ladlespindle_hive_open(&hive, 960, 16000, 200, 300, right[i], room, ROOM), LADLESPINDLE_HIVE_OPEN, 0, 0), "a threshold",
                 i, "opens");
}

/* A room is as long as its macro says, no shorter, and nothing behind it is written. */
static void rooms(void)
{
    size_t need = LADLESPINDLE_HIVE_ROOM(960), rom = LADLESPINDLE_HIVE_ROM_ROOM(640), kept = 0;
    const uint32_t mark = 0x7f912345;
    refused("a room that is one short", ladlespindle_hive_open(&hive, 960, 16000, 200, 300, 225, room, need - 1), LADLESPINDLE_HIVE_REFUSED,
            8, 5);
    refused("no room", ladlespindle_hive_open(&hive, 960, 16000, 200, 300, 225, NULL, need), LADLESPINDLE_HIVE_REFUSED, 8, 5);
    refused("an empty room", ladlespindle_hive_open(&hive, 960, 16000, 200, 300, 225, room, 0), LADLESPINDLE_HIVE_REFUSED, 8, 5);
    refused("a room for ROM words that is one short",
            ladlespindle_hive_open_rom(&hive, ladlespindle_plan_640, 1, ladlespindle_stage_640, LADLESPINDLE_STAGE_WORDS(640),
                                       ladlespindle_end_640, LADLESPINDLE_END_WORDS(640), 16000, 200, 300, 100, room, rom - 1),
            LADLESPINDLE_HIVE_REFUSED, 8, 5);
    for (size_t i = 0; i < EDGE; i++) room[need + i] = of_bits(mark);
    check(is(open_960(), LADLESPINDLE_HIVE_OPEN, 0, 0) && unbraked(960, 12, 18) == 0, "a room as it should be", "opens");
    for (size_t i = 0; i < EDGE; i++) kept += bits(room[need + i]) == mark;
    check(kept == EDGE, "a room as it should be", "nothing behind it is written");
}

static void interfaces(void)
{
    raised_by = 1;
    ladlespindle_opened filled = open_960();
    ladlespindle_opened rom =
        ladlespindle_hive_open_rom(&hive, ladlespindle_plan_640, 1, ladlespindle_stage_640, LADLESPINDLE_STAGE_WORDS(640),
                                   ladlespindle_end_640, LADLESPINDLE_END_WORDS(640), 16000, 200, 300, 100, room, ROOM);
    raised_by = 0;
    check(is(rom, LADLESPINDLE_HIVE_OTHER_INTERFACE, 5, 0), "another interface, words in ROM", "an outcome of its own");
    refused("another interface", filled, LADLESPINDLE_HIVE_OTHER_INTERFACE, 5, 0);
    check(is(ladlespindle_hive_open(NULL, 960, 16000, 200, 300, 225, room, ROOM), LADLESPINDLE_HIVE_REFUSED, 5, 0), "no hive to open",
          "refused");
}

/* ---- words */

/* A plan with words, and how many. */
struct words {
    ladlespindle_record plan;
    size_t stage_length, end_length;
    float stage[LADLESPINDLE_STAGE_WORDS_MAX], end[LADLESPINDLE_END_WORDS_MAX];
};

static struct words right, wrong, other;

static ladlespindle_opened open_words(const struct words *w, size_t width, float rate, float lo_hz, float hi_hz)
{
    return ladlespindle_hive_open_rom(&hive, w->plan, width, w->stage, w->stage_length, w->end, w->end_length, rate, lo_hz, hi_hz,
                                      threshold_of(w->plan.n), room, ROOM);
}

/* Fills words for a length that filling serves. */
static void fill_words(struct words *w, size_t n, size_t width, int inverse)
{
    uint8_t list[16];
    size_t length = list_of(list, n);
    w->plan = ladlespindle_plan(list, length);
    w->stage_length = 2 * ladlespindle_stage_twiddles(list, length);
    w->end_length = 2 * ladlespindle_end_twiddles(list, length);
    ladlespindle_answer filled =
        (inverse ? ladlespindle_fill_inverse : ladlespindle_fill_forward)(w->plan, width, w->stage, w->stage_length, w->end, w->end_length);
    check_at(filled.number == 0, "filling", n, "accepted");
}

/* Packs the stage words, which are packed for width 1, for another. */
static void pack(const struct words *from, struct words *to, size_t width)
{
    size_t start = 0;
    for (size_t j = 1; j < from->plan.count; j++) {
        size_t r = from->plan.radices[j], m = from->plan.half / r;
        for (size_t i = 0; i < m; i++)
            for (size_t k = 1; k < r; k++)
                memcpy(to->stage + 2 * (start + standing(m, r, width, i, k)), from->stage + 2 * (start + standing(m, r, 1, i, k)),
                       2 * sizeof(float));
        start += m * (r - 1);
    }
}

/* Ways in which words are wrong. */
enum kind { ZEROS, STAGE_ZEROS, END_ZEROS, WIDTH_2, WIDTH_4, OTHER_DIRECTION, OTHER_LENGTH, MOVED, ONES, MIRRORED, ANY, KINDS };
static const char *const kinds[KINDS] = {"zeros",
                                         "zeros for the stages",
                                         "zeros for the ends",
                                         "words of width 2",
                                         "words of width 4",
                                         "words of the inverse",
                                         "words of another length",
                                         "words one place on",
                                         "ones",
                                         "turns the other way",
                                         "any words"};

/* Words that are wrong in some way, from the right ones and those of another length. */
static void spoil(enum kind kind)
{
    float *stage = wrong.stage, *end = wrong.end;
    wrong = right;
    if (kind == ZEROS || kind == STAGE_ZEROS) memset(stage, 0, sizeof wrong.stage);
    if (kind == ZEROS || kind == END_ZEROS) memset(end, 0, sizeof wrong.end);
    if (kind == WIDTH_2 || kind == WIDTH_4) pack(&right, &wrong, kind == WIDTH_2 ? 2 : 4);
    if (kind == OTHER_LENGTH) memcpy(stage, other.stage, sizeof wrong.stage), memcpy(end, other.end, sizeof wrong.end);
    if (kind == MOVED) memmove(stage, stage + 2, sizeof wrong.stage - 8), memmove(end, end + 2, sizeof wrong.end - 8);
    for (size_t i = 0; i < wrong.stage_length + wrong.end_length; i++) {
        float *word = i < wrong.stage_length ? stage + i : end + (i - wrong.stage_length);
        if (kind == OTHER_DIRECTION && i >= wrong.stage_length) *word *= i % 2 ? -2 : 2;
        if (kind == MIRRORED && i % 2) *word = -*word;
        if (kind == ONES) *word = 1;
        if (kind == ANY) *word = (float)random_below(2001) / 1000 - 1;
    }
}

static int same_words(void)
{
    return memcmp(wrong.stage, right.stage, right.stage_length * sizeof(float)) == 0 &&
           memcmp(wrong.end, right.end, right.end_length * sizeof(float)) == 0;
}

/* What became of wrong words, how many of them failed beside the band, and openings with right ones. */
static size_t stayed_closed, same, heard_all, failed_beside, opened_right;

/* Right words open in a band; words of each wrong kind leave the hive closed, or are the right ones, or hear every tone all the same. */
static void try_band(size_t lo, size_t hi)
{
    size_t n = right.plan.n;
    check_at(is(open_words(&right, 1, (float)n, (float)lo, (float)hi), LADLESPINDLE_HIVE_OPEN, 0, 0), "right words", n, "open");
    check_at(unbraked(n, lo, hi) == 0, "right words", n, "tones brake");
    opened_right++;
    for (enum kind kind = ZEROS; kind < KINDS; kind++) {
        spoil(kind);
        ladlespindle_opened opened = open_words(&wrong, 1, (float)n, (float)lo, (float)hi);
        int open = opened.outcome == LADLESPINDLE_HIVE_OPEN;
        check_at(open || (opened.outcome == LADLESPINDLE_HIVE_SELF_TEST_FAILED && opened.number == 5), kinds[kind], n,
                 "fail the self-test or pass it");
        check_at(open || (opened.place + 1 >= lo && opened.place <= hi + 1), kinds[kind], n, "the bin that failed");
        failed_beside += !open && (opened.place < lo || opened.place > hi);
        check_at(unbraked(n, lo, open ? hi : lo) == 0, kinds[kind], n, "a tone is missed");
        *(!open ? &stayed_closed : same_words() ? &same : &heard_all) += 1;
        check_at(open || !same_words(), kinds[kind], n, "right words are refused");
    }
}

/* The bands of a length: about 230 of 16,000 Hz where it is long, and else at the edges and between, and, where it is short, all bins. */
static void try_bands(size_t n)
{
    size_t half = n / 2;
    if (n >= 70) try_band(n / 70, n / 70 + 1);
    if (n > 960) return;
    try_band(half, half);
    if (half > 1) try_band(1, 1);
    if (half > 2) try_band(half / 2, half / 2), try_band(half - 1, half - 1);
    if (half > 5) try_band(half / 3, half / 3 + 1);
    if (half > 1 && n <= 48) try_band(1, half - 1), try_band(0, half);
}

/* Every length that can be filled. */
static void filled_lengths(void)
{
    size_t tried = 0;
    for (size_t n = 2; n <= LONGEST; n += 2) {
        if (PARTS % n) continue;
        memset(&other, 0, sizeof other);
        fill_words(&right, n, 1, 0), fill_words(&other, n == PARTS ? PARTS / 2 : PARTS, 1, 0);
        try_bands(n);
        tried++;
    }
    check(tried == 48, "lengths that can be filled", "their number");
    check(failed_beside > 0, "waves beside the band", "tell wrong words");
}

/* Words that are made to measure are the inverse ones, and those of a width. */
static void wrong_as_meant(void)
{
    fill_words(&right, 960, 1, 0);
    spoil(OTHER_DIRECTION), fill_words(&other, 960, 1, 1);
    check(memcmp(wrong.end, other.end, right.end_length * sizeof(float)) == 0, "words of the inverse", "as they are filled");
    for (size_t width = 2; width <= 4; width *= 2) {
        spoil(width == 2 ? WIDTH_2 : WIDTH_4), fill_words(&other, 960, width, 0);
        check(memcmp(wrong.stage, other.stage, right.stage_length * sizeof(float)) == 0, "words of a width", "as they are filled");
        check(is(open_words(&wrong, width, 16000, 200, 300), LADLESPINDLE_HIVE_OPEN, 0, 0), "words of a width, with it", "open");
    }
}

/* The lengths of hives, with words of the ROM, from 200 to 300 Hz: right words open, and all wrong ones stay closed. */
static void field(size_t n, ladlespindle_record plan, const float *stage, size_t stage_length, const float *end, size_t end_length,
                  size_t lo, size_t hi)
{
    right.plan = plan;
    right.stage_length = stage_length, right.end_length = end_length;
    memcpy(right.stage, stage, stage_length * sizeof *stage), memcpy(right.end, end, end_length * sizeof *end);
    fill_words(&other, 960, 1, 0);
    check_at(is(open_words(&right, 1, 16000, 200, 300), LADLESPINDLE_HIVE_OPEN, 0, 0) && hive.lo == lo && hive.hi == hi,
             "a hive in the field", n, "opens");
    check_at(unbraked(n, lo, hi) == 0, "a hive in the field", n, "tones brake");
    for (enum kind kind = ZEROS; kind < KINDS; kind++) {
        spoil(kind);
        ladlespindle_opened opened = open_words(&wrong, 1, 16000, 200, 300);
        refused(kinds[kind], opened, LADLESPINDLE_HIVE_SELF_TEST_FAILED, 5, opened.place);
        check_at(opened.place + 1 >= lo && opened.place <= hi + 1, kinds[kind], n, "the bin that failed");
    }
}

/* Words that ladlespindle_hear refuses by itself. */
static void refused_words(void)
{
    fill_words(&right, 960, 1, 0);
    ladlespindle_record false_plan = right.plan;
    false_plan.n = SIZE_MAX;
    refused("width 3", open_words(&right, 3, 16000, 200, 300), LADLESPINDLE_HIVE_REFUSED, 6, 0);
    wrong = right, wrong.stage_length--;
    refused("a stage word less", open_words(&wrong, 1, 16000, 200, 300), LADLESPINDLE_HIVE_REFUSED, 8, 3);
    wrong = right, wrong.end_length++;
    refused("an end word more", open_words(&wrong, 1, 16000, 200, 300), LADLESPINDLE_HIVE_REFUSED, 8, 4);
    wrong = right, wrong.end[3] = of_bits(0x7fc00000);
    refused("an end word that is a NaN", open_words(&wrong, 1, 16000, 200, 300), LADLESPINDLE_HIVE_REFUSED, 10, right.stage_length + 3);
    wrong = right, wrong.plan = false_plan;
    refused("a false plan", open_words(&wrong, 1, 16000, 200, 300), LADLESPINDLE_HIVE_REFUSED, 5, 0);
    refused("no stage words",
            ladlespindle_hive_open_rom(&hive, right.plan, 1, NULL, right.stage_length, right.end, right.end_length, 16000, 200, 300, 225,
                                       room, ROOM),
            LADLESPINDLE_HIVE_REFUSED, 8, 3);
    refused("no end words",
            ladlespindle_hive_open_rom(&hive, right.plan, 1, right.stage, right.stage_length, NULL, right.end_length, 16000, 200, 300, 225,
                                       room, ROOM),
            LADLESPINDLE_HIVE_REFUSED, 8, 4);
}

/* ---- sentences */

/* Every outcome, and every refusal of opening and hearing, has a sentence of its own that tells what to do. */
static void sentences(void)
{
    static const ladlespindle_opened openings[] = {{0, 0, 0},  {1, 0, 0},  {2, 5, 0}, {2, 6, 0}, {2, 7, 0}, {2, 8, 3}, {2, 8, 5},
                                                   {2, 10, 0}, {2, 14, 0}, {2, 3, 0}, {3, 5, 0}, {4, 5, 0}, {5, 5, 0}, {6, 0, 0}};
    static const ladlespindle_heard hearings[] = {{0, 0, 0, 0}, {0, 0, 0, 1}, {5, 0, 0, 0}, {8, 0, 0, 0}, {9, 0, 0, 0}};
    const char *said[sizeof openings / sizeof *openings + sizeof hearings / sizeof *hearings];
    size_t count = 0;
    for (size_t i = 0; i < sizeof openings / sizeof *openings; i++) said[count++] = ladlespindle_hive_sentence(openings[i]);
    for (size_t i = 0; i < sizeof hearings / sizeof *hearings; i++) said[count++] = ladlespindle_heard_sentence(hearings[i]);
    for (size_t i = 0; i < count; i++) {
        check_at(strchr(said[i], ':') != NULL, "a sentence", i, "what is wrong: what to do");
        for (size_t j = 0; j < i; j++) check_at(strcmp(said[i], said[j]) != 0, "a sentence", i, "its own");
    }
}

int main(void)
{
    make_cosines();
    leave();
    closed("a hive that was never opened");
    decisions();
    sixteen_bits();
    spoilt();
    lengths();
    bands();
    thresholds();
    rooms();
    interfaces();
    wrong_as_meant();
    field(640, ladlespindle_plan_640, ladlespindle_stage_640, LADLESPINDLE_STAGE_WORDS(640), ladlespindle_end_640,
          LADLESPINDLE_END_WORDS(640), 8, 12);
    field(588, ladlespindle_plan_588, ladlespindle_stage_588, LADLESPINDLE_STAGE_WORDS(588), ladlespindle_end_588,
          LADLESPINDLE_END_WORDS(588), 8, 11);
    refused_words();
    filled_lengths();
    sentences();
    printf("%zu bands opened with right words; ", opened_right);
    printf("of wrong ones %zu stayed closed, %zu opened and heard every tone, %zu were right after all\n", stayed_closed, heard_all, same);
    return ended("hive");
}
