/* ladlespindle_hive.h: the brake of a heated hive in two calls: open once, then hear each block of samples. C99 and C++.
 *
 *     static float room[LADLESPINDLE_HIVE_ROOM(960)];
 *     static ladlespindle_hive hive = LADLESPINDLE_HIVE_INIT;
 *
 *     ladlespindle_hive_open(&hive, 960, 16000, 200, 300, 225, room, LADLESPINDLE_HIVE_ROOM(960));
 *     heating = ladlespindle_may_heat(ladlespindle_hive_hear16(&hive, block, 960));
 *
 * A host that ignores what open answers is braked: until open has succeeded, hearing refuses with 5, and a refusal is no leave to heat.
 * Open succeeds only after a self-test, in which ladlespindle_hear itself must tell square waves in the band from fainter ones, from those
 * beside it and from an offset. Words that are zeros, or of another width, direction or length, fail it, unless they hear the band all the
 * same. Words that change after opening are noticed, and hearing refuses with 5. Silence is quiet: that the microphone works is the host's
 * to see.
 *
 * Samples are scaled so that full scale is 1. A tone of amplitude A at a bin gives that bin a power of (A * n / 2)^2: a threshold for the
 * tones of 1/32 of full scale at n = 960 is 15 * 15 = 225. Halfway between two bins of the band a tone has 0.8 of that. A threshold is
 * from 1e-30 to (n / 2)^2, which only a tone of full scale reaches.
 *
 * Nothing is allocated, and nothing is shared: each hive has a room of its own, which lives as long as the hive and which nobody else writes,
 * and one thread at a time hears with it. The functions are plain C over the proved calls of ladlespindle.h, and are tested, not proved. */
#ifndef LADLESPINDLE_HIVE_H
#define LADLESPINDLE_HIVE_H

#include "ladlespindle.h"
#include "ladlespindle_refusals.h"
#include "ladlespindle_sizes.h"
#include <string.h>

#if defined(__FINITE_MATH_ONLY__) && __FINITE_MATH_ONLY__
#error "a NaN must be seen: compile without -ffast-math and -ffinite-math-only"
#endif

/* How many floats the host lends as room for the length n: a block, its spectrum and scratch, and the words that open fills. With words in
 * ROM there are none to fill. */
#define LADLESPINDLE_HIVE_ROM_ROOM(n) ((n) + LADLESPINDLE_SPECTRUM_WORDS(n) + LADLESPINDLE_SCRATCH_WORDS(n))
#define LADLESPINDLE_HIVE_ROOM(n) (LADLESPINDLE_HIVE_ROM_ROOM(n) + LADLESPINDLE_STAGE_WORDS(n) + LADLESPINDLE_END_WORDS(n))

/* A hive: what every hearing lends to ladlespindle_hear. All zeros until open has succeeded. */
typedef struct {
    size_t lo, hi;
    float threshold;
    size_t width;
    ladlespindle_record plan;
    float *block, *spectrum, *scratch;
    const float *stage, *end;
    size_t spectrum_length, scratch_length, stage_length, end_length;
    uint64_t mark;
} ladlespindle_hive;

/* A hive that is closed. */
#ifdef __cplusplus
#define LADLESPINDLE_HIVE_INIT {}
#else
#define LADLESPINDLE_HIVE_INIT {0}
#endif

/* How opening ended. An answer of zeros is no success. */
enum ladlespindle_hive_outcome {
    LADLESPINDLE_HIVE_CLOSED = 0,          /* open was not called */
    LADLESPINDLE_HIVE_OPEN = 1,            /* the self-test is passed: hearing decides */
    LADLESPINDLE_HIVE_REFUSED = 2,         /* a call refused; number and place are its own */
    LADLESPINDLE_HIVE_OTHER_INTERFACE = 3, /* the library has another interface number than its header */
    LADLESPINDLE_HIVE_NO_THRESHOLD = 4,    /* the threshold is below 1e-30, or above (n / 2)^2, or a NaN */
    LADLESPINDLE_HIVE_SELF_TEST_FAILED = 5 /* the words do not tell waves in the band from others; place: the bin of the wave */
};

/* What opening answers. The number is 0 for a hive that is open and for no other: it is that of the refusal, or else 5, with which hearing
 * refuses from then on. */
typedef struct {
    uint32_t outcome;
    uint32_t number;
    size_t place;
} ladlespindle_opened;

/* The place of a refusal with 8 where the room is missing or too short. */
#define LADLESPINDLE_HIVE_PLACE_OF_ROOM 5

/* Whether the heating may run: only if a block was heard and is quiet. */
static inline int ladlespindle_may_heat(ladlespindle_heard heard)
{
    return heard.number == LADLESPINDLE_ACCEPTED && heard.decision == LADLESPINDLE_QUIET;
}

/* A number that twiddles of two words each give, going on from another, and that other words hardly give. */
static inline uint64_t ladlespindle_hive_mark_(uint64_t mark, const float *words, size_t length)
{
    for (size_t i = 0; i + 1 < length; i += 2) {
        uint64_t bits;
        memcpy(&bits, &words[i], sizeof bits);
        mark = (mark ^ bits) * 1099511628211u;
    }
    return mark;
}

/* The number of a hive's stage and end words. */
static inline uint64_t ladlespindle_hive_words_(const ladlespindle_hive *hive)
{
    return ladlespindle_hive_mark_(ladlespindle_hive_mark_(1, hive->stage, hive->stage_length), hive->end, hive->end_length);
}

/* Hears a block of exactly n samples, full scale being 1. Answers as ladlespindle_hear; refused with 5 unless the hive is open and its words
 * are those that it was opened with, and with 8 at place 0 for a block of another length, of which nothing is kept. The samples are not in
 * the hive's room, but for its own block. */
static inline ladlespindle_heard ladlespindle_hive_hear(const ladlespindle_hive *hive, const float *samples, size_t count)
{
    static const ladlespindle_hive closed = LADLESPINDLE_HIVE_INIT;
    if (hive == NULL || !ladlespindle_accepts(hive->plan) || hive->mark != ladlespindle_hive_words_(hive)) hive = &closed;
    if (samples == NULL) count = 0;
    return ladlespindle_hear(hive->plan, hive->width, samples, count, hive->spectrum, hive->spectrum_length, hive->scratch,
                             hive->scratch_length, hive->stage, hive->stage_length, hive->end, hive->end_length, hive->lo, hive->hi,
                             hive->threshold);
}

/* The same of samples of 16 bits, each divided by 32,768, which is exact. Samples of fewer bits are shifted up first, those of 12 bits by 4:
 * else bees are heard 16 times too faint. */
static inline ladlespindle_heard ladlespindle_hive_hear16(const ladlespindle_hive *hive, const int16_t *samples, size_t count)
{
    if (hive == NULL || samples == NULL || count != hive->plan.n) return ladlespindle_hive_hear(hive, NULL, 0);
    for (size_t i = 0; i < count; i++) hive->block[i] = (float)samples[i] / 32768;
    return ladlespindle_hive_hear(hive, hive->block, count);
}

/* ---- inside open */

/* The prime factors of n, and a 0, which no planning takes, for what has none of 2, 3, 5 and 7: how many there are. */
static inline size_t ladlespindle_hive_list_(uint8_t *list, size_t n)
{
    static const uint8_t primes[] = {7, 5, 3, 2};
    size_t length = 0;
    if (n == 0) return 0;
    for (size_t i = 0; i < sizeof primes; i++)
        for (; n % primes[i] == 0; n /= primes[i]) list[length++] = primes[i];
    if (n > 1) list[length++] = 0;
    return length;
}

/* The bins from LO * n / rate, rounded up, to HI * n / rate, rounded down: whether there are any, and none is above half. No product here
 * is rounded: a float times a number below 2^14 fits a double. */
static inline int ladlespindle_hive_band_(ladlespindle_hive *hive, float rate, float lo_hz, float hi_hz)
{
    double n = (double)hive->plan.n;
    size_t bins = 0;
    if (!(rate > 0 && rate <= 3.4028235e38f && lo_hz >= 0 && lo_hz <= hi_hz && (double)hi_hz * 2 <= (double)rate)) return 0;
    for (size_t k = 0; k <= hive->plan.half; k++) {
        double hz_n = (double)k * (double)rate;
        if (hz_n < (double)lo_hz * n || hz_n > (double)hi_hz * n) continue;
        if (bins++ == 0) hive->lo = k;
        hive->hi = k;
    }
    return bins > 0;
}

/* Lays block, spectrum and scratch out in the room: whether it has space for them and for so many words behind them. */
static inline int ladlespindle_hive_lay_out_(ladlespindle_hive *hive, float *room, size_t length, size_t words)
{
    size_t n = hive->plan.n;
    hive->spectrum_length = n + 2;
    hive->scratch_length = 6 * n;
    if (room == NULL || length < n + hive->spectrum_length + hive->scratch_length + words) return 0;
    hive->block = room;
    hive->spectrum = hive->block + n;
    hive->scratch = hive->spectrum + hive->spectrum_length;
    return 1;
}

/* The amplitude of a loud wave: 33 to 64 times a power of two, the least whose square times n^2 is 2.6 thresholds or more. */
static inline float ladlespindle_hive_loud_(const ladlespindle_hive *hive)
{
    double n = (double)hive->plan.n, least = 2.6 * (double)hive->threshold, unit = 1.0 / 64, times = 33;
    while (32 * unit * n * (32 * unit * n) >= least) unit /= 2;
    while (times * unit * n * (times * unit * n) < least) times++;
    return (float)(times * unit);
}

/* What a square wave at a bin, so many eighths of a period along, is heard as. */
static inline ladlespindle_heard ladlespindle_hive_wave_(const ladlespindle_hive *hive, size_t bin, size_t eighths, float amplitude)
{
    size_t n = hive->plan.n;
    for (size_t j = 0; j < n; j++) hive->block[j] = (8 * bin * j + eighths * n) % (8 * n) < 4 * n ? amplitude : -amplitude;
    return ladlespindle_hive_hear(hive, hive->block, n);
}

/* Whether waves at a bin are heard as they should be. Of the square a^2 n^2 of a wave of amplitude a, right words give its own bin at least
 * 4 / pi^2 and all bins together at most 5 / 9. So a loud wave, of 2.6 to 2.8 thresholds, gives its own bin 1.05 thresholds or more and the
 * others 0.31 or less, and three quarters of it give at most 0.88. At the bins 0 and half, which get all of their waves, 5 / 8 of it is
 * loud, with 1.01 to 1.1 thresholds. Four phases are tried, since wrong words may hear one and miss another. */
static inline int ladlespindle_hive_passes_(const ladlespindle_hive *hive, size_t bin, float loud)
{
    int inside = hive->lo <= bin && bin <= hive->hi;
    if (bin % hive->plan.half == 0) loud = loud * 5 / 8;
    for (size_t eighths = 0; eighths < 4; eighths++) {
        if (ladlespindle_may_heat(ladlespindle_hive_wave_(hive, bin, eighths, loud)) == inside) return 0;
        if (!ladlespindle_may_heat(ladlespindle_hive_wave_(hive, bin, eighths, loud * 3 / 4))) return 0;
    }
    return 1;
}

/* An answer of opening. */
static inline ladlespindle_opened ladlespindle_hive_ended_(uint32_t outcome, uint32_t number, size_t place)
{
    ladlespindle_opened opened;
    opened.outcome = outcome;
    opened.number = number;
    opened.place = place;
    return opened;
}

/* The self-test: silence is quiet, an offset of 256 loud waves too unless the band has bin 0, and the waves at every bin of the band and at the
 * bins beside it are heard as they should be. */
static inline ladlespindle_opened ladlespindle_hive_tested_(const ladlespindle_hive *hive)
{
    size_t first = hive->lo - (hive->lo > 0), last = hive->hi + (hive->hi < hive->plan.half);
    float loud = ladlespindle_hive_loud_(hive);
    ladlespindle_heard silence = ladlespindle_hive_wave_(hive, 0, 0, 0), offset;
    if (silence.number != LADLESPINDLE_ACCEPTED) return ladlespindle_hive_ended_(LADLESPINDLE_HIVE_REFUSED, silence.number, silence.place);
    offset = ladlespindle_hive_wave_(hive, 0, 0, hive->lo > 0 ? 256 * loud : 0);
    for (size_t bin = first; bin <= last; bin++)
        if (!ladlespindle_may_heat(silence) || !ladlespindle_may_heat(offset) || !ladlespindle_hive_passes_(hive, bin, loud))
            return ladlespindle_hive_ended_(LADLESPINDLE_HIVE_SELF_TEST_FAILED, LADLESPINDLE_NOT_PLANNED, bin);
    return ladlespindle_hive_ended_(LADLESPINDLE_HIVE_OPEN, LADLESPINDLE_ACCEPTED, 0);
}

/* A hive is closed, and the library is the one of its header: before this is known, no other call is made. */
static inline ladlespindle_opened ladlespindle_hive_begun_(ladlespindle_hive *hive)
{
    static const ladlespindle_hive closed = LADLESPINDLE_HIVE_INIT;
    if (hive == NULL) return ladlespindle_hive_ended_(LADLESPINDLE_HIVE_REFUSED, LADLESPINDLE_NOT_PLANNED, 0);
    *hive = closed;
    if (ladlespindle_interface() != LADLESPINDLE_INTERFACE)
        return ladlespindle_hive_ended_(LADLESPINDLE_HIVE_OTHER_INTERFACE, LADLESPINDLE_NOT_PLANNED, 0);
    return ladlespindle_hive_ended_(LADLESPINDLE_HIVE_OPEN, LADLESPINDLE_ACCEPTED, 0);
}

/* The forward words of a plan, filled into the room behind all else. */
static inline ladlespindle_answer ladlespindle_hive_filled_(ladlespindle_hive *hive)
{
    float *stage = hive->scratch + hive->scratch_length, *end = stage + hive->stage_length;
    hive->stage = stage;
    hive->end = end;
    return ladlespindle_fill_forward(hive->plan, hive->width, stage, hive->stage_length, end, hive->end_length);
}

/* Opens a hive as one that has plan, width and words, or how many words are to be filled; it stays closed unless all is well. */
static inline ladlespindle_opened ladlespindle_hive_opened_(ladlespindle_hive *hive, ladlespindle_hive as, int fill, float rate,
                                                            float lo_hz, float hi_hz, float threshold, float *room, size_t room_length)
{
    double half = (double)as.plan.half;
    ladlespindle_opened opened;
    as.threshold = threshold;
    if (!ladlespindle_accepts(as.plan)) return ladlespindle_hive_ended_(LADLESPINDLE_HIVE_REFUSED, LADLESPINDLE_NOT_PLANNED, 0);
    if (!ladlespindle_hive_band_(&as, rate, lo_hz, hi_hz)) return ladlespindle_hive_ended_(LADLESPINDLE_HIVE_REFUSED, LADLESPINDLE_BINS, 0);
    if (!(threshold >= 1e-30f && (double)threshold <= half * half))
        return ladlespindle_hive_ended_(LADLESPINDLE_HIVE_NO_THRESHOLD, LADLESPINDLE_NOT_PLANNED, 0);
    if (!ladlespindle_hive_lay_out_(&as, room, room_length, fill ? as.stage_length + as.end_length : 0))
        return ladlespindle_hive_ended_(LADLESPINDLE_HIVE_REFUSED, LADLESPINDLE_LENGTH, LADLESPINDLE_HIVE_PLACE_OF_ROOM);
    if (fill) {
        ladlespindle_answer filled = ladlespindle_hive_filled_(&as);
        if (filled.number != LADLESPINDLE_ACCEPTED) return ladlespindle_hive_ended_(LADLESPINDLE_HIVE_REFUSED, filled.number, filled.place);
    }
    as.mark = ladlespindle_hive_words_(&as);
    opened = ladlespindle_hive_tested_(&as);
    if (opened.outcome == LADLESPINDLE_HIVE_OPEN) *hive = as;
    return opened;
}

/* ---- opening */

/* Opens a hive that hears blocks of n samples, `rate` of them a second, and brakes when the power of the bins from lo_hz to hi_hz, both
 * included, is not below the threshold. A tone between an edge and the first bin inside may be missed, however loud: put the edges on
 * multiples of rate / n, or one rate / n further out. The words are filled into the room; where filling refuses the length, with 7, open
 * with words in ROM. The self-test hears 8 blocks for each bin of the band and for the one on either side: 72 for 200 to 300 Hz at n = 960
 * and 16,000 Hz, some 33,000 for all bins at 8,192.
 *
 * Whatever the hive was, it is closed first, and stays so unless the outcome is LADLESPINDLE_HIVE_OPEN. Refused, in this order, with 1, 2,
 * 3 or 4 (n is not planned), 14 (the rate is not positive and finite, the band is not within 0 to rate / 2, is upside down or has no bin),
 * 8 (place 5: the room has fewer than LADLESPINDLE_HIVE_ROOM(n) floats) and 7; the threshold is looked at after the band. */
static inline ladlespindle_opened ladlespindle_hive_open(ladlespindle_hive *hive, size_t n, float rate, float lo_hz, float hi_hz,
                                                         float threshold, float *room, size_t room_length)
{
    uint8_t list[64];
    size_t length = ladlespindle_hive_list_(list, n);
    ladlespindle_hive as = LADLESPINDLE_HIVE_INIT;
    ladlespindle_planned planned;
    ladlespindle_opened begun = ladlespindle_hive_begun_(hive);
    if (begun.outcome != LADLESPINDLE_HIVE_OPEN) return begun;
    planned = ladlespindle_plan_list(list, length);
    if (planned.number != LADLESPINDLE_ACCEPTED) return ladlespindle_hive_ended_(LADLESPINDLE_HIVE_REFUSED, planned.number, planned.place);
    as.plan = planned.plan;
    as.width = 1;
    as.stage_length = 2 * ladlespindle_stage_twiddles(list, length);
    as.end_length = 2 * ladlespindle_end_twiddles(list, length);
    return ladlespindle_hive_opened_(hive, as, 1, rate, lo_hz, hi_hz, threshold, room, room_length);
}

/* The same with a plan and words that the host has, such as tools/words writes for ROM: those of the forward transform, packed for a width.
 * They are lent for as long as the hive is used. Refused with 5, 14, 8 (place 5: the room has fewer than LADLESPINDLE_HIVE_ROM_ROOM(n)
 * floats), 6, 8 (place 3: stage words; 4: end words) and 10. */
static inline ladlespindle_opened ladlespindle_hive_open_rom(ladlespindle_hive *hive, ladlespindle_record plan, size_t width,
                                                             const float *stage, size_t stage_length, const float *end, size_t end_length,
                                                             float rate, float lo_hz, float hi_hz, float threshold, float *room,
                                                             size_t room_length)
{
    ladlespindle_hive as = LADLESPINDLE_HIVE_INIT;
    ladlespindle_opened begun = ladlespindle_hive_begun_(hive);
    if (begun.outcome != LADLESPINDLE_HIVE_OPEN) return begun;
    as.plan = plan;
    as.width = width;
    as.stage = stage;
    as.stage_length = stage == NULL ? 0 : stage_length;
    as.end = end;
    as.end_length = end == NULL ? 0 : end_length;
    return ladlespindle_hive_opened_(hive, as, 0, rate, lo_hz, hi_hz, threshold, room, room_length);
}

/* ---- sentences, for logs */

/* What opening ended with, and what to do. */
static inline const char *ladlespindle_hive_sentence(ladlespindle_opened opened)
{
    switch (opened.outcome) {
    case LADLESPINDLE_HIVE_CLOSED: return "the hive is closed: open it before it hears";
    case LADLESPINDLE_HIVE_OPEN: return "the hive is open: it heard every bin of its band in the self-test";
    case LADLESPINDLE_HIVE_OTHER_INTERFACE: return "header and library have different interface numbers: install both from one version";
    case LADLESPINDLE_HIVE_NO_THRESHOLD:
        return "no tone can trip the threshold, or nearly nothing does: take one from 1e-30 to the square of n / 2";
    case LADLESPINDLE_HIVE_SELF_TEST_FAILED:
        return "the self-test failed: lend the forward words of this plan and width, as filling or tools/words makes them";
    case LADLESPINDLE_HIVE_REFUSED: break;
    default: return "no opening ends so: compile with one version of the headers";
    }
    switch (opened.number) {
    case LADLESPINDLE_EMPTY:
    case LADLESPINDLE_NO_RADIX:
    case LADLESPINDLE_TOO_LARGE:
    case LADLESPINDLE_ODD: return "blocks of n samples are not planned: take an even n of at most 8,192 with no prime factor above 7";
    case LADLESPINDLE_BINS:
        return "no bin is in the band: take a rate above 0, and a band from 0 to rate / 2 hertz with a multiple of rate / n in it";
    case LADLESPINDLE_LENGTH:
        if (opened.place == LADLESPINDLE_HIVE_PLACE_OF_ROOM)
            return "the room is too short or missing: lend LADLESPINDLE_HIVE_ROOM(n) floats";
        break;
    default: break;
    }
    return ladlespindle_sentence(opened.number);
}

/* What hearing a block ended with, and what to do. */
static inline const char *ladlespindle_heard_sentence(ladlespindle_heard heard)
{
    switch (heard.number) {
    case LADLESPINDLE_ACCEPTED:
        return ladlespindle_may_heat(heard) ? "the bees are quiet: the heating may run" : "the bees fan: the heating stops";
    case LADLESPINDLE_NOT_PLANNED: return "the hive is not open, or its words have changed: open it, and see what opening answers";
    case LADLESPINDLE_LENGTH: return "the block has fewer or more than n samples: drop it, and lend the next whole one";
    default: return ladlespindle_sentence(heard.number);
    }
}

#endif
