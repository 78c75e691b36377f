/* ladlespindle.h: planning of spectra, their twiddles, both transforms, the power of bins and whether bees fan, recordings as WAV files, and
 * stages in remainders, for a C host. One that only asks whether bees fan takes ladlespindle_hive.h, which tests its twiddles before it hears.
 *
 * Every function takes whatever it is lent, ends, and allocates nothing. A list is bytes, one radix each: 2, 3, 4, 5,
 * 7 or 8. Its product is the length n, even and at most 8,192.
 *
 * TWIDDLES ARE THE HOST'S TO GET RIGHT. A transform and a stage cannot tell wrong twiddle words from right ones: lent the words of another
 * plan, another width or another direction, of the same number and none above 1, they answer 0, and the numbers are wrong. Fill them
 * with the plan and the width of the transform, and lend what was filled, unchanged.
 *
 * `width` says how twiddle words are packed: 1, 2 or 4. Use 1; answers never differ. Words that are packed for one width are
 * lent with that width.
 *
 * ladlespindle_sizes.h, which is included here, has the lengths of all buffers as constants; ladlespindle_refusals.h has a sentence for each
 * refusal.
 *
 * Lengths are in elements. NULL with length 0 is an empty list. Lists that are only read may overlap each other; a
 * buffer that a call writes may overlap nothing else that is lent to it. What a refused call was lent is as it was.
 * The floating-point settings must be those that a C program starts with: rounding to nearest, subnormals kept.
 *
 * Calls share nothing: there is no state behind them, so they may run in several threads at once, as long as no buffer that one of
 * them writes is lent to another meanwhile. Lists, plans and twiddle words that are only read may be lent to all.
 *
 * Stack: a filling or a single turn takes at most 16 KB, which is the table of turns; a float stage, a transform or a hearing at most 8 KB; any
 * other call at most 2 KB.
 *
 * To link (x86-64 Linux, any C library): `rt lib` in crates/ladlespindle proves the functions and writes
 * crates/ladlespindle/out/libladlespindle.a, which wants nothing but memcpy and memset:
 *
 *     cc -I include host.c crates/ladlespindle/out/libladlespindle.a
 */
#ifndef LADLESPINDLE_H
#define LADLESPINDLE_H

#include <stddef.h>
#include <stdint.h>

#ifdef __cplusplus
extern "C" {
#endif

/* The version, 10000 * major + 100 * minor + patch, and the number of the interface, which goes up whenever a struct, a signature or the
 * meaning of an answer changes. A host that was compiled with this header links a library whose ladlespindle_interface() is the same. */
#define LADLESPINDLE_VERSION 1100
#define LADLESPINDLE_INTERFACE 1
uint32_t ladlespindle_version(void);
uint32_t ladlespindle_interface(void);

/* Why a call is refused. A place is 0 unless the line names one. */
enum ladlespindle_refusal {
    LADLESPINDLE_ACCEPTED = 0,
    LADLESPINDLE_EMPTY = 1,       /* the list is empty */
    LADLESPINDLE_NO_RADIX = 2,    /* a byte is no radix; place: its index */
    LADLESPINDLE_TOO_LARGE = 3,   /* the product is above 8,192; place: the first index where the running product is */
    LADLESPINDLE_ODD = 4,         /* the product is odd */
    LADLESPINDLE_NOT_PLANNED = 5, /* the plan is not one that planning gives */
    LADLESPINDLE_WIDTH = 6,       /* the width is not 1, 2 or 4 */
    LADLESPINDLE_NOT_HOUSED = 7,  /* the house table does not serve the length, or the parts of a circle */
    LADLESPINDLE_LENGTH = 8,      /* a lent length is wrong; place: 0 input, 1 output, 2 scratch, 3 stage twiddles, 4 end twiddles */
    LADLESPINDLE_NUMBER = 9,      /* a number is not finite, too large, or no sample of 16 bits; place: its index */
    LADLESPINDLE_TWIDDLE = 10,    /* a twiddle's number is not finite or above 1; place: its index, stage then end */
    LADLESPINDLE_MODULUS = 11,    /* the modulus is below 2 */
    LADLESPINDLE_BASE = 12,       /* the base is not below the modulus, or its power is not 1 */
    LADLESPINDLE_REMAINDER = 13,  /* a remainder is not below the modulus; place: its index */
    LADLESPINDLE_BINS = 14,       /* the bins asked for are no range of bins */
    LADLESPINDLE_STAGE = 15,      /* the plan has no such stage */
    LADLESPINDLE_WAV = 17         /* a file is no WAV as read here; place: the first byte of the field at fault, or the file's length */
};

/* A plan: the length, its half, and the radices of the stages in ascending order, unused entries 0. */
typedef struct {
    size_t n;
    size_t half;
    size_t count;
    uint8_t radices[13];
} ladlespindle_record;

/* What planning answers: the refusal, or the plan; every number of the plan is 0 on a refusal. */
typedef struct {
    uint32_t number;
    size_t place;
    ladlespindle_record plan;
} ladlespindle_planned;

/* A list of radices, unused entries 0. */
typedef struct {
    size_t count;
    uint8_t entries[13];
} ladlespindle_radices;

/* What scaling answers: the refusal, or the power of two p with both scaled products and lists. */
typedef struct {
    uint32_t number;
    size_t place;
    size_t p;
    size_t in_product;
    size_t out_product;
    ladlespindle_radices in_list;
    ladlespindle_radices out_list;
} ladlespindle_scaling;

/* Why a call is refused; 0 and 0 for one that is accepted. */
typedef struct {
    uint32_t number;
    size_t place;
} ladlespindle_answer;

/* The same of a single turn, with its cosine and its negated sine, +0 on a refusal. */
typedef struct {
    uint32_t number;
    size_t place;
    float re;
    float im;
} ladlespindle_turn_words;

/* The same of a run, with the buffer that holds its result: 0 for Data, 1 for Scratchpad, 0 on a refusal. */
typedef struct {
    uint32_t number;
    size_t place;
    uint32_t buffer;
} ladlespindle_ran;

/* The same of a sum of power, with the sum, +0 on a refusal. */
typedef struct {
    uint32_t number;
    size_t place;
    float power;
} ladlespindle_summed;

/* What a block of samples says of the bees. An answer of zeros brakes. */
enum ladlespindle_decision {
    LADLESPINDLE_FANNING = 0, /* the power of the band is not below the threshold, or the call is refused */
    LADLESPINDLE_QUIET = 1    /* the call is accepted, and the power of the band is below the threshold */
};

/* The same of a block that is heard, with the power of the band, +0 on a refusal, and the decision, LADLESPINDLE_FANNING on a refusal. */
typedef struct {
    uint32_t number;
    size_t place;
    float power;
    uint32_t decision;
} ladlespindle_heard;

/* The same of a WAV file, with its samples a second and how many samples it has, both 0 on a refusal. */
typedef struct {
    uint32_t number;
    size_t place;
    uint32_t rate;
    size_t samples;
} ladlespindle_wav;

/* The plan of a list, with the number and place of its refusal (1, 2, 3 or 4, in this order of tests). */
ladlespindle_planned ladlespindle_plan_list(const uint8_t *list, size_t length);

/* The plan alone.
 * On a refusal every number of it is 0. */
ladlespindle_record ladlespindle_plan(const uint8_t *list, size_t length);

/* The number of a list's refusal (1, 2, 3 or 4, in this order of tests).
 * 0 for a list that is accepted. */
uint32_t ladlespindle_refusal_number(const uint8_t *list, size_t length);

/* The place of a list's refusal.
 * 0 for a list that is accepted. */
size_t ladlespindle_refusal_place(const uint8_t *list, size_t length);

/* The length n of a list's plan.
 * 0 on a refusal. */
size_t ladlespindle_n(const uint8_t *list, size_t length);

/* Half of that length, the number of complex cells of a stage.
 * 0 on a refusal. */
size_t ladlespindle_half(const uint8_t *list, size_t length);

/* How many stages a list's plan has; a list of a single 2 has none.
 * 0 on a refusal. */
size_t ladlespindle_stages(const uint8_t *list, size_t length);

/* The radix of a stage, counted from 0.
 * 0 past the last stage and on a refusal. */
uint8_t ladlespindle_radix(const uint8_t *list, size_t length, size_t stage);

/* How many merges led from a list to its plan.
 * 0 on a refusal. */
size_t ladlespindle_merges(const uint8_t *list, size_t length);

/* The letter of a merge, counted from 0: 'A' 4+2 to 8, 'B' 2+2+2 to 8, 'C' 4+4 to 8+2, 'D' 2+2 to 4.
 * 0 past the last merge and on a refusal. */
uint8_t ladlespindle_merge_letter(const uint8_t *list, size_t length, size_t index);

/* How many twiddles the stages of a list's plan have together; each is two numbers.
 * 0 on a refusal. */
size_t ladlespindle_stage_twiddles(const uint8_t *list, size_t length);

/* How many end twiddles a list's plan has; each is two numbers.
 * 0 on a refusal. */
size_t ladlespindle_end_twiddles(const uint8_t *list, size_t length);

/* The buffer that holds the result of a run: 0 for Data, 1 for Scratchpad.
 * 0 on a refusal. */
uint32_t ladlespindle_result(const uint8_t *list, size_t length);

/* Whether a record is the plan of some list, unused entries included.
 * 1 if it is, 0 if not. */
uint32_t ladlespindle_accepts(ladlespindle_record plan);

/* Two base lists, either of which may be empty, scaled by the smallest power of two that brings the in-product to 512.
 * Refused with 2 or 3: places run on from the in-list to the out-list, and a scaled out-product that is too large has
 * the joined length for its place; every other number is then 0. */
ladlespindle_scaling ladlespindle_scale(const uint8_t *in_list, size_t in_length, const uint8_t *out_list, size_t out_length);

/* The turn by t of l parts of a circle, t being any number: its cosine and its negated sine, each the nearest f32. At
 * whole quarters the words are 1, -1 and +0.
 * Refused with 7 unless l divides 6,720. */
ladlespindle_turn_words ladlespindle_turn(uint32_t t, uint32_t l);

/* Twiddle words, two for each twiddle. Filling serves the 48 lengths that divide 6,720:
 *
 *     2, 4, 6, 8, 10, 12, 14, 16, 20, 24, 28, 30, 32, 40, 42, 48, 56, 60, 64, 70, 80, 84, 96, 112, 120, 140, 160, 168, 192, 210, 224, 240, 280,
 *     320, 336, 420, 448, 480, 560, 672, 840, 960, 1,120, 1,344, 1,680, 2,240, 3,360, 6,720
 *
 * and at any other the host lends words of its own: `tools/words N` writes them as a C header, and these are the rules.
 *
 * - The turn by t of p parts has the words re = cos(2 pi t / p) and im = -sin(2 pi t / p), each the nearest f32; at whole quarters they are
 *   exactly 1, -1 and +0.
 * - The first stage has no twiddles. Of a later stage of radix r let s be the product of the radices before it. It has half / r iterations i,
 *   from 0, with r - 1 twiddles k each, from 1: twiddle k of iteration i is the turn by (i mod s) * k of s * r parts.
 * - At width 1 the stages stand one behind the other, in a stage the iterations, in an iteration the twiddles, all ascending. At width 2 or 4
 *   so many iterations of a stage make a group, in which the first twiddles of all its iterations stand side by side, then the second ones and
 *   so on; the iterations that make no whole group stand behind the groups as at width 1.
 * - End twiddle k, from 1, is the turn by k of n parts: forward both its words are halved, inverse its im is negated.
 *
 * With words by these rules accuracy at the other 200 lengths is measured, not proved: no bin or sample that was tried was off by more than
 * 5 % of what is proved of filled ones, (33 stages + 20) and (64 stages + 25) times half / 2^24 times the largest number (tests/own_words.c). */

/* Fills the twiddles of a plan for the forward and for the inverse transform: those of the stages, packed for a width of 1, 2 or 4, and those of
 * the ends. The lengths are twice ladlespindle_stage_twiddles and twice ladlespindle_end_twiddles (constants in ladlespindle_sizes.h). Both
 * directions have the same stage words, so that one set of them serves both; the end words differ.
 * Refused, in this order, with 5, 6, 7 (the plan's length does not divide 6,720) and 8 (place 3: stage_twiddles; 4: end_twiddles). */
ladlespindle_answer ladlespindle_fill_forward(ladlespindle_record plan, size_t width, float *stage_twiddles,
                                              size_t stage_twiddles_length, float *end_twiddles, size_t end_twiddles_length);
ladlespindle_answer ladlespindle_fill_inverse(ladlespindle_record plan, size_t width, float *stage_twiddles,
                                              size_t stage_twiddles_length, float *end_twiddles, size_t end_twiddles_length);

/* Stage `number` of a plan, counted from 0, in floats: the cells of the input, two numbers each, make those of the output. The
 * stage's own twiddles are lent, packed for a width of 1, 2 or 4: two numbers for each of (half / r) * (r - 1), r being its
 * radix; none for stage 0. Input and output hold n numbers each. Refused, in this order, with 5, 15, 6, 8 (place 0: input; 1:
 * output; 3: twiddles), 9 (a number of the input above 2^48 in magnitude or not finite) and 10 (one of the twiddles above 1). */
ladlespindle_answer ladlespindle_stage(ladlespindle_record plan, size_t number, size_t width, const float *input, size_t input_length,
                                       float *output, size_t output_length, const float *twiddles, size_t twiddles_length);

/* Both transforms, unnormalised, so that one after the other gives n times the samples. A spectrum is the bins 0 to half, two
 * numbers each. Scratch has at least 6n numbers: the first 2n are left as the steps leave them, the others are not written. The
 * twiddles are lent, packed for `width`: those that ladlespindle_fill_forward or ladlespindle_fill_inverse fills, or, where the length
 * does not divide 6,720, the host's own; WRONG ONES ARE NOT NOTICED (above). Refused, in this order, with 5, 6, 8 (places 0 to 4), 9 (a
 * sample above 2^32 in magnitude, a number of a bin above 2^48, or not finite) and 10 (place: the index in stage_twiddles followed by
 * end_twiddles).
 *
 * Forward: n samples make a spectrum of 2 * (half + 1) numbers, no more and no fewer. */
ladlespindle_answer ladlespindle_forward(ladlespindle_record plan, size_t width, const float *input, size_t input_length, float *output,
                                         size_t output_length, float *scratch, size_t scratch_length, const float *stage_twiddles,
                                         size_t stage_twiddles_length, const float *end_twiddles, size_t end_twiddles_length);

/* Inverse: a spectrum makes n samples; the output has at least n numbers and is +0 after them. In bins 0 and half the imaginary
 * part is subtracted from the real part. */
ladlespindle_answer ladlespindle_inverse(ladlespindle_record plan, size_t width, const float *input, size_t input_length, float *output,
                                         size_t output_length, float *scratch, size_t scratch_length, const float *stage_twiddles,
                                         size_t stage_twiddles_length, const float *end_twiddles, size_t end_twiddles_length);

/* The power of the bins lo to hi of a spectrum, both included: re * re + im * im of each, added from +0 in ascending order.
 * Refused, in this order, with 8 (place 0: the length is odd, below 4 or above 8,194), 14 (lo above hi, or hi no bin) and 9 (a
 * number of the spectrum, asked for or not, above 2^48 in magnitude or not finite). */
ladlespindle_summed ladlespindle_power(const float *spectrum, size_t length, size_t lo, size_t hi);

/* Whether the bees fan: the spectrum of n samples as by ladlespindle_forward, and the power of its bins lo to hi held against a threshold.
 * Fanning exactly when the power is not below the threshold, so a threshold that is a NaN brakes. Refused, in this order, with 5, 6, 8, 9
 * and 10 as ladlespindle_forward is, and with 14 (lo above hi, or hi above half), all before anything is written. */
ladlespindle_heard ladlespindle_hear(ladlespindle_record plan, size_t width, const float *input, size_t input_length, float *output,
                                     size_t output_length, float *scratch, size_t scratch_length, const float *stage_twiddles,
                                     size_t stage_twiddles_length, const float *end_twiddles, size_t end_twiddles_length, size_t lo, size_t hi,
                                     float threshold);

/* Recordings as WAV files: RIFF WAVE with PCM of 16 bits, one channel, 1 to 192,000 samples a second. Lend the whole file, as bytes. Measure
 * first: the answer has the rate and how many samples there are, which is the length of the output to read them into. A sample is its whole
 * number, from -32,768 to 32,767, divided by 32,768, which is exact: n of them are lent to ladlespindle_forward or ladlespindle_hear as they are.
 *
 * A file is judged field by field, in the order of its bytes; numbers stand lowest byte first:
 *
 * - 'RIFF'; a size, four bytes, which is the file's length less 8; 'WAVE'. Then chunks, each an id of four bytes, a size of four and so many bytes.
 * - The first chunk 'fmt ' has the size 16, the tag 1, 1 channel, the rate, twice the rate as the bytes a second, and 2 and 16 as the bytes and
 *   the bits of a sample, in fields of 4, 2, 2, 4, 4, 2 and 2 bytes.
 * - The first chunk 'data' stands behind it and has an even size: two bytes for each sample. What follows it is not read.
 * - Any other chunk before it is passed over, with one byte more where its size is odd.
 *
 * A file that is not so is refused with 17: at the first byte of the first field at fault (at its id a 'data' with no 'fmt ' before it), or, where
 * the file ends before a field is whole or before the bytes of a chunk do, at the file's length. One that was cut short has the wrong size
 * behind 'RIFF', so it is refused at 4.
 *
 * What a file holds. Refused with 17. */
ladlespindle_wav ladlespindle_wav_measure(const uint8_t *file, size_t file_length);

/* Its samples, written to the output. Refused, in this order, with 17 and with 8 (place 1: the output has not exactly the file's samples). */
ladlespindle_wav ladlespindle_wav_read(const uint8_t *file, size_t file_length, float *output, size_t output_length);

/* Writes such a file, of 44 + 2 * samples_length bytes: 'fmt ' and 'data' alone. Reading it gives the rate and the samples again, -0 as +0; a file
 * of so many bytes that was read is written again byte for byte. Refused, in this order, with 17 (place 24, where the rate stands: it is not from 1
 * to 192,000), 8 (place 0: more than 2,147,483,629 samples; 1: the file has not exactly so many bytes) and 9 (32,768 times a sample is no whole
 * number from -32,768 to 32,767; place: the index of the first such sample). */
ladlespindle_answer ladlespindle_wav_write(uint32_t rate, const float *samples, size_t samples_length, uint8_t *file, size_t file_length);

/* In remainders modulo m, from 2 to 4,294,967,295, a base w below m whose power `half` leaves 1 stands for one part of a
 * circle of `half` parts. Both functions lend two buffers of `half` numbers, below m where they are read. They refuse, in
 * this order, with 5, 15 (a stage only), 11, 12, 8 (place 0: input or data; 2: other or scratch) and 13 (place: the index).
 *
 * Stage `number` of a plan, counted from 0, written to the other buffer. */
ladlespindle_answer ladlespindle_remainder_stage(ladlespindle_record plan, size_t number, uint32_t m, uint32_t w, const uint32_t *input,
                                                 size_t input_length, uint32_t *other, size_t other_length);

/* All stages of a plan, written alternately from data to scratch and back, a single one copied back to data. Cell k of the
 * buffer that the answer names then holds the remainder of the sum of x(j) * w^(j * k), x being what data held. */
ladlespindle_ran ladlespindle_remainder_run(ladlespindle_record plan, uint32_t m, uint32_t w, uint32_t *data, size_t data_length,
                                            uint32_t *scratch, size_t scratch_length);

#ifdef __cplusplus
}
#endif

#include "ladlespindle_sizes.h"

#endif
