/* ladlespindle_refusals.h: a sentence for each refusal, for logs: what is wrong, and what to do. C89 and C++.
 *
 *     printf("refused %u: %s %s\n", a.number, ladlespindle_sentence(a.number), ladlespindle_place(a.number, a.place)); */
#ifndef LADLESPINDLE_REFUSALS_H
#define LADLESPINDLE_REFUSALS_H

#include "ladlespindle.h"

/* A function of a header, of which no compiler says that it is not used. */
#if defined(__cplusplus) || (defined(__STDC_VERSION__) && __STDC_VERSION__ >= 199901L)
#define LADLESPINDLE_HERE_ static inline
#elif defined(__GNUC__)
#define LADLESPINDLE_HERE_ static __inline__
#else
#define LADLESPINDLE_HERE_ static
#endif

/* The sentence of a refusal's number. */
LADLESPINDLE_HERE_ const char *ladlespindle_sentence(uint32_t number)
{
    switch (number) {
    case LADLESPINDLE_ACCEPTED: return "accepted: nothing is wrong, use the answer";
    case LADLESPINDLE_EMPTY: return "the list of radices is empty: lend at least one radix";
    case LADLESPINDLE_NO_RADIX: return "a byte of the list is no radix: lend 2, 3, 4, 5, 7 and 8 alone";
    case LADLESPINDLE_TOO_LARGE: return "the product of the list is above 8,192: lend fewer or smaller radices";
    case LADLESPINDLE_ODD: return "the product of the list is odd: lend an even radix as well";
    case LADLESPINDLE_NOT_PLANNED: return "the plan is none that planning gives: plan, or open the hive, first, and go on only if that is accepted";
    case LADLESPINDLE_WIDTH: return "the width is not 1, 2 or 4: lend 1, and words that are packed for 1";
    case LADLESPINDLE_NOT_HOUSED: return "the house table does not serve this length: lend words that tools/words makes, or plan a divisor of 6,720";
    case LADLESPINDLE_LENGTH:
        return "a buffer is too short or too long: lend exactly n samples, and buffers as ladlespindle_sizes.h says; "
               "for WAV all samples, or 44 bytes and 2 a sample";
    case LADLESPINDLE_NUMBER:
        return "a number is not finite or does not fit: lend samples of at most 2^32 and bins of at most 2^48 in magnitude; "
               "to write WAV whole 32,768ths from -1 to below 1";
    case LADLESPINDLE_TWIDDLE: return "a twiddle word is not finite or above 1: fill the twiddles again, and lend them unchanged";
    case LADLESPINDLE_MODULUS: return "the modulus is below 2: lend one from 2 to 4,294,967,295";
    case LADLESPINDLE_BASE: return "the base does not fit the modulus: lend one below it whose power `half` leaves 1";
    case LADLESPINDLE_REMAINDER: return "a remainder is not below the modulus: lend numbers that are reduced by it";
    case LADLESPINDLE_BINS: return "the bins are no range: ask for lo to hi with lo not above hi, and hi not above half the length";
    case LADLESPINDLE_STAGE: return "the plan has no such stage: count from 0, and ask for one below the plan's count";
    case LADLESPINDLE_WAV: return "this is no whole WAV file of 16-bit PCM in one channel: save it as that, plain, at 1 to 192,000 samples a second";
    }
    return "no refusal has this number: the header and the library are of different versions, so install both from one";
}

/* The buffer that a refusal with 8 means by its place; no text for another number or place. */
LADLESPINDLE_HERE_ const char *ladlespindle_place(uint32_t number, size_t place)
{
    static const char *const buffers[] = {"(input)", "(output)", "(scratch)", "(stage twiddles)", "(end twiddles)"};
    return number == LADLESPINDLE_LENGTH && place < sizeof buffers / sizeof *buffers ? buffers[place] : "";
}

#endif
