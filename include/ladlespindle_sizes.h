/* ladlespindle_sizes.h: how many words each buffer has at a length n, as constants, for arrays and assertions. ladlespindle.h includes it.
 *
 *     static float spectrum[LADLESPINDLE_SPECTRUM_WORDS(640)], scratch[LADLESPINDLE_SCRATCH_WORDS(640)];
 *     static float stage[LADLESPINDLE_STAGE_ROOM(640)], end[LADLESPINDLE_END_ROOM(640)];
 *
 * WORDS are the lengths that calls ask for; ROOM is the same, and 1 where there are none, since C has no empty arrays. Each is of type
 * size_t. n is a constant; an n that is not planned (0, odd, above 8,192, or with a prime factor above 7) does not compile. */
#ifndef LADLESPINDLE_SIZES_H
#define LADLESPINDLE_SIZES_H

#include <stddef.h>

/* The bins 0 to n / 2, two numbers each. */
#define LADLESPINDLE_SPECTRUM_WORDS(n) (LADLESPINDLE_ONE_(n) * ((n) + 2))

/* The least scratch of a transform. */
#define LADLESPINDLE_SCRATCH_WORDS(n) (LADLESPINDLE_ONE_(n) * 6 * (n))

/* Twice ladlespindle_stage_twiddles: n - n / r words for each stage of radix r but the first, whose radix is the smallest. */
#define LADLESPINDLE_STAGE_WORDS(n) \
    (LADLESPINDLE_ONE_(n) * (LADLESPINDLE_ALL_STAGES_(n) - LADLESPINDLE_OF_STAGE_(n, LADLESPINDLE_SMALLEST_(n))))
#define LADLESPINDLE_STAGE_ROOM(n) (LADLESPINDLE_STAGE_WORDS(n) + (LADLESPINDLE_STAGE_WORDS(n) == 0))

/* Twice ladlespindle_end_twiddles. */
#define LADLESPINDLE_END_WORDS(n) (LADLESPINDLE_ONE_(n) * 2 * (((n) - 1) / 4))
#define LADLESPINDLE_END_ROOM(n) (LADLESPINDLE_END_WORDS(n) + (LADLESPINDLE_END_WORDS(n) == 0))

/* The largest of each over all lengths, for a host that plans while it runs. */
#define LADLESPINDLE_SPECTRUM_WORDS_MAX 8194
#define LADLESPINDLE_SCRATCH_WORDS_MAX 49152
#define LADLESPINDLE_STAGE_WORDS_MAX 34560
#define LADLESPINDLE_END_WORDS_MAX 4094

/* What follows is for the macros above alone. */

/* Whether d divides n. */
#define LADLESPINDLE_BY_(n, d) ((n) % (d) == 0)

/* How many stages of a radix the plan of n has. Of e factors 2 of n / 2 each three make an 8, and those that are left a 2 or a 4. */
#define LADLESPINDLE_TWOS_(n)                                                                                           \
    (LADLESPINDLE_BY_(n, 4) - LADLESPINDLE_BY_(n, 8) + LADLESPINDLE_BY_(n, 32) - LADLESPINDLE_BY_(n, 64)                \
     + LADLESPINDLE_BY_(n, 256) - LADLESPINDLE_BY_(n, 512) + LADLESPINDLE_BY_(n, 2048) - LADLESPINDLE_BY_(n, 4096))
#define LADLESPINDLE_THREES_(n)                                                                                         \
    (LADLESPINDLE_BY_(n, 6) + LADLESPINDLE_BY_(n, 18) + LADLESPINDLE_BY_(n, 54) + LADLESPINDLE_BY_(n, 162)              \
     + LADLESPINDLE_BY_(n, 486) + LADLESPINDLE_BY_(n, 1458) + LADLESPINDLE_BY_(n, 4374))
#define LADLESPINDLE_FOURS_(n)                                                                                          \
    (LADLESPINDLE_BY_(n, 8) - LADLESPINDLE_BY_(n, 16) + LADLESPINDLE_BY_(n, 64) - LADLESPINDLE_BY_(n, 128)              \
     + LADLESPINDLE_BY_(n, 512) - LADLESPINDLE_BY_(n, 1024) + LADLESPINDLE_BY_(n, 4096) - LADLESPINDLE_BY_(n, 8192))
#define LADLESPINDLE_FIVES_(n)                                                                                          \
    (LADLESPINDLE_BY_(n, 10) + LADLESPINDLE_BY_(n, 50) + LADLESPINDLE_BY_(n, 250) + LADLESPINDLE_BY_(n, 1250) + LADLESPINDLE_BY_(n, 6250))
#define LADLESPINDLE_SEVENS_(n) (LADLESPINDLE_BY_(n, 14) + LADLESPINDLE_BY_(n, 98) + LADLESPINDLE_BY_(n, 686) + LADLESPINDLE_BY_(n, 4802))
#define LADLESPINDLE_EIGHTS_(n) (LADLESPINDLE_BY_(n, 16) + LADLESPINDLE_BY_(n, 128) + LADLESPINDLE_BY_(n, 1024) + LADLESPINDLE_BY_(n, 8192))

/* The smallest radix of the plan of n, and 1 where it has none. */
#define LADLESPINDLE_SMALLEST_(n)                                                                                            \
    (LADLESPINDLE_TWOS_(n) ? 2 : LADLESPINDLE_BY_(n, 6) ? 3 : LADLESPINDLE_FOURS_(n) ? 4 : LADLESPINDLE_BY_(n, 10) ? 5       \
     : LADLESPINDLE_BY_(n, 14) ? 7 : LADLESPINDLE_BY_(n, 16) ? 8 : 1)

/* The twiddle words of a stage of radix r that is not the first, and of all stages as if none were the first. */
#define LADLESPINDLE_OF_STAGE_(n, r) ((n) - (n) / (r))
#define LADLESPINDLE_ALL_STAGES_(n)                                                                                          \
    (LADLESPINDLE_TWOS_(n) * LADLESPINDLE_OF_STAGE_(n, 2) + LADLESPINDLE_THREES_(n) * LADLESPINDLE_OF_STAGE_(n, 3)           \
     + LADLESPINDLE_FOURS_(n) * LADLESPINDLE_OF_STAGE_(n, 4) + LADLESPINDLE_FIVES_(n) * LADLESPINDLE_OF_STAGE_(n, 5)         \
     + LADLESPINDLE_SEVENS_(n) * LADLESPINDLE_OF_STAGE_(n, 7) + LADLESPINDLE_EIGHTS_(n) * LADLESPINDLE_OF_STAGE_(n, 8))

/* Whether n is planned: it divides 210^14, the square of 210 being 44,100, and no step is above 2^31. */
#define LADLESPINDLE_IS_PLANNED_(n)                                                                                          \
    ((n) > 0 && (n) <= 8192 && (n) % 2 == 0                                                                                  \
     && 44100L % (n) * 44100L % (n) * 44100L % (n) * 44100L % (n) * 44100L % (n) * 44100L % (n) * 44100L % (n) == 0)

/* 1, of type size_t, where n is a constant that is planned; anything else does not compile. In C a choice between a pointer and a constant 0 is
 * of the pointer's type, while one between a pointer and any other void pointer is a void pointer, which has no members. */
#ifdef __cplusplus
extern "C++" {
template <bool> struct ladlespindle_length_is_planned;
template <> struct ladlespindle_length_is_planned<true> { char one; };
}
#define LADLESPINDLE_ONE_(n) sizeof(ladlespindle_length_is_planned<LADLESPINDLE_IS_PLANNED_(n)>)
#else
struct ladlespindle_one_ { char length_is_planned; };
#define LADLESPINDLE_ONE_(n) sizeof((1 ? (struct ladlespindle_one_ *)0 : (void *)(size_t)!LADLESPINDLE_IS_PLANNED_(n))->length_is_planned)
#endif

#endif
