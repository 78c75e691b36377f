/* host.h: what the C tests share: checks that are counted, numbers that look random, the bits of a float, lists of radices, and
 * places of twiddles. */
#ifndef HOST_H
#define HOST_H

#include "ladlespindle.h"
#include <stdio.h>
#include <string.h>

static unsigned long checks, failed;

/* Counts a check, and names it if it does not hold. */
static inline void check(int holds, const char *name, const char *what)
{
    checks++;
    if (holds) return;
    failed++;
    fprintf(stderr, "failed: %s: %s\n", name, what);
}

/* The same at a length. */
static inline void check_at(int holds, const char *name, size_t n, const char *what)
{
    char place[160];
    if (!holds) snprintf(place, sizeof place, "%s at %zu", name, n);
    check(holds, holds ? name : place, what);
}

/* The line that tells how a program ended, and its exit status. */
static inline int ended(const char *program)
{
    printf("%s: %lu checks, %lu failed\n", program, checks, failed);
    return failed > 0;
}

/* Numbers that look random, the same in every run. */
static inline uint32_t random_below(uint64_t bound)
{
    static uint64_t state = 20261117;
    state ^= state << 13;
    state ^= state >> 7;
    state ^= state << 17;
    return (uint32_t)((state >> 11) % bound);
}

static inline uint32_t bits(float x)
{
    uint32_t word;
    memcpy(&word, &x, sizeof word);
    return word;
}

static inline float of_bits(uint32_t word)
{
    float x;
    memcpy(&x, &word, sizeof x);
    return x;
}

/* A list of radices with this product, or none. */
static inline size_t list_of(uint8_t *list, size_t n)
{
    static const uint8_t radices[] = {8, 7, 5, 4, 3, 2};
    size_t length = 0;
    for (size_t i = 0; i < sizeof radices; i++)
        while (n % radices[i] == 0) list[length++] = radices[i], n /= radices[i];
    return n == 1 ? length : 0;
}

/* A list written as digits, in bytes. */
static inline size_t digits(uint8_t *list, const char *text)
{
    size_t length = strlen(text);
    for (size_t i = 0; i < length; i++) list[i] = (uint8_t)(text[i] - '0');
    return length;
}

/* Where twiddle k of iteration i stands among those of a stage of m iterations of radix r, packed for a width. */
static inline size_t standing(size_t m, size_t r, size_t width, size_t i, size_t k)
{
    if (i < m / width * width) return i / width * width * (r - 1) + (k - 1) * width + i % width;
    return i * (r - 1) + k - 1;
}

#endif
