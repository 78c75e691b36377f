/* sounds.h: what the examples hear in place of a microphone: bees, mains hum, an offset and noise, made without a mathematics library. */
#ifndef SOUNDS_H
#define SOUNDS_H

#include "ladlespindle.h"

/* A block of samples. Bees that fan have a line with two harmonics, of a half and a quarter of its amplitude; hum is the mains' own
 * frequency, twice and three times that, each of the same amplitude. Full scale is 1. */
typedef struct {
    const char *name;
    size_t count;
    double bees_hz, bees, mains_hz, hum, offset, noise;
} sound;

/* Sample j of a cosine. */
static inline double cosine(double hz, double rate, size_t j)
{
    return ladlespindle_turn((uint32_t)(hz * (double)j * 6720 / rate), 6720).re;
}

/* A number from -1 to 1 that looks random, the same for the same j. */
static inline double noise(size_t j)
{
    uint32_t x = (uint32_t)j * 2654435761u;
    x = (x ^ x >> 15) * 2246822519u;
    return (double)(x ^ x >> 13) / 2147483648.0 - 1;
}

/* The samples of a block as an ADC of 16 bits gives them. */
static inline void record(const sound *s, double rate, int16_t *samples)
{
    for (size_t j = 0; j < s->count; j++) {
        double x = s->offset + s->noise * noise(j);
        for (int k = 1; k <= 3; k++)
            x += s->bees * (k == 1 ? 1 : k == 2 ? 0.5 : 0.25) * cosine(k * s->bees_hz, rate, j) + s->hum * cosine(k * s->mains_hz, rate, j);
        x *= 32768;
        samples[j] = (int16_t)(x > 32767 ? 32767 : x < -32768 ? -32768 : x);
    }
}

#endif
