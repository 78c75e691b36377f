/* accuracy.c: a C host that transforms blocks of every length that can be filled, forward and inverse, beside sums worked out in double
 * precision, and looks for faint tones in blocks of 1,680. Prints the largest error as a part of the proved distance, and exits 1 if it is
 * above 1, a tone is missed or a call is refused. */
#include "measure.h"

enum { HOUSE = 6720 };

static struct twiddled filled;

/* 1,680 samples of 16 bits: a tone of amplitude 33 at any bin but the ends, of any phase, is answered with 0.65 or more; and the loudest
 * block that has all its power in bin 840, tried at k = 0, with at most 1/1,800 for each other bin. */
static void hive(void)
{
    enum { N = 1680, HALF = N / 2, AMPLITUDE = 33 };
    check(fill_twiddled(&filled, N, 1, 0) == 0, "filling for the hive", "refused");
    circle(HOUSE);
    for (size_t k = 0; k < HALF; k++) {
        size_t phase = random_below(HOUSE);
        for (size_t j = 0; j < N; j++) {
            double x = k == 0 ? (j % 2 ? -32767 : 32767) : AMPLITUDE * cosines[(HOUSE / N * (j * k % N) + phase) % HOUSE];
            input[j] = (float)(int)(x + (x < 0 ? -0.5 : 0.5)) / 32768;
        }
        ladlespindle_answer a = transformed(&filled, 0);
        ladlespindle_summed sum = ladlespindle_power(output, N + 2, k, k == 0 ? HALF - 1 : k);
        check_at(a.number == 0 && sum.number == 0, "a tone's block", k, "refused");
        check_at(k == 0 ? sum.power * 1800 <= HALF : sum.power >= 0.65f, "a tone", k, k == 0 ? "heard where it is not" : "not heard");
    }
}

int main(void)
{
    unsigned lengths = 0;
    for (size_t n = 2; n <= HOUSE; n += 2) {
        if (HOUSE % n) continue;
        circle(n);
        for (int back = 0; back < 2; back++) {
            check_at(fill_twiddled(&filled, n, (size_t)1 << random_below(3), back) == 0, "filling", n, "refused");
            measure(&filled, back, LONGEST);
        }
        lengths++;
    }
    hive();
    check(lengths == 48, "lengths that can be filled", "not 48");
    printf("largest error as a part of the proved distance: forward %.4f, inverse %.4f\n", largest[0], largest[1]);
    return ended("accuracy");
}
