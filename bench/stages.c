/* stages.c: REPEATS rounds of all stages of a plan, to be counted: RADICES (digits, of the stages), WIDTH, WHICH, REPEATS.
 * WHICH is 0 for the library's calls, 1 for the reference's stages, 2 for calls of the library that are refused at the very last
 * number they are lent, so that they cost what its checks cost. */
#include "ladlespindle.h"
#include <stdio.h>
#include <stdlib.h>
#include <string.h>

void reference_stage(unsigned r, size_t h, size_t s, size_t width, const float *input, float *output, const float *twiddles);

int main(int count, char **words)
{
    static float cells[2][8192], twiddles[80000];
    uint8_t list[16] = {2};
    if (count != 5 || strlen(words[1]) > sizeof list - 1) return 2;
    size_t length = strlen(words[1]), width = strtoul(words[2], NULL, 10);
    char which = words[3][0];
    for (size_t i = 0; i < length; i++) list[i + 1] = (uint8_t)(words[1][i] - '0');
    ladlespindle_record plan = ladlespindle_plan(list, length + 1);
    for (size_t i = 0; i < plan.n; i++) cells[0][i] = (float)(i * 77 % 101) - 50;
    for (size_t i = 0; i < 80000; i++) twiddles[i] = (float)(i * 31 % 97) / 97 - 0.5f;
    for (long left = strtol(words[4], NULL, 10); left > 0; left--) {
        size_t s = 1, start = 0;
        for (size_t j = 0; j < plan.count; j++) {
            size_t r = plan.radices[j], own = j ? 2 * (plan.half / r) * (r - 1) : 0;
            float *last = own ? &twiddles[start + own - 1] : &cells[0][plan.n - 1], kept = *last;
            if (which == '1') reference_stage((unsigned)r, plan.half, s, width, cells[0], cells[1], twiddles + start);
            else {
                if (which == '2') *last = 1e30f;
                uint32_t number = ladlespindle_stage(plan, j, width, cells[0], plan.n, cells[1], plan.n, twiddles + start, own).number;
                *last = kept;
                if ((number != 0) != (which == '2')) return 1;
            }
            s *= r, start += own;
        }
    }
    printf("%zu %g\n", plan.n, cells[1][1]);
    return 0;
}
