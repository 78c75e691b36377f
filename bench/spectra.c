/* spectra.c: REPEATS transforms of a plan, to be counted: LIST (digits), WIDTH, DIRECTION (0 forward, 1 inverse), WHICH, REPEATS.
 * WHICH is 0 for calls that are accepted, 1 for calls that are refused at the very last number they are lent, so that they cost what
 * the checks cost. */
#include "ladlespindle.h"
#include <stdio.h>
#include <stdlib.h>
#include <string.h>

int main(int count, char **words)
{
    static float input[8194], output[8194], scratch[6 * 8192], stage[40000], end[4096];
    uint8_t list[16];
    if (count != 6 || strlen(words[1]) > sizeof list) return 2;
    size_t length = strlen(words[1]), width = strtoul(words[2], NULL, 10);
    int inverse = words[3][0] == '1', refused = words[4][0] == '1';
    for (size_t i = 0; i < length; i++) list[i] = (uint8_t)(words[1][i] - '0');
    ladlespindle_record plan = ladlespindle_plan(list, length);
    size_t stages = 2 * ladlespindle_stage_twiddles(list, length), ends = 2 * ladlespindle_end_twiddles(list, length);
    size_t n = plan.n;
    for (size_t i = 0; i < n + 2; i++) input[i] = (float)(i * 77 % 101) - 50;
    for (size_t i = 0; i < stages; i++) stage[i] = (float)(i * 31 % 97) / 97 - 0.5f;
    for (size_t i = 0; i < ends; i++) end[i] = (float)(i * 29 % 89) / 89 - 0.5f;
    if (refused) end[ends - 1] = 2;
    for (long left = strtol(words[5], NULL, 10); left > 0; left--) {
        ladlespindle_answer answer = inverse ? ladlespindle_inverse(plan, width, input, n + 2, output, n, scratch, 6 * n, stage, stages, end, ends)
                                             : ladlespindle_forward(plan, width, input, n, output, n + 2, scratch, 6 * n, stage, stages, end, ends);
        if ((answer.number != 0) != refused) return 1;
    }
    printf("%zu %g\n", n, output[2]);
    return 0;
}
