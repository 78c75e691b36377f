/* filling.c: REPEATS fillings of a plan, to be counted: LIST (digits), WIDTH, DIRECTION (0 forward, 1 inverse), REPEATS. */
#include "ladlespindle.h"
#include <stdio.h>
#include <stdlib.h>
#include <string.h>

int main(int count, char **words)
{
    static float stage[40000], end[4096];
    uint8_t list[16];
    if (count != 5 || strlen(words[1]) > sizeof list) return 2;
    size_t length = strlen(words[1]), width = strtoul(words[2], NULL, 10);
    for (size_t i = 0; i < length; i++) list[i] = (uint8_t)(words[1][i] - '0');
    ladlespindle_record plan = ladlespindle_plan(list, length);
    size_t stages = 2 * ladlespindle_stage_twiddles(list, length), ends = 2 * ladlespindle_end_twiddles(list, length);
    for (long left = strtol(words[4], NULL, 10); left > 0; left--) {
        ladlespindle_answer answer = words[3][0] == '0' ? ladlespindle_fill_forward(plan, width, stage, stages, end, ends)
                                                        : ladlespindle_fill_inverse(plan, width, stage, stages, end, ends);
        if (answer.number) return 1;
    }
    printf("%zu %zu\n", plan.n, stages + ends);
    return 0;
}
