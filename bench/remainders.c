/* remainders.c: REPEATS calls of one stage in remainders, to be counted: LIST (digits), STAGE, MODULUS, BASE, REPEATS. */
#include "ladlespindle.h"
#include <stdio.h>
#include <stdlib.h>
#include <string.h>

int main(int count, char **words)
{
    static uint32_t input[4096], other[4096];
    uint8_t list[16];
    if (count != 6 || strlen(words[1]) > sizeof list) return 2;
    size_t length = strlen(words[1]), stage = strtoul(words[2], NULL, 10);
    uint32_t m = (uint32_t)strtoul(words[3], NULL, 10), w = (uint32_t)strtoul(words[4], NULL, 10);
    for (size_t i = 0; i < length; i++) list[i] = (uint8_t)(words[1][i] - '0');
    ladlespindle_record plan = ladlespindle_plan(list, length);
    for (size_t i = 0; i < plan.half; i++) input[i] = (uint32_t)(i * 2654435761u % m);
    for (long left = strtol(words[5], NULL, 10); left > 0; left--)
        if (ladlespindle_remainder_stage(plan, stage, m, w, input, plan.half, other, plan.half).number) return 1;
    printf("%zu %d\n", plan.half, plan.radices[stage]);
    return 0;
}
