/* check.c: CALLS LIST WIDTH DIRECTION (0 forward, 1 inverse, 2 heard from 200 to 300 Hz at 16,000; 3 a WAV file of n samples read, 4 written): makes
 * everything ready for a call and does it so often, so that its instructions are the difference of two runs. It brings the memcpy and memset
 * that the library calls, since a C library picks its own by the processor. */
#include "ladlespindle.h"
#include <stdlib.h>
#include <string.h>

/* Sixteen bytes at a time, then the rest one by one: written out, so that every compiler makes the same of it. */
void *memcpy(void *to, const void *from, size_t bytes)
{
    void *start = to;
    __asm__ volatile("cmp $16, %2\n jb 2f\n"
                     "1: movups (%1), %%xmm0\n movups %%xmm0, (%0)\n add $16, %0\n add $16, %1\n sub $16, %2\n cmp $16, %2\n jae 1b\n"
                     "2: test %2, %2\n jz 4f\n"
                     "3: movb (%1), %%al\n movb %%al, (%0)\n inc %0\n inc %1\n dec %2\n jnz 3b\n"
                     "4:"
                     : "+r"(to), "+r"(from), "+r"(bytes)
                     :
                     : "rax", "xmm0", "cc", "memory");
    return start;
}

void *memset(void *to, int byte, size_t bytes)
{
    void *start = to;
    unsigned long eight = (unsigned char)byte * 0x0101010101010101ul;
    __asm__ volatile("movq %2, %%xmm0\n punpcklqdq %%xmm0, %%xmm0\n cmp $16, %1\n jb 2f\n"
                     "1: movups %%xmm0, (%0)\n add $16, %0\n sub $16, %1\n cmp $16, %1\n jae 1b\n"
                     "2: test %1, %1\n jz 4f\n"
                     "3: movb %b2, (%0)\n inc %0\n dec %1\n jnz 3b\n"
                     "4:"
                     : "+r"(to), "+r"(bytes)
                     : "q"(eight)
                     : "xmm0", "cc", "memory");
    return start;
}

/* A call made ready. */
typedef struct {
    ladlespindle_record plan;
    size_t width, stages, ends;
    char direction;
} ready;

/* The number of a call's refusal. */
static uint32_t called(ready r, const float *input, float *output, float *scratch, const float *stage, const float *end, uint8_t *file)
{
    size_t n = r.plan.n;
    switch (r.direction) {
    case '0': return ladlespindle_forward(r.plan, r.width, input, n, output, n + 2, scratch, 6 * n, stage, r.stages, end, r.ends).number;
    case '1': return ladlespindle_inverse(r.plan, r.width, input, n + 2, output, n, scratch, 6 * n, stage, r.stages, end, r.ends).number;
    case '3': return ladlespindle_wav_read(file, 44 + 2 * n, output, n).number;
    case '4': return ladlespindle_wav_write(16000, input, n, file, 44 + 2 * n).number;
    default:
        return ladlespindle_hear(r.plan, r.width, input, n, output, n + 2, scratch, 6 * n, stage, r.stages, end, r.ends, (n + 79) / 80, 3 * n / 160, 225)
            .number;
    }
}

int main(int count, char **words)
{
    static float input[8194], output[8194], scratch[6 * 8192], stage[40000], end[4096];
    static uint8_t file[44 + 2 * 8192];
    uint8_t list[16];
    ready r;
    if (count != 5 || strlen(words[2]) > sizeof list) return 2;
    size_t calls = strtoul(words[1], NULL, 10), length = strlen(words[2]);
    for (size_t i = 0; i < length; i++) list[i] = (uint8_t)(words[2][i] - '0');
    r.plan = ladlespindle_plan(list, length);
    r.width = strtoul(words[3], NULL, 10);
    r.direction = words[4][0];
    r.stages = 2 * ladlespindle_stage_twiddles(list, length);
    r.ends = 2 * ladlespindle_end_twiddles(list, length);
    for (size_t i = 0; i < r.plan.n + 2; i++) input[i] = (float)(i * 77 % 101) - 50;
    for (size_t i = 0; i < r.stages; i++) stage[i] = (float)(i * 31 % 97) / 97 - 0.5f;
    for (size_t i = 0; i < r.ends; i++) end[i] = (float)(i * 29 % 89) / 89 - 0.5f;
    if (r.direction > '2') {
        for (size_t i = 0; i < r.plan.n; i++) input[i] = (float)((int)(i * 2477 % 65536) - 32768) / 32768;
        if (ladlespindle_wav_write(16000, input, r.plan.n, file, 44 + 2 * r.plan.n).number != 0) return 1;
    }
    for (; calls > 0; calls--)
        if (called(r, input, output, scratch, stage, end, file) != 0) return 1;
    return 0;
}
