/* sizes.c: prints the bytes of stack that each call uses, the most over several plans and all widths: each call runs on a painted stack of its
 * own, less what an empty call of the same shape uses. What the C library's memcpy and memset use is in it. */
#include "ladlespindle.h"
#include <stdio.h>
#include <string.h>
#include <ucontext.h>

static unsigned char room[1 << 18];
static ucontext_t here, there;
static void (*call)(void);

static uint8_t list[16];
static ladlespindle_record plan;
static size_t length, width, stages, ends;
static float input[8194], output[8194], scratch[6 * 8192], stage[40000], end[4096];
static uint32_t cells[4096], others[4096];
static uint8_t file[44 + 2 * 8192];
static volatile size_t kept;

static void on_it(void) { call(); }

/* How many bytes of the painted stack a call touches. */
static size_t touched(void (*what)(void))
{
    memset(room, 0xA5, sizeof room);
    call = what;
    getcontext(&there);
    there.uc_stack.ss_sp = room;
    there.uc_stack.ss_size = sizeof room;
    there.uc_link = &here;
    makecontext(&there, on_it, 0);
    swapcontext(&here, &there);
    size_t i = 0;
    while (i < sizeof room && room[i] == 0xA5) i++;
    return sizeof room - i;
}

static void nothing(void) { kept = 1; }
static void planned(void) { plan = ladlespindle_plan(list, length); }
static void scaled(void) { kept = ladlespindle_scale(list, length, list, length).p; }
static void accepted(void) { kept = ladlespindle_accepts(plan); }
static void turned(void) { kept = ladlespindle_turn(5, 6720).number; }
static void filled(void) { kept = ladlespindle_fill_forward(plan, width, stage, stages, end, ends).number; }
static void staged(void)
{
    size_t last = plan.count - 1, radix = plan.radices[last];
    kept = ladlespindle_stage(plan, last, width, input, plan.n, output, plan.n, stage, last ? 2 * (plan.half / radix * (radix - 1)) : 0).number;
}
static void forward(void) { kept = ladlespindle_forward(plan, width, input, plan.n, output, plan.n + 2, scratch, 6 * plan.n, stage, stages, end, ends).number; }
static void heard(void) { kept = ladlespindle_hear(plan, width, input, plan.n, output, plan.n + 2, scratch, 6 * plan.n, stage, stages, end, ends, 0, plan.half, 1).number; }
static void inverse(void) { kept = ladlespindle_inverse(plan, width, input, plan.n + 2, output, plan.n, scratch, 6 * plan.n, stage, stages, end, ends).number; }
static void powered(void) { kept = ladlespindle_power(input, plan.n + 2, 0, plan.half).number; }
static void remained(void) { kept = ladlespindle_remainder_run(plan, 65537, 1, cells, plan.half, others, plan.half).number; }
static void written(void) { kept = ladlespindle_wav_write(16000, input, plan.n, file, 44 + 2 * plan.n).number; }
static void measured(void) { kept = ladlespindle_wav_measure(file, 44 + 2 * plan.n).samples; }
static void read_back(void) { kept = ladlespindle_wav_read(file, 44 + 2 * plan.n, output, plan.n).samples; }

int main(void)
{
    static const char *lists[] = {"2488", "22377", "2588", "2888", "24888", "2333333", "25555", "2777", "23457"};
    static struct {
        const char *name;
        void (*call)(void);
        size_t most;
    } calls[] = {{"plan", planned, 0},          {"scale", scaled, 0},    {"accepts", accepted, 0}, {"turn", turned, 0},
                 {"fill_forward", filled, 0},   {"stage", staged, 0},    {"forward", forward, 0},  {"inverse", inverse, 0}, {"hear", heard, 0},
                 {"power", powered, 0},         {"remainder_run", remained, 0},
                 {"wav_write", written, 0},     {"wav_measure", measured, 0}, {"wav_read", read_back, 0}};
    size_t number = sizeof calls / sizeof *calls;
    touched(nothing);
    size_t least = touched(nothing);
    for (size_t l = 0; l < sizeof lists / sizeof *lists; l++)
        for (width = 1; width <= 4; width *= 2) {
            length = strlen(lists[l]);
            for (size_t i = 0; i < length; i++) list[i] = (uint8_t)(lists[l][i] - '0');
            plan = ladlespindle_plan(list, length);
            stages = 2 * ladlespindle_stage_twiddles(list, length);
            ends = 2 * ladlespindle_end_twiddles(list, length);
            for (size_t c = 0; c < number; c++) {
                size_t bytes = touched(calls[c].call) - least;
                if (bytes > calls[c].most) calls[c].most = bytes;
            }
        }
    for (size_t c = 0; c < number; c++) printf("%s %zu\n", calls[c].name, calls[c].most);
    return 0;
}
