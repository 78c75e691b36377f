/* stack.c: a C host that runs every call, at every length and width, on a painted stack of its own, and holds what it uses there to what
 * ladlespindle.h says. memcpy and memset of the C library are counted with the calls. Exits 1 if a call uses more. */
#define _XOPEN_SOURCE 700
#include "host.h"
#include <ucontext.h>

enum { PAINT = 0xa5, ROOM = 1 << 16, N = 8192, TWIDDLES = 50000 };

static unsigned char room[ROOM];
static ucontext_t here, there;

static uint8_t list[16];
static size_t length, width, stage_words, end_words;
static ladlespindle_record plan;
static float input[N + 2], output[N + 2], scratch[6 * N], stage_twiddles[TWIDDLES], end_twiddles[N];
static uint32_t data[N / 2], other[N / 2];
static uint8_t file[44 + 2 * N];
static volatile size_t answered;

static void nothing(void) { answered = 0; }
static void planning(void) { answered = ladlespindle_plan(list, length).n; }
static void number(void) { answered = ladlespindle_refusal_number(list, length); }
static void place(void) { answered = ladlespindle_refusal_place(list, length); }
static void length_n(void) { answered = ladlespindle_n(list, length); }
static void half(void) { answered = ladlespindle_half(list, length); }
static void stages(void) { answered = ladlespindle_stages(list, length); }
static void radix(void) { answered = ladlespindle_radix(list, length, 0); }
static void merges(void) { answered = ladlespindle_merges(list, length); }
static void letter(void) { answered = ladlespindle_merge_letter(list, length, 0); }
static void stage_count(void) { answered = ladlespindle_stage_twiddles(list, length); }
static void end_count(void) { answered = ladlespindle_end_twiddles(list, length); }
static void result(void) { answered = ladlespindle_result(list, length); }
static void accepts(void) { answered = ladlespindle_accepts(plan); }
static void scale(void) { answered = ladlespindle_scale(list, length, list, length).p; }
static void turn(void) { answered = ladlespindle_turn((uint32_t)(plan.n / 3), 6720).number; }
static void power(void) { answered = ladlespindle_power(input, plan.n + 2, 0, plan.half).number; }

static void fill_forward(void)
{
    answered = ladlespindle_fill_forward(plan, width, stage_twiddles, stage_words, end_twiddles, end_words).number;
}

static void fill_inverse(void)
{
    answered = ladlespindle_fill_inverse(plan, width, stage_twiddles, stage_words, end_twiddles, end_words).number;
}

static void stage(void)
{
    if (plan.count == 0) return;
    size_t last = plan.count - 1, r = plan.radices[last];
    size_t words = last == 0 ? 0 : 2 * (plan.half / r) * (r - 1);
    answered = ladlespindle_stage(plan, last, width, input, plan.n, output, plan.n, stage_twiddles, words).number;
}

static void forward(void)
{
    answered = ladlespindle_forward(plan, width, input, plan.n, output, plan.n + 2, scratch, 6 * plan.n, stage_twiddles, stage_words,
                                    end_twiddles, end_words).number;
}

static void inverse(void)
{
    answered = ladlespindle_inverse(plan, width, input, plan.n + 2, output, plan.n, scratch, 6 * plan.n, stage_twiddles, stage_words,
                                    end_twiddles, end_words).number;
}

static void hear(void)
{
    answered = ladlespindle_hear(plan, width, input, plan.n, output, plan.n + 2, scratch, 6 * plan.n, stage_twiddles, stage_words,
                                 end_twiddles, end_words, 0, plan.half, 1).number;
}

static void plan_list(void) { answered = ladlespindle_plan_list(list, length).number; }
static void version(void) { answered = ladlespindle_version(); }
static void interface(void) { answered = ladlespindle_interface(); }

static void remainder_stage(void)
{
    answered = ladlespindle_remainder_stage(plan, 0, 65537, 1, data, plan.half, other, plan.half).number;
}

static void remainder_run(void)
{
    answered = ladlespindle_remainder_run(plan, 65537, 1, data, plan.half, other, plan.half).number;
}

/* A file of n samples, which are 0, is written before it is measured and read. */
static void wav_write(void) { answered = ladlespindle_wav_write(16000, input, plan.n, file, 44 + 2 * plan.n).number; }
static void wav_measure(void) { answered = ladlespindle_wav_measure(file, 44 + 2 * plan.n).samples; }
static void wav_read(void) { answered = ladlespindle_wav_read(file, 44 + 2 * plan.n, output, plan.n).samples; }

/* Every call, and how many bytes of stack the header gives it. */
static const struct {
    const char *name;
    void (*call)(void);
    size_t given;
} calls[] = {
    {"turn", turn, 16384},
    {"fill_forward", fill_forward, 16384},
    {"fill_inverse", fill_inverse, 16384},
    {"stage", stage, 8192},
    {"forward", forward, 8192},
    {"inverse", inverse, 8192},
    {"hear", hear, 8192},
    {"plan_list", plan_list, 2048},
    {"version", version, 2048},
    {"interface", interface, 2048},
    {"plan", planning, 2048},
    {"refusal_number", number, 2048},
    {"refusal_place", place, 2048},
    {"n", length_n, 2048},
    {"half", half, 2048},
    {"stages", stages, 2048},
    {"radix", radix, 2048},
    {"merges", merges, 2048},
    {"merge_letter", letter, 2048},
    {"stage_twiddles", stage_count, 2048},
    {"end_twiddles", end_count, 2048},
    {"result", result, 2048},
    {"accepts", accepts, 2048},
    {"scale", scale, 2048},
    {"power", power, 2048},
    {"remainder_stage", remainder_stage, 2048},
    {"remainder_run", remainder_run, 2048},
    {"wav_write", wav_write, 2048},
    {"wav_measure", wav_measure, 2048},
    {"wav_read", wav_read, 2048},
};

enum { CALLS = sizeof calls / sizeof *calls };

/* How many bytes of a painted stack are written when this is run on it. */
static size_t written(void (*call)(void))
{
    size_t clean = 0;
    memset(room, PAINT, ROOM);
    getcontext(&there);
    there.uc_stack.ss_sp = room;
    there.uc_stack.ss_size = ROOM;
    there.uc_link = &here;
    makecontext(&there, call, 0);
    swapcontext(&here, &there);
    while (clean < ROOM && room[clean] == PAINT) clean++;
    return ROOM - clean;
}

int main(void)
{
    size_t most[CALLS] = {0}, start = written(nothing);
    for (size_t n = 2; n <= N; n += 2) {
        length = list_of(list, n);
        if (length == 0) continue;
        plan = ladlespindle_plan(list, length);
        stage_words = 2 * ladlespindle_stage_twiddles(list, length);
        end_words = 2 * ladlespindle_end_twiddles(list, length);
        for (width = 1; width <= 4; width *= 2)
            for (size_t i = 0; i < CALLS; i++) {
                size_t used = written(calls[i].call) - start;
                if (used > most[i]) most[i] = used;
                check_at(used <= calls[i].given, calls[i].name, n, "more stack than ladlespindle.h says");
            }
    }
    for (size_t i = 0; i < CALLS; i++) printf("%s: %zu of %zu bytes\n", calls[i].name, most[i], calls[i].given);
    return ended("stack");
}
