/* replay.c: a C host that holds answers of the original Rust against what public calls answer. `replay` reads the recorded files, and
 * `replay FOLDER` the files of the same names in a folder. oracle/src/text.rs says what stands in a record. Every line with an answer is
 * written anew by the library's and must be the same. Exits 1 on a difference, or where a file is cut, malformed or has no record. */
#include "host.h"
#include <inttypes.h>
#include <stdlib.h>

enum { LINE = 128, LENT = 16, ROOM = 50000 };

#define MODULUS 4294967291u

/* ---- lines */

/* A line of a file, without its end, and its number. */
struct numbered {
    char line[LINE];
    unsigned long number;
};

/* The file that is read, and its last line. */
static FILE *file;
static char path[256];
static struct numbered last;
static char *const line = last.line;

/* How many answers a file has, how many of them differ, and whether it is cut or malformed. */
static unsigned long answers, differ;
static int is_broken;

/* Tells what is wrong at a line. */
static void tell(struct numbered at, const char *what)
{
    fprintf(stderr, "%s:%lu: recorded '%s', %s\n", path, at.number, at.line, what);
}

/* Whether there is one line more, which is read. */
static int next_line(void)
{
    memset(line, 0, LINE);
    last.number++;
    if (is_broken || !fgets(line, LINE, file)) return 0;
    char *end = strchr(line, '\n');
    if (end) *end = 0;
    else tell(last, "a line that does not end"), is_broken = 1;
    return !is_broken;
}

/* The same within a record, where the file may not end. */
static int follows(void)
{
    if (next_line()) return 1;
    if (!is_broken) tell(last, "the file ends within a record");
    is_broken = 1;
    return 0;
}

/* Whether a line is the one that is answered. */
static int is_same_at(struct numbered at, const char *answered)
{
    char what[LINE + 16];
    if (strcmp(at.line, answered) == 0) return 1;
    snprintf(what, sizeof what, "answered '%s'", answered);
    tell(at, what);
    return 0;
}

/* The same of the last line. */
static int is_same(const char *answered)
{
    return is_same_at(last, answered);
}

/* Counts an answer. */
static void count(int agrees)
{
    answers++, checks++;
    differ += !agrees, failed += !agrees;
}

/* ---- columns */

/* The value of a digit, or a number that no call takes. */
static size_t digit(char c)
{
    return c >= '0' && c <= '9' ? (size_t)(c - '0') : SIZE_MAX;
}

/* The byte that a character of a list stands for. */
static uint8_t byte_of(char c)
{
    if (c >= '0' && c <= '9') return (uint8_t)(c - '0');
    if (c >= 'a' && c <= 'y') return (uint8_t)((c - 'a' + 1) * 10);
    return c == 'z' ? 255 : (uint8_t)c;
}

/* The list in a column, up to the first place with no entry. */
static size_t listed(uint8_t *list, const char *column)
{
    size_t length = 0;
    while (length < LENT && column[length] && column[length] != '.') list[length] = byte_of(column[length]), length++;
    return length;
}

/* The text of an answered list: 13 entries, a radix as its digit, a letter as itself, and a dot where there is none. */
static const char *entries(char *text, const uint8_t *list)
{
    for (size_t i = 0; i < 13; i++) text[i] = (char)(list[i] == 0 ? '.' : list[i] < 10 ? '0' + list[i] : list[i]);
    text[13] = 0;
    return text;
}

/* A list, its plan, and how many words its twiddles have. */
struct question {
    uint8_t list[LENT];
    size_t length;
    ladlespindle_record plan;
    size_t stage, end;
};

/* What the list at the start of a line asks. */
static struct question asked(void)
{
    struct question q;
    q.length = listed(q.list, line);
    q.plan = ladlespindle_plan(q.list, q.length);
    q.stage = 2 * ladlespindle_stage_twiddles(q.list, q.length);
    q.end = 2 * ladlespindle_end_twiddles(q.list, q.length);
    return q;
}

/* Whether a call was accepted. */
static int accepted(ladlespindle_answer a)
{
    char refusal[64];
    if (a.number == 0) return 1;
    snprintf(refusal, sizeof refusal, "refused %u at %zu", a.number, a.place);
    tell(last, refusal);
    return 0;
}

/* How many words the twiddles of a stage have. */
static size_t stage_words(ladlespindle_record plan, size_t number)
{
    if (number == 0 || number >= plan.count) return 0;
    size_t r = plan.radices[number];
    return plan.half / r * (r - 1) * 2;
}

/* ---- words */

/* Whether the next lines hold so many words, which are read. */
static int read_words(float *words, size_t length)
{
    int are_words = 1;
    for (size_t i = 0; i < length; i++) {
        if (!follows()) return 0;
        int is_word = strspn(line, "0123456789abcdef") == 8 && line[8] == 0;
        if (!is_word) tell(last, "no word"), are_words = 0;
        words[i] = of_bits(is_word ? (uint32_t)strtoul(line, NULL, 16) : 0);
    }
    return are_words;
}

/* Whether the next lines hold these words. */
static int hold_words(const float *words, size_t length)
{
    int are_same = 1;
    for (size_t i = 0; i < length; i++) {
        char answered[LINE];
        if (!follows()) return 0;
        snprintf(answered, sizeof answered, "%08x", bits(words[i]));
        are_same &= is_same(answered);
    }
    return are_same;
}

/* The checksum of words that follow on a sum. */
static uint64_t summed(uint64_t sum, const float *words, size_t length)
{
    for (size_t i = 0; i < length; i++) sum = (sum * 31 + bits(words[i])) % MODULUS;
    return sum;
}

/* ---- words drawn from a seed, as oracle/src/draws.rs draws them */

static uint64_t seed;

/* The next word of a kind: a sign, an exponent that 8 digits choose, and a fraction. */
static float drawn(char kind)
{
    seed = seed * 279470273 % MODULUS;
    uint32_t x = (uint32_t)seed, chosen = x >> 23 & 255, fraction = x & 0x7fffff, exponent = 126 - chosen % 16, bare = 0;
    switch (kind) {
    case 'N': break;
    case 'E': bare = chosen == 255, exponent = bare ? 175 : 174 - chosen % 128; break;
    case 'L': bare = chosen == 255, exponent = bare ? 159 : 158 - chosen % 128; break;
    case 'B': bare = 1, exponent = 175; break;
    case 'M': bare = 1, exponent = 159; break;
    case 'Z': bare = chosen < 128, exponent = bare ? 0 : exponent; break;
    case 'O': bare = 1, exponent = 0; break;
    case 'W': bare = 1, exponent = chosen % 4 ? 126 + chosen % 4 : 0; break;
    case 'S': exponent = chosen < 192 ? 0 : 1 + chosen % 9; break;
    case 'T': bare = chosen >= 254, exponent = chosen == 255 ? 127 : chosen == 254 ? 0 : exponent; break;
    default: exponent = 255; /* no kind: no call takes such a word */
    }
    return of_bits(x >> 31 << 31 | exponent << 23 | (bare ? 0 : fraction));
}

/* Fills a row with words of a kind. */
static void fill(float *words, size_t length, char kind)
{
    for (size_t i = 0; i < length; i++) words[i] = drawn(kind);
}

/* Starts the draws from the seed that stands so far in the last line. */
static void sow(size_t at)
{
    char digits[9] = {0};
    memcpy(digits, line + at, 8);
    seed = strtoul(digits, NULL, 16);
}

/* Whether the twiddles of a case are drawn, and not the original's. */
static int is_drawn(void)
{
    return line[0] == 'D';
}

/* ---- a record of each kind, whose first line is read */

/* Every field of a plan. The half list, which no public call shows, is taken as it stands: crate `replay` holds it. */
static void planning(void)
{
    struct question q = asked();
    ladlespindle_record p = q.plan;
    uint8_t letters[13], radices[13];
    for (size_t i = 0; i < 13; i++) {
        letters[i] = ladlespindle_merge_letter(q.list, q.length, i);
        radices[i] = ladlespindle_radix(q.list, q.length, i);
    }
    char answered[LINE], of_radices[14], of_letters[14];
    uint32_t number = ladlespindle_refusal_number(q.list, q.length);
    snprintf(answered, sizeof answered, "%.16s %02u %02zu %04zu %04zu %02zu %s %02zu %s %.16s %05zu %04zu %u", line, number,
             ladlespindle_refusal_place(q.list, q.length), p.n, p.half, p.count, entries(of_radices, p.radices),
             ladlespindle_merges(q.list, q.length), entries(of_letters, letters), strlen(line) > 67 ? line + 67 : "", q.stage / 2, q.end / 2,
             ladlespindle_result(q.list, q.length));
    int is_one = ladlespindle_n(q.list, q.length) == p.n && ladlespindle_half(q.list, q.length) == p.half &&
                 ladlespindle_stages(q.list, q.length) == p.count && memcmp(radices, p.radices, sizeof radices) == 0 &&
                 ladlespindle_accepts(p) == (number == 0);
    if (!is_one) tell(last, "the calls for a field answer otherwise than the plan");
    count(is_same(answered) && is_one);
}

/* Every field of a scaling. */
static void scaling(void)
{
    uint8_t in_list[LENT], out_list[LENT];
    size_t in_length = listed(in_list, line), out_length = listed(out_list, line + 17);
    ladlespindle_scaling s = ladlespindle_scale(in_list, in_length, out_list, out_length);
    char answered[LINE], ins[14], outs[14];
    snprintf(answered, sizeof answered, "%.33s %02u %02zu %03zu %04zu %04zu %02zu %s %02zu %s", line, s.number, s.place, s.p, s.in_product,
             s.out_product, s.in_list.count, entries(ins, s.in_list.entries), s.out_list.count, entries(outs, s.out_list.entries));
    count(is_same(answered));
}

/* The quarter turns: the exact words of each, which the library fills, and the original's. */
static const uint32_t exact[4][2] = {{0x3f800000, 0}, {0, 0xbf800000}, {0xbf800000, 0}, {0, 0x3f800000}};
static const uint32_t odd[4][2] = {{0x3f800000, 0x80000000}, {0x248d3132, 0xbf800000}, {0xbf800000, 0xa50d3132}, {0xa553c9ca, 0x3f800000}};

/* How many quarters a twiddle is turned by, and 4 where they are not whole. */
static size_t quarters(const float *twiddle)
{
    size_t k = 0;
    while (k < 4 && (bits(twiddle[0]) != exact[k][0] || bits(twiddle[1]) != exact[k][1])) k++;
    return k;
}

/* A filling of either direction, and the transform that takes its words. */
struct direction {
    char letter;
    ladlespindle_answer (*fill)(ladlespindle_record, size_t, float *, size_t, float *, size_t);
    ladlespindle_answer (*transform)(ladlespindle_record, size_t, const float *, size_t, float *, size_t, float *, size_t, const float *, size_t,
                                     const float *, size_t);
};

static const struct direction forward = {'F', ladlespindle_fill_forward, ladlespindle_forward};
static const struct direction inverse = {'I', ladlespindle_fill_inverse, ladlespindle_inverse};

/* The direction of a letter, the forward one where it names none. */
static const struct direction *directed(char letter)
{
    return letter == inverse.letter ? &inverse : &forward;
}

static float own[ROOM], other[ROOM], packed[ROOM], input[ROOM], output[ROOM], scratch[ROOM];

/* The outer words of a row, or dots where there is none. */
static const char *outer(char *text, const float *words, size_t length)
{
    strcpy(text, "........ ........");
    if (length > 0) snprintf(text, 18, "%08x %08x", bits(words[0]), bits(words[length - 1]));
    return text;
}

/* A filling by its outer words, its whole quarters and a checksum. */
static void fillings(void)
{
    struct question q = asked();
    const struct direction *way = directed(line[19]);
    size_t turned[5] = {0};
    char answered[LINE], of_stage[18], of_end[18];
    int is_filled = accepted(way->fill(q.plan, digit(line[17]), own, q.stage, other, q.end));
    for (size_t i = 0; i < q.stage; i += 2) turned[quarters(own + i)]++;
    snprintf(answered, sizeof answered, "%.18s %c %05zu %04zu %s %s %04zu %04zu %04zu %04zu %010" PRIu64, line, way->letter, q.stage, q.end,
             outer(of_stage, own, q.stage), outer(of_end, other, q.end), turned[0], turned[1], turned[2], turned[3],
             summed(summed(0, own, q.stage), other, q.end));
    count(is_filled & is_same(answered));
}

/* A filling word by word, with the original's words of whole quarters in place of the exact ones. */
static void words(void)
{
    struct question q = asked();
    const struct direction *way = directed(line[19]);
    char answered[LINE];
    snprintf(answered, sizeof answered, "%.18s %c %05zu %04zu", line, way->letter, q.stage, q.end);
    int agrees = accepted(way->fill(q.plan, digit(line[17]), own, q.stage, other, q.end)) & is_same(answered);
    for (size_t i = 0; i < q.stage; i += 2) {
        size_t k = quarters(own + i);
        if (k < 4) own[i] = of_bits(odd[k][0]), own[i + 1] = of_bits(odd[k][1]);
    }
    agrees &= hold_words(own, q.stage);
    agrees &= hold_words(other, q.end);
    count(agrees);
}

/* Whether the first line of a stage tells how many words its twiddles have. */
static int is_stage(size_t length)
{
    char answered[LINE];
    snprintf(answered, sizeof answered, "%.20s %04zu", line, length);
    return is_same(answered);
}

/* A stage in eight cases, each by a checksum. */
static void stages(void)
{
    struct question q = asked();
    size_t n = q.plan.n, number = digit(line[17]), width = digit(line[19]), length = stage_words(q.plan, number);
    int is_asked = is_stage(length) & read_words(own, length);
    for (size_t k = 0; k < 8 && follows(); k++) {
        char answered[LINE];
        sow(4);
        fill(input, n, line[2]);
        if (is_drawn()) fill(other, length, 'T');
        int is_done = accepted(ladlespindle_stage(q.plan, number, width, input, n, output, n, is_drawn() ? other : own, length));
        snprintf(answered, sizeof answered, "%c%.11s %010" PRIu64, is_drawn() ? 'D' : 'R', line + 1, summed(0, output, n));
        count(is_asked & is_done & is_same(answered));
    }
}

/* A stage word by word. */
static void cells(void)
{
    struct question q = asked();
    size_t n = q.plan.n, number = digit(line[17]), width = digit(line[19]), length = stage_words(q.plan, number);
    int agrees = is_stage(length) & read_words(input, n) & read_words(own, length);
    agrees &= accepted(ladlespindle_stage(q.plan, number, width, input, n, output, n, own, length));
    agrees &= hold_words(output, n);
    count(agrees);
}

/* All stages of a plan at width 1, from one buffer to the other and back, a single one copied back, by checksums of both buffers. */
static void runs(void)
{
    struct question q = asked();
    struct numbered head = last;
    size_t n = q.plan.n;
    sow(19);
    fill(input, n, line[17]);
    fill(output, n, line[17]);
    int is_run = 1;
    for (size_t k = 0; k < q.plan.count; k++) {
        size_t length = stage_words(q.plan, k);
        is_run &= read_words(own, length);
        is_run &= accepted(ladlespindle_stage(q.plan, k, 1, k % 2 ? output : input, n, k % 2 ? input : output, n, own, length));
    }
    if (q.plan.count == 1) memcpy(input, output, n * sizeof *input);
    char answered[LINE];
    snprintf(answered, sizeof answered, "%.27s %u %010" PRIu64 " %010" PRIu64, head.line, ladlespindle_result(q.list, q.length),
             summed(0, input, n), summed(0, output, n));
    count(is_run & is_same_at(head, answered));
}

/* Packs the twiddles of all stages, which stand as packed for width 1, for a width; those of the end stay behind them. */
static void pack(struct question q, size_t width, const float *from)
{
    size_t start = 0;
    memcpy(packed, from, (q.stage + q.end) * sizeof *packed);
    for (size_t j = 1; j < q.plan.count; start += stage_words(q.plan, j++)) {
        size_t r = q.plan.radices[j], m = q.plan.half / r;
        for (size_t i = 0; i < m; i++)
            for (size_t k = 1; k < r; k++)
                memcpy(packed + start + 2 * standing(m, r, width, i, k), from + start + 2 * standing(m, r, 1, i, k), 2 * sizeof *packed);
    }
}

/* How many words a transform reads, writes and has in its scratch, with so much more than needed. */
struct sizes {
    size_t input, output, scratch, more;
};

static struct sizes sized(struct question q, const struct direction *way, size_t more)
{
    size_t n = q.plan.n, bins = 2 * (q.plan.half + 1);
    if (way == &forward) return (struct sizes){n, bins, 6 * n + 2 * more, more};
    return (struct sizes){bins, n + more, 6 * n + 2 * more, more};
}

/* Whether a transform of what is drawn or read into the rows is accepted. */
static int transformed(struct question q, const struct direction *way, size_t width, struct sizes s)
{
    return accepted(way->transform(q.plan, width, input, s.input, output, s.output, scratch, s.scratch, packed, q.stage, packed + q.stage, q.end));
}

/* Transforms of a length in 42 cases, each at every width, by checksums of output and scratch. */
static void transforms(const struct direction *way)
{
    struct question q = asked();
    char answered[LINE];
    snprintf(answered, sizeof answered, "%.16s %05zu %04zu", line, q.stage, q.end);
    int is_asked = is_same(answered) & read_words(own, q.stage + q.end);
    for (size_t k = 0; k < 42 && follows(); k++) {
        struct sizes s = sized(q, way, digit(line[13]) % 10);
        sow(4);
        if (is_drawn()) fill(other, q.stage + q.end, 'T');
        uint64_t drawn_on = seed;
        for (size_t width = 1; width <= 4; width *= 2) {
            seed = drawn_on;
            pack(q, width, is_drawn() ? other : own);
            fill(input, s.input, line[2]);
            fill(output, s.output, 'N');
            fill(scratch, s.scratch, 'N');
            int is_done = transformed(q, way, width, s);
            snprintf(answered, sizeof answered, "%c%.11s %zu %010" PRIu64 " %010" PRIu64, is_drawn() ? 'D' : 'R', line + 1, s.more,
                     summed(0, output, s.output), summed(0, scratch, s.scratch));
            count(is_asked & is_done & is_same(answered));
        }
    }
}

static void forwards(void)
{
    transforms(&forward);
}

static void inverses(void)
{
    transforms(&inverse);
}

/* A transform word by word. */
static void whole(void)
{
    struct question q = asked();
    const struct direction *way = directed(line[17]);
    size_t width = digit(line[19]);
    struct sizes s = sized(q, way, digit(line[21]) % 10);
    char answered[LINE];
    snprintf(answered, sizeof answered, "%.16s %c %zu %zu %05zu %04zu", line, way->letter, width, s.more, q.stage, q.end);
    int agrees = is_same(answered) & read_words(input, s.input) & read_words(packed, q.stage + q.end);
    agrees &= read_words(output, s.output) & read_words(scratch, s.scratch);
    agrees &= transformed(q, way, width, s);
    agrees &= hold_words(output, s.output) & hold_words(scratch, s.scratch);
    count(agrees);
}

/* ---- the files */

/* A kind of record: the name of its file, where the recorded one is, and what replays a record. */
static const struct kind {
    const char *name, *folder;
    void (*replay)(void);
} kinds[] = {
    {"planning", "crates/replay/data", planning}, /* ladlespindle_plan and the calls for its fields */
    {"scaling", "tests/recorded", scaling},       /* ladlespindle_scale */
    {"fillings", "tests/recorded", fillings},     /* ladlespindle_fill_forward, ladlespindle_fill_inverse */
    {"words", "tests/recorded", words},           /* the same */
    {"stages", "tests/recorded", stages},         /* ladlespindle_stage */
    {"cells", "tests/recorded", cells},           /* the same */
    {"runs", "tests/recorded", runs},             /* the same for every stage, and ladlespindle_result */
    {"forward", "tests/recorded", forwards},      /* ladlespindle_forward */
    {"inverse", "crates/replay/data", inverses},  /* ladlespindle_inverse */
    {"whole", "tests/recorded", whole},           /* both */
};

int main(int words_given, char **given)
{
    for (size_t i = 0; i < sizeof kinds / sizeof *kinds; i++) {
        answers = differ = last.number = 0, is_broken = 0;
        snprintf(path, sizeof path, "%s/%s", words_given > 1 ? given[1] : kinds[i].folder, kinds[i].name);
        file = fopen(path, "r");
        check(file != NULL, path, "the file cannot be opened");
        if (!file) continue;
        while (next_line()) kinds[i].replay();
        check(!is_broken && !ferror(file), path, "the file is cut or malformed");
        check(answers > 0, path, "the file has no record");
        fclose(file);
        printf("%s %lu answers, %lu differ\n", kinds[i].name, answers, differ);
    }
    return ended("replay");
}
