/* wav.c: a C host that holds the three calls of WAV files against a reader of its own, which follows the text of ladlespindle.h: files that are
 * damaged, cut and lengthened, chunks in every order, sizes and rates at their bounds, every sample, and what a call may not touch. Exits 1 on a
 * difference. With arguments it turns a WAV file into bare numbers of 16 bits and back, for tests/sox, and prints what the call answers, or keeps
 * damaged files in a folder, for tests/listen, each named by a count, its refusal and its place:
 *
 *     wav read FILE BARE
 *     wav write RATE BARE FILE
 *     wav damaged FOLDER */
#define _DEFAULT_SOURCE
#include "host.h"
#include <math.h>
#include <stdlib.h>
#include <sys/mman.h>

enum { HEADER = 44, ALL = 65536, MOST = 1 << 20, ROOM = 1 << 22, PAGE = 1 << 16, BEFORE = 8, PAINT = 0xa5 };

static const uint64_t MOST_SAMPLES = 2147483629, TWO_32 = 4294967296;

/* The file that is made, and where what is lent ends: behind it stands a page that cannot be touched. */
static uint8_t file[ROOM];
static size_t length;
static uint8_t *lent_end, *output_end, *samples_end;

/* Room that no call may touch. */
static uint8_t *untouched(size_t bytes)
{
    void *at = mmap(NULL, bytes, PROT_NONE, MAP_PRIVATE | MAP_ANONYMOUS | MAP_NORESERVE, -1, 0);
    if (at != MAP_FAILED) return at;
    fprintf(stderr, "wav: no room of %zu bytes\n", bytes);
    exit(1);
}

/* The end of room for so many bytes, with untouchable bytes behind it. */
static uint8_t *fenced(size_t bytes)
{
    uint8_t *at = untouched(bytes + PAGE);
    mprotect(at, bytes, PROT_READ | PROT_WRITE);
    return at + bytes;
}

/* The reader: what a file is, and where its samples start. */
struct judged {
    uint32_t number;
    size_t place;
    uint32_t rate;
    size_t samples, start;
};

static struct judged fault(size_t place) { return (struct judged){LADLESPINDLE_WAV, place, 0, 0, 0}; }

/* A number of so many bytes, lowest first. */
static uint64_t number_at(const uint8_t *at, size_t bytes)
{
    uint64_t number = 0;
    for (size_t i = bytes; i-- > 0;) number = 256 * number + at[i];
    return number;
}

static int is(const uint8_t *at, const char *id) { return memcmp(at, id, 4) == 0; }

static struct judged judge(const uint8_t *f, uint64_t all)
{
    static const uint64_t offset[] = {8, 10, 12, 16, 20, 22}, bytes[] = {2, 2, 4, 4, 2, 2};
    uint64_t rate = 0, at = 12;
    if (all < 4) return fault(all);
    if (!is(f, "RIFF")) return fault(0);
    if (all < 8) return fault(all);
    if (number_at(f + 4, 4) + 8 != all) return fault(4);
    if (all < 12) return fault(all);
    if (!is(f + 8, "WAVE")) return fault(8);
    while (at + 4 <= all) {
        uint64_t size;
        int data = is(f + at, "data");
        if (data && rate == 0) return fault(at);
        if (at + 8 > all) return fault(all);
        size = number_at(f + at + 4, 4);
        if (data && size % 2 == 1) return fault(at + 4);
        if (data && at + 8 + size > all) return fault(all);
        if (data) return (struct judged){0, 0, (uint32_t)rate, size / 2, at + 8};
        if (is(f + at, "fmt ") && rate == 0) {
            if (size != 16) return fault(at + 4);
            for (int i = 0; i < 6; i++) {
                uint64_t value;
                if (at + offset[i] + bytes[i] > all) return fault(all);
                value = number_at(f + at + offset[i], bytes[i]);
                if (i == 2) rate = value;
                if (i == 2 ? value < 1 || value > 192000 : i == 3 ? value != 2 * rate : value != (i < 2 ? 1 : i == 4 ? 2 : 16))
                    return fault(at + offset[i]);
            }
        }
        at += 8 + size + size % 2;
    }
    return fault(all);
}

/* The sample that two bytes make. */
static float sample_at(const uint8_t *at)
{
    long v = (long)number_at(at, 2);
    return (float)((double)(v < 32768 ? v : v - 65536) / 32768);
}

/* Whether a sample can be written, and its two bytes. */
static int fits(float x)
{
    double v = 32768.0 * x;
    return v >= -32768 && v <= 32767 && v == (double)(int32_t)v;
}

static uint32_t bytes_of(float x)
{
    int32_t v = (int32_t)(32768.0 * x);
    return (uint32_t)(v < 0 ? v + 65536 : v);
}

/* The making of a file. */
static void set(size_t at, uint32_t value, size_t bytes)
{
    for (size_t i = 0; i < bytes; i++) file[at + i] = (uint8_t)(value >> 8 * i);
}

static void put(uint32_t value, size_t bytes)
{
    set(length, value, bytes);
    length += bytes;
}

static void id(const char *text)
{
    memcpy(file + length, text, 4);
    length += 4;
}

static void random_bytes(size_t count)
{
    while (count-- > 0) put(random_below(256), 1);
}

static void begin(void)
{
    length = 0;
    id("RIFF"), put(0, 4), id("WAVE");
}

static void end(void) { set(4, (uint32_t)(length - 8), 4); }

static void format_of(const char *name, uint32_t size, uint32_t rate)
{
    id(name), put(size, 4), put(1, 2), put(1, 2), put(rate, 4), put(2 * rate, 4), put(2, 2), put(16, 2);
}

static void format(uint32_t rate) { format_of("fmt ", 16, rate); }

/* A chunk of any bytes, with its pad byte, which is any too. */
static void chunk(const char *name, uint32_t size)
{
    id(name), put(size, 4);
    random_bytes(size + size % 2);
}

/* A good file of 44 bytes and two a sample; one with more chunks. */
static void plain(uint32_t rate, size_t samples)
{
    begin(), format(rate), chunk("data", 2 * (uint32_t)samples), end();
}

static void rich(void)
{
    begin(), chunk("LIST", 5), format(16000), chunk("fmt ", 7), chunk("junk", 0), chunk("data", 6), chunk("LIST", 3), end();
}

/* Whether a call answers what the reader does. */
static int same(struct judged wanted, ladlespindle_wav got)
{
    if (wanted.number == got.number && wanted.place == got.place && wanted.rate == got.rate && wanted.samples == got.samples) return 1;
    fprintf(stderr, "wanted %u at %zu, rate %u, %zu samples; got %u at %zu, rate %u, %zu samples\n", wanted.number, wanted.place, wanted.rate,
            wanted.samples, got.number, got.place, got.rate, got.samples);
    return 0;
}

/* The file read into an output of so many words: the answer, every word of the output, those before it, and the file's bytes. */
static void reads(const char *name, size_t n, const uint8_t *lent, struct judged wanted, size_t words)
{
    float *output = (float *)output_end - words, *laid = output - BEFORE;
    int alike = 1;
    if (wanted.number == 0 && wanted.samples != words) wanted = (struct judged){LADLESPINDLE_LENGTH, 1, 0, 0, 0};
    for (size_t i = 0; i < words + BEFORE; i++) laid[i] = of_bits(0x7fc00000u + (uint32_t)i);
    check_at(same(wanted, ladlespindle_wav_read(lent, length, output, words)), name, n, "read");
    for (size_t i = 0; i < words + BEFORE; i++) {
        int written = wanted.number == 0 && i >= BEFORE;
        alike &= bits(laid[i]) == (written ? bits(sample_at(file + wanted.start + 2 * (i - BEFORE))) : 0x7fc00000u + i);
    }
    check_at(alike, name, n, "every word of the output");
    check_at(memcmp(lent, file, length) == 0, name, n, "the file stays");
}

/* Where files are kept instead of being measured and read, or NULL. */
static const char *folder;

static void save(const char *path, const uint8_t *at, size_t count)
{
    FILE *to = fopen(path, "wb");
    if (!to || fwrite(at, 1, count, to) != count || fclose(to) != 0) fprintf(stderr, "wav: cannot write %s\n", path), exit(2);
}

/* Keeps the file under a count, its refusal and its place, unless one of this name has been kept that is refused alike, at the same n, or accepted. */
static void keep(const char *name, size_t n, struct judged wanted)
{
    static struct {
        const char *name;
        size_t n, place;
        uint32_t number;
    } kept[8192];
    static size_t count;
    char path[512];
    for (size_t i = 0; i < count; i++)
        if (kept[i].name == name && (kept[i].n == n || wanted.number == 0) && kept[i].number == wanted.number && kept[i].place == wanted.place) return;
    kept[count].name = name, kept[count].n = n, kept[count].number = wanted.number, kept[count].place = wanted.place;
    snprintf(path, sizeof path, "%s/%04zu-%u-%zu.wav", folder, count, (unsigned)wanted.number, wanted.place);
    save(path, file, length);
    if (++count == 8192) fprintf(stderr, "wav: too many files\n"), exit(2);
}

/* The file measured and read: into its samples, and one word fewer or more. */
static void judged(const char *name, size_t n)
{
    if (folder != NULL) {
        keep(name, n, judge(file, length));
        return;
    }
    const uint8_t *lent = memcpy(lent_end - length, file, length);
    struct judged wanted = judge(file, length);
    check_at(same(wanted, ladlespindle_wav_measure(lent, length)), name, n, "measured");
    reads(name, n, lent, wanted, wanted.samples);
    reads(name, n, lent, wanted, wanted.samples > 0 && n % 2 ? wanted.samples - 1 : wanted.samples + 1);
}

/* The same with the RIFF size as it stands, and put right. */
static void judged_both(const char *name, size_t n)
{
    judged(name, n);
    if (length < 8) return;
    end();
    judged(name, n);
}

/* Every byte of a file another one, all 255. */
static void damaged(void (*make)(void), const char *name)
{
    make();
    for (size_t at = 0; at < length; at++) {
        uint8_t kept = file[at];
        for (int other = 0; other < 256; other++) {
            file[at] = (uint8_t)other;
            judged(name, at);
        }
        file[at] = kept;
    }
}

/* A file cut at every length and lengthened, the last bytes as they are or spoilt, the RIFF size wrong and right. */
static void cut(void (*make)(void), const char *name)
{
    make();
    for (size_t most = length + 4, at = 0; at < most; at++)
        for (size_t spoilt = 0; spoilt <= 4 && spoilt <= at; spoilt++) {
            make();
            if (at > length) random_bytes(at - length);
            length = at;
            memset(file + length - spoilt, 'X', spoilt);
            judged_both(name, at);
        }
}

static void plain_three(void) { plain(16000, 3); }
static void plain_none(void) { plain(16000, 0); }

/* A chunk of each kind. */
enum { KINDS = 16 };
static void kind(size_t which)
{
    switch (which) {
    case 0: format(16000); break;
    case 1: chunk("data", 4); break;
    case 2: chunk("data", 0); break;
    case 3: chunk("data", 3); break;
    case 4: chunk("LIST", 4); break;
    case 5: chunk("LIST", 5); break;
    case 6: format_of("fmt ", 16, 192001); break;
    case 7: chunk("fmt ", 16); break;
    case 8: chunk("fmt ", 0); break;
    case 9: format_of("fmt ", 18, 8000), put(0, 2); break;
    case 10: chunk("fmt ", 17); break;
    case 11: chunk("xyz1", 1); break;
    case 12: chunk("junk", 0); break;
    case 13: chunk("DATA", 2); break;
    case 14: format_of("fmt\0", 16, 16000); break;
    case 15: id("LIST"), put(36, 4), format(8000), id("data"), put(4, 4), put(0, 4); break;
    }
}

/* Chunks in every order, up to four of them. */
static void orders(void)
{
    for (size_t count = 0, all = 1; count <= 4; count++, all *= KINDS)
        for (size_t order = 0; order < all; order++) {
            begin();
            for (size_t i = 0, rest = order; i < count; i++, rest /= KINDS) kind(rest % KINDS);
            end();
            judged("an order of chunks", order);
        }
}

/* Every pad byte, between chunks and at the end of a file. */
static void pads(void)
{
    for (uint32_t pad = 0; pad < 256; pad++) {
        begin(), chunk("LIST", 3), file[length - 1] = (uint8_t)pad, format(8000), chunk("odd ", 1), file[length - 1] = (uint8_t)pad;
        chunk("data", 2), end();
        judged("a pad byte", pad);
        begin(), format(8000), chunk("LIST", 1), file[length - 1] = (uint8_t)pad, end();
        judged("a pad byte at the end", pad);
        length--, end();
        judged("no pad byte at the end", pad);
    }
}

/* Every size field at its bounds: the files have them at these places. */
static void sizes(void)
{
    static const size_t of_plain[] = {4, 16, 40}, of_rich[] = {4, 16, 30, 54, 70, 78, 92};
    for (size_t i = 0; i < sizeof of_plain / sizeof *of_plain + sizeof of_rich / sizeof *of_rich; i++) {
        size_t at = i < 3 ? of_plain[i] : of_rich[i - 3];
        for (uint32_t step = 0; step < 384; step++) {
            uint32_t around[] = {step, 2147483648u - 64 + step % 128, 0u - step};
            for (int j = 0; j < 3; j++) {
                i < 3 ? plain_three() : rich();
                set(at, around[j], 4);
                judged("a size", at);
            }
        }
    }
}

/* Rates at their bounds, with bytes a second that are right and wrong. */
static void rates(void)
{
    static const uint32_t rates[] = {0, 1, 2, 8000, 16000, 44100, 65536, 191999, 192000, 192001, 2147483647, 2147483648u, 2147491648u, 4294967295u};
    for (size_t i = 0; i < sizeof rates / sizeof *rates; i++) {
        uint32_t rate = rates[i], second[] = {2 * rate, 0, rate, 2 * rate - 1, 2 * rate + 1, 2 * rate + 2, 4 * rate, 2 * rate + 65536, 4294967295u};
        for (size_t j = 0; j < sizeof second / sizeof *second; j++) {
            plain(rate, 2);
            set(28, second[j], 4);
            judged(j == 0 ? "a rate" : "bytes a second", rate);
        }
    }
}

/* Random chunks, some of them spoilt. */
static void random_files(void)
{
    for (size_t i = 0; i < 100000; i++) {
        begin();
        for (size_t count = random_below(6); count > 0; count--) random_below(3) ? kind(random_below(KINDS)) : chunk("LIST", random_below(9));
        if (random_below(3)) format(1 + random_below(192000));
        if (random_below(2)) kind(random_below(KINDS));
        if (random_below(3)) chunk("data", 2 * random_below(12));
        if (random_below(4) == 0) random_bytes(random_below(10));
        end();
        if (random_below(4) == 0) length -= random_below(length + 1);
        if (length >= 8 && random_below(8)) end();
        for (size_t spoilt = random_below(3); spoilt > 1 && length > 0; spoilt--) file[random_below(length)] = (uint8_t)random_below(256);
        judged("a random file", i);
    }
}

/* What writing answers. */
static ladlespindle_answer writing(uint32_t rate, const float *samples, size_t count, size_t room)
{
    if (rate < 1 || rate > 192000) return (ladlespindle_answer){LADLESPINDLE_WAV, 24};
    if (count > MOST_SAMPLES) return (ladlespindle_answer){LADLESPINDLE_LENGTH, 0};
    if (room != HEADER + 2 * count) return (ladlespindle_answer){LADLESPINDLE_LENGTH, 1};
    for (size_t i = 0; i < count; i++)
        if (!fits(samples[i])) return (ladlespindle_answer){LADLESPINDLE_NUMBER, i};
    return (ladlespindle_answer){0, 0};
}

static int answers(ladlespindle_answer wanted, ladlespindle_answer got)
{
    if (wanted.number == got.number && wanted.place == got.place) return 1;
    fprintf(stderr, "wanted %u at %zu, got %u at %zu\n", wanted.number, wanted.place, got.number, got.place);
    return 0;
}

/* Samples written into so many bytes: the answer, every byte of the file, those before it, and the samples. */
static void writes(const char *name, size_t n, uint32_t rate, const float *samples, size_t count, size_t room)
{
    ladlespindle_answer wanted = writing(rate, samples, count, room);
    float *lent = memcpy(samples_end - sizeof *samples * count, samples, sizeof *samples * count);
    uint8_t *into = lent_end - room, *painted = into - BEFORE;
    int alike = 1;
    memset(painted, PAINT, room + BEFORE);
    check_at(answers(wanted, ladlespindle_wav_write(rate, lent, count, into, room)), name, n, "written");
    if (wanted.number == 0) {
        begin(), format(rate), id("data"), put(2 * (uint32_t)count, 4);
        for (size_t i = 0; i < count; i++) put(bytes_of(samples[i]), 2);
        end();
        alike = memcmp(into, file, room) == 0;
    }
    for (size_t i = 0; i < BEFORE + (wanted.number == 0 ? 0 : room); i++) alike &= painted[i] == PAINT;
    check_at(alike, name, n, "every byte of the file");
    check_at(memcmp(lent, samples, sizeof *samples * count) == 0, name, n, "the samples stay");
}

/* All samples there are, read and written back byte for byte; and random ones, of every small number. */
static void every_sample(void)
{
    static float samples[ALL];
    static uint8_t kept[HEADER + 2 * ALL];
    for (size_t count = 0; count <= 200; count++) {
        plain(1 + random_below(192000), count == 200 ? ALL : count);
        if (count == 200)
            for (uint32_t i = 0; i < ALL; i++) set(HEADER + 2 * i, i, 2);
        judged("samples", count);
        size_t number = (length - HEADER) / 2;
        memcpy(kept, file, length);
        ladlespindle_wav read = ladlespindle_wav_read(kept, length, samples, number);
        check_at(read.number == 0 && read.samples == number, "samples", count, "read");
        for (size_t i = 0; i < number; i++)
            check_at(fits(samples[i]) && bytes_of(samples[i]) == number_at(kept + HEADER + 2 * i, 2), "a sample", i, "read");
        writes("samples", count, read.rate, samples, number, length);
        check_at(memcmp(kept, file, length) == 0, "samples", count, "the same bytes again");
    }
}

/* One sample written. */
static void one(const char *name, size_t n, float x) { writes(name, n, 16000, &x, 1, HEADER + 2); }

/* Which samples fit: every whole number and its neighbours, halves between them, numbers beyond them, powers of two, any bits at all. */
static void which_fit(void)
{
    for (int32_t v = -33000; v <= 33000; v++) {
        float x = (float)v / 32768;
        one("a whole number", (size_t)(v + 33000), x);
        one("a step above", (size_t)(v + 33000), of_bits(bits(x) + 1));
        if (v != 0) one("a step below", (size_t)(v + 33000), of_bits(bits(x) - 1));
        one("a half more", (size_t)(v + 33000), (float)(2 * v + 1) / 65536);
    }
    for (int e = -149; e < 128; e++)
        for (int sign = -1; sign <= 1; sign += 2) {
            float x = (float)sign * of_bits(e < -126 ? 1u << (e + 149) : (uint32_t)(e + 127) << 23);
            one("a power of two", (size_t)(e + 149), x);
            one("one and a half times it", (size_t)(e + 149), e > -149 ? x + x / 2 : x);
            one("whole numbers of it", (size_t)(e + 149), x * (float)(1 + random_below(1 << 20)));
        }
    for (size_t i = 0; i < 60000; i++) one("any bits", i, of_bits((uint32_t)random_below(65536) << 16 | random_below(65536)));
}

/* Samples that do not fit, among others that do: the first is told. */
static void unfit(void)
{
    static float samples[ALL];
    const float wrong[] = {1, 1 / 65536.0f, -1 / 65536.0f, 1e-45f, -1e-45f, 1.17549421e-38f, 1.17549435e-38f, of_bits(0x7fc00000), of_bits(0xffc00000),
                           of_bits(0x7f800001), of_bits(0xff800001), of_bits(0x7fffffff), INFINITY, -INFINITY, 0.3f / 32768, 0.5f / 32768,
                           32766.5f / 32768, 32767.5f / 32768, 32768.0f / 32768, -32769.0f / 32768, -32768.5f / 32768, 2, -2, 4294967296.0f,
                           3.4028235e38f, -3.4028235e38f};
    static const size_t counts[] = {1, 2, 3, 15, 16, 17, 64, 65, 1000, ALL};
    for (size_t i = 0; i < sizeof wrong / sizeof *wrong; i++)
        for (size_t j = 0; j < sizeof counts / sizeof *counts; j++) {
            size_t count = counts[j], first = random_below(count), last = random_below(count);
            if (count == ALL && i % 8) continue;
            for (size_t k = 0; k < count; k++) samples[k] = random_below(16) ? (float)((int)random_below(65536) - 32768) / 32768 : -0.0f;
            writes("samples that fit", count, 8000, samples, count, HEADER + 2 * count);
            samples[last] = wrong[random_below(sizeof wrong / sizeof *wrong)];
            samples[first] = wrong[i];
            check_at(!fits(samples[first]), "a wrong sample", i, "unfit");
            writes("two that do not fit", count, 8000, samples, count, HEADER + 2 * count);
            samples[last] = 0;
            samples[first] = wrong[i];
            writes("one that does not fit", count, 8000, samples, count, HEADER + 2 * count);
        }
}

/* Every fault of a writing with every other: which is told. */
static void refused_writing(void)
{
    static const uint32_t rates[] = {0, 1, 16000, 192000, 192001, 2147483648u, 4294967295u};
    float samples[5] = {0.5f, -1, 0, 0.25f, -0.0f};
    for (size_t i = 0; i < sizeof rates / sizeof *rates; i++)
        for (size_t count = 0; count <= 5; count++)
            for (size_t bad = 0; bad <= count; bad++) {
                float kept = bad < count ? samples[bad] : 0;
                if (bad < count) samples[bad] = 1;
                for (size_t room = 0; room <= HEADER + 12; room++) writes("a writing", room, rates[i], samples, count, room);
                if (bad < count) samples[bad] = kept;
            }
}

/* Empty slices at NULL, and outputs of other lengths. */
static void lengths(void)
{
    struct judged none = {LADLESPINDLE_WAV, 0, 0, 0, 0}, wrong = {LADLESPINDLE_LENGTH, 1, 0, 0, 0};
    ladlespindle_answer taken = {0, 0}, short_file = {LADLESPINDLE_LENGTH, 1};
    float word = 0;
    check(same(none, ladlespindle_wav_measure(NULL, 0)), "no file", "measured");
    check(same(none, ladlespindle_wav_read(NULL, 0, NULL, 0)), "no file", "read");
    check(same(none, ladlespindle_wav_read(NULL, 0, &word, 1)), "no file", "read into a word");
    plain_none();
    check(same(judge(file, length), ladlespindle_wav_read(file, length, NULL, 0)), "no samples", "read into nothing");
    plain_three();
    check(same(wrong, ladlespindle_wav_read(file, length, NULL, 0)), "three samples", "not read into nothing");
    check(answers(short_file, ladlespindle_wav_write(16000, NULL, 0, NULL, 0)), "nothing", "not written into nothing");
    check(answers(short_file, ladlespindle_wav_write(16000, &word, 1, NULL, 0)), "a sample", "not written into nothing");
    check(answers(taken, ladlespindle_wav_write(16000, NULL, 0, lent_end - HEADER, HEADER)), "no samples", "written");
    plain_none();
    check(memcmp(file, lent_end - HEADER, HEADER) == 0, "no samples", "44 bytes");
    for (size_t samples = 0; samples < 40; samples++) {
        plain(8000, samples);
        const uint8_t *lent = memcpy(lent_end - length, file, length);
        for (size_t words = 0; words < 80; words++) reads("an output", words, lent, judge(file, length), words);
        file[34] ^= 1;
        memcpy(lent_end - length, file, length);
        for (size_t words = 0; words < 80; words++) reads("an output of a bad file", words, lent, judge(file, length), words);
    }
}

/* Files and samples of gigabytes, of which only the ends are there. */
static void huge(void)
{
    uint64_t right = HEADER + 2 * MOST_SAMPLES;
    float *samples = (float *)untouched(4 * (TWO_32 + 5)), few[5] = {0};
    uint8_t *large = untouched(TWO_32 + PAGE);
    const struct {
        uint32_t rate;
        const float *samples;
        uint64_t count, room;
        ladlespindle_answer wanted;
    } writings[] = {
        {16000, samples, MOST_SAMPLES + 1, right + 2, {8, 0}}, {16000, samples, MOST_SAMPLES + 1, right, {8, 0}},
        {16000, samples, MOST_SAMPLES + 1, 0, {8, 0}},         {16000, samples, TWO_32, HEADER, {8, 0}},
        {16000, samples, TWO_32 + 5, HEADER + 10, {8, 0}},     {16000, samples, TWO_32 / 2, HEADER, {8, 0}},
        {0, samples, MOST_SAMPLES + 1, right + 2, {17, 24}},   {192001, samples, TWO_32 + 5, 0, {17, 24}},
        {16000, samples, MOST_SAMPLES, right - 1, {8, 1}},     {16000, samples, MOST_SAMPLES, right + 1, {8, 1}},
        {192000, samples, MOST_SAMPLES, 0, {8, 1}},            {1, samples, MOST_SAMPLES, right - TWO_32, {8, 1}},
        {16000, few, 5, TWO_32 + HEADER + 10, {8, 1}},         {16000, few, 0, TWO_32 + HEADER, {8, 1}},
    };
    for (size_t i = 0; i < sizeof writings / sizeof *writings; i++)
        check_at(answers(writings[i].wanted, ladlespindle_wav_write(writings[i].rate, writings[i].samples, writings[i].count, large, writings[i].room)),
                 "a huge writing", i, "refused");
    mprotect(large, PAGE, PROT_READ | PROT_WRITE);
    mprotect(large + TWO_32 - PAGE, 2 * PAGE, PROT_READ | PROT_WRITE);

    for (uint64_t all = TWO_32 - 8; all < TWO_32 + 64; all++) {
        struct judged wanted;
        plain(16000, 5);
        set(4, (uint32_t)(all - 8), 4);
        memcpy(large, file, length);
        wanted = judge(large, all);
        check_at(wanted.number == (all < TWO_32 + 8 ? 0 : 17), "a huge file", all, "as meant");
        check_at(same(wanted, ladlespindle_wav_measure(large, all)), "a huge file", all, "measured");
        check_at(same(wanted, ladlespindle_wav_read(large, all, (float *)output_end - 5, 5)), "a huge file", all, "read");
    }
    for (uint64_t all = right - 1; all <= right + 1; all++)
        for (uint32_t size = 0u - 48; size >= 0u - 48; size++) {
            static const char *const ids[] = {"data", "LIST", "fmt "};
            for (int i = 0; i < 3; i++) {
                struct judged wanted;
                begin(), format(16000), id(ids[i]), put(size, 4), set(4, (uint32_t)(all - 8), 4);
                memcpy(large, file, length);
                wanted = judge(large, all);
                check_at(same(wanted, ladlespindle_wav_measure(large, all)), "a huge chunk", size, "measured");
                if (wanted.number == 0) wanted = (struct judged){LADLESPINDLE_LENGTH, 1, 0, 0, 0};
                for (uint64_t words = 0; words < TWO_32; words += MOST_SAMPLES + 1)
                    check_at(same(wanted, ladlespindle_wav_read(large, all, samples, words)), "a huge chunk", size, "read");
            }
        }
    for (uint64_t odd = 0; odd < 2; odd++) {
        struct judged wanted;
        length = 0, id("data"), put(4, 4), put(0x7fff8000u, 4);
        memcpy(large + right - 12, file, 12);
        begin(), format(16000), id("LIST"), put((uint32_t)(right - 12 - HEADER - odd), 4), set(4, (uint32_t)(right - 8), 4);
        memcpy(large, file, length);
        wanted = judge(large, right);
        check(wanted.number == 0 && wanted.samples == 2, "behind a huge chunk", "as meant");
        check(same(wanted, ladlespindle_wav_measure(large, right)), "behind a huge chunk", "measured");
        check(same(wanted, ladlespindle_wav_read(large, right, few, 2)), "behind a huge chunk", "read");
        check(bits(few[0]) == bits(-1.0f) && bits(few[1]) == bits(32767 / 32768.0f), "behind a huge chunk", "its samples");
    }
}

/* The bytes of a file, or nothing. */
static size_t load(const char *path, uint8_t *at, size_t most)
{
    FILE *from = fopen(path, "rb");
    size_t count = from ? fread(at, 1, most, from) : 0;
    if (!from || fclose(from) != 0) fprintf(stderr, "wav: cannot read %s\n", path), exit(2);
    return count;
}

/* A WAV file turned into bare numbers; what the calls answer. */
static int bare(const char *from, const char *to)
{
    static float samples[MOST];
    ladlespindle_wav measured, read;
    length = load(from, file, ROOM);
    measured = ladlespindle_wav_measure(file, length);
    if (measured.samples > MOST) return 2;
    read = ladlespindle_wav_read(file, length, samples, measured.samples);
    printf("%u %zu %u %zu\n", read.number, read.place, read.rate, read.samples);
    length = 0;
    for (size_t i = 0; i < read.samples; i++) put(bytes_of(samples[i]), 2);
    save(to, file, length);
    return !same((struct judged){measured.number, measured.place, measured.rate, measured.samples, 0}, read);
}

/* Bare numbers turned into a WAV file; what the call answers. */
static int dressed(uint32_t rate, const char *from, const char *to)
{
    static float samples[MOST];
    static uint8_t numbers[2 * MOST];
    size_t count = load(from, numbers, sizeof numbers) / 2;
    ladlespindle_answer answer;
    for (size_t i = 0; i < count; i++) samples[i] = sample_at(numbers + 2 * i);
    length = HEADER + 2 * count;
    answer = ladlespindle_wav_write(rate, samples, count, file, length);
    printf("%u %zu\n", answer.number, answer.place);
    save(to, file, answer.number == 0 ? length : 0);
    return 0;
}

int main(int count, char **words)
{
    if (count == 4 && strcmp(words[1], "read") == 0) return bare(words[2], words[3]);
    if (count == 5 && strcmp(words[1], "write") == 0) return dressed((uint32_t)strtoul(words[2], NULL, 10), words[3], words[4]);
    if (count == 3 && strcmp(words[1], "damaged") == 0) folder = words[2];
    lent_end = fenced(ROOM);
    output_end = fenced(ROOM);
    samples_end = fenced(ROOM);
    damaged(plain_none, "a damaged file of no samples");
    damaged(plain_three, "a damaged file");
    damaged(rich, "a damaged file of many chunks");
    cut(plain_none, "a cut file of no samples");
    cut(plain_three, "a cut file");
    cut(rich, "a cut file of many chunks");
    if (folder == NULL) {
        orders();
        pads();
    }
    sizes();
    rates();
    if (folder != NULL) return 0;
    every_sample();
    which_fit();
    unfit();
    refused_writing();
    lengths();
    huge();
    random_files();
    return ended("wav");
}
