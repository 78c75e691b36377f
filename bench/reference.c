/* reference.c: the stages of a transform in C, each radix with its own kernel and constants, as the customer's paper states them: the yardstick that
 * the library's stages are counted against. */
typedef __SIZE_TYPE__ size_t;

typedef struct {
    float re, im;
} cell;

static inline cell add(cell a, cell b)
{
    return (cell){a.re + b.re, a.im + b.im};
}

static inline cell mul(cell a, cell b)
{
    return (cell){a.re * b.re - a.im * b.im, a.re * b.im + a.im * b.re};
}

/* a turned by t of r parts of a circle: whole quarters exchange and negate, any other multiplies */
static inline cell turned(cell a, unsigned t, unsigned r)
{
    static const cell turns[9][8] = {
        [3] = {{1, 0}, {-0.5f, -0.8660254f}, {-0.5f, 0.8660254f}},
        [5] = {{1, 0}, {0.309017f, -0.95105654f}, {-0.809017f, -0.58778524f}, {-0.809017f, 0.58778524f}, {0.309017f, 0.95105654f}},
        [7] = {{1, 0}, {0.6234898f, -0.7818315f}, {-0.22252093f, -0.9749279f}, {-0.90096885f, -0.43388373f}, {-0.90096885f, 0.43388373f},
               {-0.22252093f, 0.9749279f}, {0.6234898f, 0.7818315f}},
        [8] = {{1, 0}, {0.70710677f, -0.70710677f}, {0, -1}, {-0.70710677f, -0.70710677f}, {-1, 0}, {-0.70710677f, 0.70710677f}, {0, 1},
               {0.70710677f, 0.70710677f}},
    };
    if (4 * t % r) return mul(a, turns[r][t]);
    switch (4 * t / r) {
    case 0: return a;
    case 1: return (cell){a.im, -a.re};
    case 2: return (cell){-a.re, -a.im};
    default: return (cell){-a.im, a.re};
    }
}

/* one stage of radix R at width W, both constants where this is put in place */
static inline __attribute__((always_inline)) void stage_of(const unsigned R, const size_t W, size_t h, size_t s, const cell *src, cell *dst, const cell *twiddles)
{
    size_t M = h / R, whole = M / W * W, i = 0;
    for (size_t block = 0; block < M / s; block++, dst += s * R)
        for (size_t col = 0; col < s; col++, i++) {
            const cell *own = i < whole ? twiddles + i / W * W * (R - 1) + i % W : twiddles + i * (R - 1);
            size_t apart = i < whole ? W : 1;
            cell x[8];
#pragma clang loop unroll(full)
            for (unsigned q = 0; q < R; q++) {
                x[q] = src[i + q * M];
                if (q && s > 1) x[q] = mul(x[q], own[(q - 1) * apart]);
            }
#pragma clang loop unroll(full)
            for (unsigned p = 0; p < R; p++) {
                cell sum = x[0];
#pragma clang loop unroll(full)
                for (unsigned q = 1; q < R; q++) sum = add(sum, turned(x[q], p * q % R, R));
                dst[col + p * s] = sum;
            }
        }
}

#define WIDTHS(R) \
    if (width == 1) stage_of(R, 1, h, s, src, dst, twiddles); \
    else if (width == 2) stage_of(R, 2, h, s, src, dst, twiddles); \
    else stage_of(R, 4, h, s, src, dst, twiddles)

void reference_stage(unsigned r, size_t h, size_t s, size_t width, const cell *src, cell *dst, const cell *twiddles)
{
    switch (r) {
    case 2: WIDTHS(2); break;
    case 3: WIDTHS(3); break;
    case 4: WIDTHS(4); break;
    case 5: WIDTHS(5); break;
    case 7: WIDTHS(7); break;
    case 8: WIDTHS(8); break;
    }
}
