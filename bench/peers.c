/* peers.c: REPEATS real transforms by kissfft or by FFTW, to be counted: NAME (kissfft or fftw), N, DIRECTION (0 forward, 1 inverse),
 * REPEATS. They work out of place and keep their input, as the library does. */
#include <fftw3.h>
#include <kiss_fftr.h>
#include <stdio.h>
#include <stdlib.h>

int main(int count, char **words)
{
    if (count != 5) return 2;
    int n = atoi(words[2]), inverse = words[3][0] == '1', kiss = words[1][0] == 'k';
    float *input = fftwf_alloc_real((size_t)n + 2), *output = fftwf_alloc_real((size_t)n + 2);
    kiss_fftr_cfg plan = kiss ? kiss_fftr_alloc(n, inverse, NULL, NULL) : NULL;
    fftwf_plan other = kiss      ? NULL
                       : inverse ? fftwf_plan_dft_c2r_1d(n, (fftwf_complex *)input, output, FFTW_ESTIMATE | FFTW_PRESERVE_INPUT)
                                 : fftwf_plan_dft_r2c_1d(n, input, (fftwf_complex *)output, FFTW_ESTIMATE | FFTW_PRESERVE_INPUT);
    if (!plan && !other) return 1;
    for (int i = 0; i < n + 2; i++) input[i] = (float)(i * 77 % 101) - 50;
    for (long left = strtol(words[4], NULL, 10); left > 0; left--) {
        if (!kiss) fftwf_execute(other);
        else if (inverse) kiss_fftri(plan, (kiss_fft_cpx *)input, output);
        else kiss_fftr(plan, input, (kiss_fft_cpx *)output);
    }
    printf("%d %g\n", n, output[2]);
    return 0;
}
