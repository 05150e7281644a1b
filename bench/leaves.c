/* Times each leaf, fma and sqrt beside the processor's own instruction, all by a call, in one run: processor time on random values, the best of many rounds.
   bench/leaves.sh builds and runs this. */
#include "../bindings/kermezhul.h"
#include <math.h>
#include <stdio.h>
#include <stdlib.h>
#include <time.h>

enum { COUNT = 4096, ROUNDS = 60 };
static float a[COUNT], b[COUNT], c[COUNT], out[COUNT];

static double now(void)
{
    struct timespec t;
    clock_gettime(CLOCK_THREAD_CPUTIME_ID, &t);
    return t.tv_sec + 1e-9 * t.tv_nsec;
}

__attribute__((noipa)) float own_fma(float x, float y, float z) { return __builtin_fmaf(x, y, z); }
__attribute__((noipa)) float own_sqrt(float x) { return __builtin_sqrtf(x); }

#define TIME(result, turns, value)                                                                  \
    double result = 1e9;                                                                            \
    for (int round = 0; round < ROUNDS; round++) {                                                  \
        double began = now();                                                                       \
        for (int turn = 0; turn < turns; turn++)                                                    \
            for (int i = 0; i < COUNT; i++) {                                                       \
                out[i] = value;                                                                     \
                __asm__ volatile("" ::: "memory");                                                  \
            }                                                                                       \
        double took = (now() - began) / (turns * (double)COUNT) * 1e9;                              \
        if (took < result)                                                                          \
            result = took;                                                                          \
    }

int main(void)
{
    srand(1);
    for (int i = 0; i < COUNT; i++) {
        a[i] = (float)rand() / RAND_MAX * 200 - 100;
        b[i] = (float)rand() / RAND_MAX * 200 - 100;
        c[i] = (float)rand() / RAND_MAX * 20000 - 10000;
    }
    TIME(fma_own, 30, own_fma(a[i], b[i], c[i]))
    TIME(fma_leaf, 30, kermezhul_fma(a[i], b[i], c[i]))
    TIME(sqrt_own, 30, own_sqrt(fabsf(a[i])))
    TIME(sqrt_leaf, 30, kermezhul_sqrt(fabsf(a[i])))
    TIME(sixth_leaf, 3, kermezhul_sixth_root(fabsf(c[i])))
    TIME(ceil_leaf, 30, kermezhul_ceil(a[i]))
    TIME(min_leaf, 30, kermezhul_min(a[i], b[i]))
    TIME(pieces_leaf, 3, (float)kermezhul_pieces(fabsf(c[i]), 1, 1))
    printf("fma         %7.2f ns, %5.1f times the processor's %.2f ns\n", fma_leaf, fma_leaf / fma_own, fma_own);
    printf("sqrt        %7.2f ns, %5.1f times the processor's %.2f ns\n", sqrt_leaf, sqrt_leaf / sqrt_own, sqrt_own);
    printf("sixth_root  %7.2f ns\n", sixth_leaf);
    printf("ceil        %7.2f ns\n", ceil_leaf);
    printf("min         %7.2f ns\n", min_leaf);
    printf("pieces      %7.2f ns\n", pieces_leaf);
    return 0;
}
