/* Times a plot by the library against C's snprintf of the same text, in one run: this thread's processor time, medians of paired runs. bench/plot.sh builds and runs
   this.

       plot FILE ..    files of points, a line of the bits of x and y in hex and the flag for each */
#include "../bindings/kermezhul.h"
#include <math.h>
#include <stdio.h>
#include <stdlib.h>
#include <string.h>
#include <time.h>

enum { MOST = 1 << 14, RANDOM = 4096, PAIRS = 31, TURNS = 40 };
static float x[MOST], y[MOST];
static uint8_t end[MOST], text[KERMEZHUL_PLOT_ROOM(MOST) + 1], other[KERMEZHUL_PLOT_ROOM(MOST) + 1];
static size_t n;

static double now(void)
{
    struct timespec t;
    clock_gettime(CLOCK_THREAD_CPUTIME_ID, &t);
    return t.tv_sec + 1e-9 * t.tv_nsec;
}

static size_t by_library(uint8_t *to)
{
    size_t written;
    if (kermezhul_plot(x, n, y, n, end, n, to, sizeof text, &written) != 0) {
        printf("a plot is refused\n");
        exit(1);
    }
    return written;
}

/* lroundf rounds halves away from zero. Nothing is tested: all points can be printed, and there is room. */
__attribute__((noinline)) static size_t by_c(uint8_t *to)
{
    char *p = (char *)to, *last = p + sizeof text;
    p += snprintf(p, last - p, "IN;");
    char pen = 'U';
    for (size_t i = 0; i < n; i++) {
        p += snprintf(p, last - p, "P%c %ld,%ld;", pen, lroundf(x[i]), lroundf(y[i]));
        pen = end[i] != 0 ? 'U' : 'D';
    }
    return p - (char *)to;
}

/* Nanoseconds for each point. */
static double each(size_t (*plot)(uint8_t *), uint8_t *to)
{
    double began = now();
    for (int i = 0; i < TURNS; i++) {
        plot(to);
        __asm__ volatile("" ::: "memory");
    }
    return (now() - began) / TURNS / n * 1e9;
}

static int order(const void *a, const void *b)
{
    double d = *(const double *)a - *(const double *)b;
    return d < 0 ? -1 : d > 0;
}

static void measured(const char *name)
{
    size_t ours = by_library(text), theirs = by_c(other);
    if (ours != theirs || memcmp(text, other, ours) != 0) {
        printf("%s: the texts differ\n", name);
        exit(1);
    }
    double library[PAIRS], c[PAIRS], ratio[PAIRS];
    for (int i = 0; i < PAIRS; i++) {
        library[i] = each(by_library, text);
        c[i] = each(by_c, other);
        ratio[i] = library[i] / c[i];
    }
    qsort(library, PAIRS, sizeof *library, order);
    qsort(c, PAIRS, sizeof *c, order);
    qsort(ratio, PAIRS, sizeof *ratio, order);
    printf("%-24s %6zu points, %7zu bytes: snprintf %6.1f ns, ours %6.1f ns for each, ratio %.2f (%.2f to %.2f)\n", name, n, ours, c[PAIRS / 2], library[PAIRS / 2],
        ratio[PAIRS / 2], ratio[0], ratio[PAIRS - 1]);
}

static float from(uint32_t bits)
{
    float v;
    memcpy(&v, &bits, sizeof v);
    return v;
}

int main(int count, char **name)
{
    for (int i = 1; i < count; i++) {
        FILE *file = fopen(name[i], "r");
        unsigned a, b, flag;
        while (file != NULL && n < MOST && fscanf(file, "%x %x %u", &a, &b, &flag) == 3) {
            x[n] = from(a), y[n] = from(b), end[n] = flag;
            n++;
        }
        if (file != NULL) fclose(file);
    }
    if (n > 0) measured("points of the examples");
    srand(1);
    for (n = 0; n < RANDOM; n++) {
        x[n] = (float)rand() / RAND_MAX * 65535 - 32768;
        y[n] = (float)rand() / RAND_MAX * 65535 - 32768;
        end[n] = rand() % 50 == 0;
    }
    measured("random points");
    return 0;
}
