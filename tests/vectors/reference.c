/* Reads lines "OP A B C" (op letter, three f32 patterns in hex) and writes each with the pattern that the C library gives:
   f: fmaf(A, B, C), s: sqrtf(A), u: ceilf(A). A NaN is written as 7fc00000. */
#include <math.h>
#include <stdint.h>
#include <stdio.h>
#include <string.h>

static float from_bits(uint32_t b) { float x; memcpy(&x, &b, 4); return x; }

static uint32_t bits(float x)
{
    uint32_t b;
    if (x != x)
        return 0x7fc00000u;
    memcpy(&b, &x, 4);
    return b;
}

int main(void)
{
    char op;
    uint32_t a, b, c;
    while (scanf(" %c %x %x %x", &op, &a, &b, &c) == 4) {
        volatile float x = from_bits(a), y = from_bits(b), z = from_bits(c);
        float r = op == 'f' ? fmaf(x, y, z) : op == 's' ? sqrtf(x) : ceilf(x);
        printf("%c %08x %08x %08x %08x\n", op, a, b, c, bits(r));
    }
    return 0;
}
