/* Prints how many bytes of stack the library's calls touch, a line `BYTES KIND CALL` for each. The kind is `flatten`, `draw`, `leaf`, or `tool` for what is made of
 * finished points. The status is 1 if a call touches more bytes than are given for its kind.
 *
 *     stack FLATTEN DRAW LEAF TOOL
 *
 * Each call is made on a stack that was filled with one byte before. What it touches is counted from the stack pointer at the call, the return address
 * included, down to the lowest byte that has changed. Leaving that stack again touches a few bytes of it too, 16 on x86-64, so no call counts as less. */
#include "../../bindings/kermezhul.h"
#include <math.h>
#include <stdio.h>
#include <stdlib.h>
#include <string.h>
#include <ucontext.h>

#define STACK (1 << 17)
#define COMMANDS 64
#define POINTS (3 * COMMANDS)
#define QUADS (1 << 16)
#define SPLINES 4096
#define LENGTH (1 << 18)

static void stop(const char *call, const char *why) {
    fprintf(stderr, "tests/stack: %s: %s\n", call, why);
    exit(2);
}

/* ---- the counting */

static unsigned char stack[STACK] __attribute__((aligned(64)));
static unsigned char *at_call;
static ucontext_t here, there;

/* The library's function, or one of those below. */
static void *callee;
#define CALL(NAME) ((__typeof__(NAME) *)callee)

/* In place of any function, since the caller takes its arguments off the stack itself: notes the stack pointer at the call. */
static __attribute__((noinline)) uint32_t noting(void) {
    at_call = __builtin_dwarf_cfa();
    return 0;
}

static unsigned char *lowest_changed(void (*calls)(void), int fill) {
    memset(stack, fill, STACK);
    getcontext(&there);
    there.uc_stack.ss_sp = stack;
    there.uc_stack.ss_size = STACK;
    there.uc_link = &here;
    makecontext(&there, calls, 0);
    swapcontext(&here, &there);
    unsigned char *low = stack;
    while (*low == fill) low++;
    return low;
}

/* `calls` makes one call, of `callee`. Two fills, since a byte may be written that is the fill. */
static size_t touched(void (*calls)(void), void *function) {
    callee = (void *)noting;
    lowest_changed(calls, 0xA5);
    callee = function;
    unsigned char *a = lowest_changed(calls, 0xA5), *b = lowest_changed(calls, 0x5A);
    return at_call - (a < b ? a : b);
}

/* A call that touches `depth` bytes, and a few for itself. */
static size_t depth;
static __attribute__((noinline)) uint32_t touching(void) {
    volatile unsigned char *bytes = __builtin_alloca(depth);
    for (size_t i = 0; i < depth; i++) bytes[i] = 0;
    return 0;
}
static void call_touching(void) { CALL(touching)(); }

static void try_counting(void) {
    static const size_t depths[] = {16, 1000, 4096, 65536};
    for (size_t i = 0; i < sizeof depths / sizeof *depths; i++) {
        depth = depths[i];
        size_t bytes = touched(call_touching, (void *)touching);
        if (bytes < depth || bytes > depth + 128) stop("the counting", "a known number of bytes is counted wrongly");
    }
}

/* ---- a drawing */

static float x[POINTS], y[POINTS], weight[POINTS];
static uint8_t commands[COMMANDS];
static size_t points, used, opening;
#define DRAWING x, POINTS, y, POINTS, weight, POINTS, commands, COMMANDS, &points, &used, &opening

static uint32_t answer;
static float a[8];
static void call_fresh(void) { answer = CALL(kermezhul_fresh)(DRAWING); }
static void call_move_to(void) { answer = CALL(kermezhul_move_to)(DRAWING, a[0], a[1]); }
static void call_line_to(void) { answer = CALL(kermezhul_line_to)(DRAWING, a[0], a[1]); }
static void call_quad_to(void) { answer = CALL(kermezhul_quad_to)(DRAWING, a[0], a[1], a[2], a[3]); }
static void call_cubic_to(void) { answer = CALL(kermezhul_cubic_to)(DRAWING, a[0], a[1], a[2], a[3], a[4], a[5]); }
static void call_rat_quad_to(void) { answer = CALL(kermezhul_rat_quad_to)(DRAWING, a[0], a[1], a[2], a[3], a[6]); }
static void call_rat_cubic_to(void) { answer = CALL(kermezhul_rat_cubic_to)(DRAWING, a[0], a[1], a[2], a[3], a[4], a[5], a[6], a[7]); }
static void call_build(void) { answer = CALL(kermezhul_build)(DRAWING); }

/* From -1 to 1, the same numbers in every run. */
static float number(void) {
    static uint32_t seed = 1;
    seed = seed * 1664525u + 1013904223u;
    return (float)(seed >> 8) / (1 << 23) - 1;
}

/* Coordinates from far apart to so close that there is no angle, now and then the last point again, and weights from 1/64 to 64. */
static void choose(int i) {
    float span = 500;
    for (int k = 0; k < i % 32; k++) span /= 2;
    for (int k = 0; k < 6; k++) a[k] = span * number();
    if (i % 5 == 4) a[0] = x[points - 1], a[1] = y[points - 1];
    for (int k = 6; k < 8; k++) a[k] = number() < 0 ? 32.5f + 31.5f * number() : 1 / (32.5f + 31.5f * number());
}

/* The most of a row of calls, which are drawn one after another from a fresh drawing on. */
static size_t most_of(void (*calls)(void), void *function, int n, const char *name) {
    size_t most = 0;
    callee = (void *)kermezhul_fresh;
    call_fresh();
    for (int i = 0; i < n; i++) {
        size_t before[] = {points, used, opening};
        choose(i);
        size_t bytes = touched(calls, function);
        if (bytes > most) most = bytes;
        /* it was drawn twice */
        points = before[0], used = before[1], opening = before[2];
        calls();
        if (answer != 0) stop(name, "it is refused");
    }
    return most;
}

/* ---- its flattening */

static float quad_rows[KERMEZHUL_QUAD_ROW * QUADS];
static uint32_t partial_splines[QUADS];
static float curvature[SPLINES], p0x[SPLINES], p0y[SPLINES], p2x[SPLINES], p2y[SPLINES];
static uint8_t contour[SPLINES];
static size_t first_quad[SPLINES];
static uint32_t quad_count[SPLINES];
static uint32_t words[LENGTH], setting;
static float out_x[LENGTH], out_y[LENGTH];
static uint8_t out_end[LENGTH];
static size_t splines, quads, length;
static void call_flatten(void) {
    answer = CALL(kermezhul_flatten)(setting, points, used, opening, x, POINTS, y, POINTS, weight, POINTS, commands, COMMANDS, quad_rows,
        KERMEZHUL_QUAD_ROW * QUADS, partial_splines, QUADS, curvature, SPLINES, p0x, SPLINES, p0y, SPLINES, p2x, SPLINES, p2y, SPLINES, contour, SPLINES,
        first_quad, SPLINES, quad_count, SPLINES, words, LENGTH, out_x, LENGTH, out_y, LENGTH, out_end, LENGTH, &splines, &quads, &length);
}

/* ---- what is made of finished points */

static int32_t whole_x[LENGTH], whole_y[LENGTH];
static uint8_t text[KERMEZHUL_PLOT_ROOM(LENGTH)];
static size_t listed, room, written;
static void call_plot(void) { answer = CALL(kermezhul_plot)(out_x, listed, out_y, listed, out_end, listed, text, room, &written); }
static void call_whole(void) { answer = CALL(kermezhul_whole)(out_x, listed, out_y, listed, whole_x, room, whole_y, room, &written); }

/* The plotter's whole range, numbers of all lengths, halves, and contours of any length. */
static void fill_points(void) {
    for (size_t i = 0; i < LENGTH; i++) {
        float span = 32767;
        for (size_t k = 0; k < i % 24; k++) span /= 2;
        out_x[i] = i % 3 == 0 ? (float)(int)(span * number()) + 0.5f : span * number();
        out_y[i] = span * number();
        out_end[i] = number() > 0.8f;
    }
}

/* ---- the float leaves */

static float v[3];
static float leaf_result;
static void call_fma(void) { leaf_result = CALL(kermezhul_fma)(v[0], v[1], v[2]); }
static void call_sqrt(void) { leaf_result = CALL(kermezhul_sqrt)(v[0]); }
static void call_sixth_root(void) { leaf_result = CALL(kermezhul_sixth_root)(v[0]); }
static void call_pieces(void) { answer = CALL(kermezhul_pieces)(v[0], v[1], v[2]); }
static void call_min(void) { leaf_result = CALL(kermezhul_min)(v[0], v[1]); }
static void call_max(void) { leaf_result = CALL(kermezhul_max)(v[0], v[1]); }
static void call_clamp(void) { leaf_result = CALL(kermezhul_clamp)(v[0], v[1], v[2]); }
static void call_ceil(void) { leaf_result = CALL(kermezhul_ceil)(v[0]); }

/* A float of any kind: one of the list, or a number of every size and either sign, subnormals too. */
static float any_float(int i) {
    static const float ends[] = {0.0f, -0.0f, 0x1p-149f, 0x1.fffffcp-127f, 0x1p-126f, 1.0f, -1.0f, 0x1.fffffep127f, 1.0f / 0.0f, -1.0f / 0.0f, 0.0f / 0.0f};
    if (i % 4 == 0) return ends[i / 4 % (int)(sizeof ends / sizeof *ends)];
    float size = i % 4 == 1 ? number() : fabsf(number());
    return ldexpf(size, (int)(150 * number()));
}

/* ---- the figures */

enum kind { FLATTEN, DRAW, LEAF, TOOL, KINDS };
static const char *const kinds[KINDS] = {"flatten", "draw", "leaf", "tool"};
static size_t limits[KINDS], too_much;

static void figure(enum kind kind, const char *name, size_t bytes) {
    printf("%zu %s %s\n", bytes, kinds[kind], name);
    too_much += bytes > limits[kind];
}

static void leaf(const char *name, void (*calls)(void), void *function) {
    size_t most = 0;
    for (int i = 0; i < 400; i++) {
        v[0] = any_float(i), v[1] = any_float(i / 3), v[2] = any_float(i / 7);
        size_t bytes = touched(calls, function);
        if (bytes > most) most = bytes;
    }
    figure(LEAF, name, most);
}

/* A call on LENGTH points in enough room, in too little, with a NaN last, and on none; the most of these. */
static void tool(const char *name, void (*calls)(void), void *function, size_t enough, size_t at_least) {
    size_t most = 0;
    for (int i = 0; i < 4; i++) {
        static const uint32_t answers[] = {0, 13, 12, 0};
        fill_points();
        listed = i == 3 ? 0 : LENGTH;
        room = i == 1 ? LENGTH - 1 : enough;
        if (i == 2) out_y[LENGTH - 1] = __builtin_nanf("");
        size_t bytes = touched(calls, function);
        if (answer != answers[i]) stop(name, "it has another answer");
        if (i == 0 && written < at_least) stop(name, "too little is written");
        if (bytes > most) most = bytes;
    }
    figure(TOOL, name, most);
}

static void flattenings(const char *names[2], void (*calls)(void), void *function, size_t at_least) {
    most_of(calls, function, COMMANDS - 2, names[0]);
    for (setting = 0; setting < 2; setting++) {
        size_t bytes = touched(call_flatten, (void *)kermezhul_flatten);
        if (answer != 0) stop(names[setting], "it is refused");
        if (length < at_least) stop(names[setting], "it has too few points to count");
        figure(FLATTEN, names[setting], bytes);
    }
}

#define DRAWN(NAME, TIMES) figure(DRAW, #NAME, most_of(call_##NAME, (void *)kermezhul_##NAME, TIMES, #NAME))
#define LEAF_OF(NAME) leaf(#NAME, call_##NAME, (void *)kermezhul_##NAME)
#define FLATTENED(KIND, NAME, AT_LEAST) \
    flattenings((const char *[]){"flatten, " KIND ", screen", "flatten, " KIND ", knife"}, call_##NAME, (void *)kermezhul_##NAME, AT_LEAST)

int main(int count, char **argument) {
    if (count != KINDS + 1) stop("usage", "stack FLATTEN DRAW LEAF TOOL");
    for (int k = 0; k < KINDS; k++) limits[k] = strtoul(argument[k + 1], NULL, 10);
    try_counting();
    FLATTENED("lines", line_to, COMMANDS / 2);
    FLATTENED("quads", quad_to, 4 * COMMANDS);
    FLATTENED("rational cubics", rat_cubic_to, 64 * COMMANDS);
    DRAWN(fresh, 1);
    DRAWN(move_to, COMMANDS - 2);
    DRAWN(line_to, COMMANDS - 2);
    DRAWN(quad_to, COMMANDS - 2);
    DRAWN(cubic_to, COMMANDS - 2);
    DRAWN(rat_quad_to, COMMANDS - 2);
    DRAWN(rat_cubic_to, COMMANDS - 2);
    DRAWN(build, 1);
    LEAF_OF(fma);
    LEAF_OF(sqrt);
    LEAF_OF(sixth_root);
    LEAF_OF(pieces);
    LEAF_OF(min);
    LEAF_OF(max);
    LEAF_OF(clamp);
    LEAF_OF(ceil);
    tool("plot", call_plot, (void *)kermezhul_plot, sizeof text, 8 * LENGTH);
    tool("whole", call_whole, (void *)kermezhul_whole, LENGTH, LENGTH);
    return too_much > 0;
}
