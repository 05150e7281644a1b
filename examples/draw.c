/* Draws a belt end with cubics, a small one of lines and quads (straights that run smoothly into a round), a slit (a line out and the same line back), and two
 * quads that make one sweep with a third after a turn, flattens them and prints their points. In the knife setting the points where straight meets round are among
 * them, and the slit's far end; in the screen setting they are lost. After the sweep the screen's path runs back to (0,0), the knife's does not.
 * `examples/run` builds and runs it. */
#include "../bindings/kermezhul.h"
#include <stdio.h>
#include <stdlib.h>

#define POINTS 64
#define QUADS 64
#define SPLINES 16
#define LENGTH 256

static float x[POINTS], y[POINTS], weight[POINTS];
static uint8_t commands[POINTS];
static size_t points, used, opening;
#define DRAWING x, POINTS, y, POINTS, weight, POINTS, commands, POINTS, &points, &used, &opening

static void show(const char *name, uint32_t setting) {
    static float quad_rows[KERMEZHUL_QUAD_ROW * QUADS];
    static uint32_t partial_splines[QUADS];
    static float curvature[SPLINES], p0x[SPLINES], p0y[SPLINES], p2x[SPLINES], p2y[SPLINES];
    static uint8_t contour[SPLINES];
    static size_t first_quad[SPLINES];
    static uint32_t quad_count[SPLINES];
    static uint32_t words[LENGTH];
    static float out_x[LENGTH], out_y[LENGTH];
    static uint8_t end[LENGTH];
    size_t splines, quads, length;
    uint32_t answer = kermezhul_flatten(setting, points, used, opening, x, POINTS, y, POINTS, weight, POINTS, commands, POINTS, quad_rows,
        KERMEZHUL_QUAD_ROW * QUADS, partial_splines, QUADS, curvature, SPLINES, p0x, SPLINES, p0y, SPLINES, p2x, SPLINES, p2y, SPLINES, contour, SPLINES,
        first_quad, SPLINES, quad_count, SPLINES, words, LENGTH, out_x, LENGTH, out_y, LENGTH, end, LENGTH, &splines, &quads, &length);
    printf("%s: answer %u, %zu splines, %zu quads, %zu points\n", name, answer, splines, quads, length);
    for (size_t i = 0; i < length; i++) printf("%9.4f %9.4f%s\n", out_x[i], out_y[i], end[i] == 1 ? "  end" : "");
}

static uint32_t belt_end(void) {
    uint32_t answer = kermezhul_fresh(DRAWING);
    if (answer == 0) answer = kermezhul_line_to(DRAWING, 100, 0);
    if (answer == 0) answer = kermezhul_cubic_to(DRAWING, 111.05f, 0, 120, 8.95f, 120, 20);
    if (answer == 0) answer = kermezhul_cubic_to(DRAWING, 120, 31.05f, 111.05f, 40, 100, 40);
    if (answer == 0) answer = kermezhul_line_to(DRAWING, 0, 40);
    if (answer == 0) answer = kermezhul_build(DRAWING);
    return answer;
}

static uint32_t straight_and_round(void) {
    uint32_t answer = kermezhul_fresh(DRAWING);
    if (answer == 0) answer = kermezhul_line_to(DRAWING, 10, 0);
    if (answer == 0) answer = kermezhul_quad_to(DRAWING, 12, 0, 12, 2);
    if (answer == 0) answer = kermezhul_quad_to(DRAWING, 12, 4, 10, 4);
    if (answer == 0) answer = kermezhul_line_to(DRAWING, 0, 4);
    if (answer == 0) answer = kermezhul_build(DRAWING);
    return answer;
}

static uint32_t slit(void) {
    uint32_t answer = kermezhul_fresh(DRAWING);
    if (answer == 0) answer = kermezhul_line_to(DRAWING, 10, 0);
    if (answer == 0) answer = kermezhul_line_to(DRAWING, 10, 5);
    if (answer == 0) answer = kermezhul_line_to(DRAWING, 5, 5);
    if (answer == 0) answer = kermezhul_line_to(DRAWING, 10, 5);
    if (answer == 0) answer = kermezhul_line_to(DRAWING, 10, 10);
    if (answer == 0) answer = kermezhul_line_to(DRAWING, 0, 10);
    if (answer == 0) answer = kermezhul_build(DRAWING);
    return answer;
}

static uint32_t sweep(void) {
    uint32_t answer = kermezhul_fresh(DRAWING);
    if (answer == 0) answer = kermezhul_move_to(DRAWING, -1, 0);
    if (answer == 0) answer = kermezhul_quad_to(DRAWING, -0.5f, 0, 0, 0);
    if (answer == 0) answer = kermezhul_quad_to(DRAWING, 0.25830078125f, 0, 2.058837890625f, 0.88427734375f);
    if (answer == 0) answer = kermezhul_quad_to(DRAWING, 2.058837890625f, 1.88427734375f, 2.058837890625f, 2.88427734375f);
    if (answer == 0) answer = kermezhul_build(DRAWING);
    return answer;
}

static void stop_if_refused(uint32_t answer) {
    if (answer == 0) return;
    printf("refused: %u\n", answer);
    exit(1);
}

int main(void) {
    stop_if_refused(belt_end());
    show("belt end, knife setting", 1);

    stop_if_refused(straight_and_round());
    show("straight and round, screen setting", 0);
    show("straight and round, knife setting", 1);

    stop_if_refused(slit());
    show("slit, screen setting", 0);
    show("slit, knife setting", 1);

    stop_if_refused(sweep());
    show("sweep, screen setting", 0);
    show("sweep, knife setting", 1);
    return 0;
}
