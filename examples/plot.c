/* Draws the end of a belt and its hole, flattens them in the knife setting, and prints the points as HP-GL, for the tables that speak nothing else. A plotter unit is
 * a fortieth of a millimetre, and one drawing unit is one plotter unit: the belt is 20 mm wide. Standard output is the text alone, which has no line end.
 * `examples/run` builds and runs it. */
#include "../bindings/kermezhul.h"
#include <stdio.h>
#include <stdlib.h>

#define POINTS 64
#define QUADS 256
#define SPLINES 32
#define LENGTH 512

static float x[POINTS], y[POINTS], weight[POINTS];
static uint8_t commands[POINTS];
static size_t points, used, opening;
#define DRAWING x, POINTS, y, POINTS, weight, POINTS, commands, POINTS, &points, &used, &opening

static void stop_if_refused(const char *what, uint32_t answer) {
    if (answer == 0) return;
    fprintf(stderr, "%s is refused: %u\n", what, answer);
    exit(1);
}

static uint32_t belt_end(void) {
    const float quarter = 0.70710678f; /* the weight of a quarter circle */
    uint32_t answer = kermezhul_fresh(DRAWING);
    if (answer == 0) answer = kermezhul_line_to(DRAWING, 2000, 0);
    if (answer == 0) answer = kermezhul_cubic_to(DRAWING, 2400, 0, 2700, 250, 2800, 400);
    if (answer == 0) answer = kermezhul_cubic_to(DRAWING, 2700, 550, 2400, 800, 2000, 800);
    if (answer == 0) answer = kermezhul_line_to(DRAWING, 0, 800);
    /* a Move closes the contour before it */
    if (answer == 0) answer = kermezhul_move_to(DRAWING, 1980, 400);
    if (answer == 0) answer = kermezhul_rat_quad_to(DRAWING, 1980, 480, 1900, 480, quarter);
    if (answer == 0) answer = kermezhul_rat_quad_to(DRAWING, 1820, 480, 1820, 400, quarter);
    if (answer == 0) answer = kermezhul_rat_quad_to(DRAWING, 1820, 320, 1900, 320, quarter);
    if (answer == 0) answer = kermezhul_rat_quad_to(DRAWING, 1980, 320, 1980, 400, quarter);
    if (answer == 0) answer = kermezhul_build(DRAWING);
    return answer;
}

int main(void) {
    static float quad_rows[KERMEZHUL_QUAD_ROW * QUADS];
    static uint32_t partial_splines[QUADS];
    static float curvature[SPLINES], p0x[SPLINES], p0y[SPLINES], p2x[SPLINES], p2y[SPLINES];
    static uint8_t contour[SPLINES];
    static size_t first_quad[SPLINES];
    static uint32_t quad_count[SPLINES];
    static uint32_t words[LENGTH];
    static float out_x[LENGTH], out_y[LENGTH];
    static uint8_t end[LENGTH];
    static uint8_t text[KERMEZHUL_PLOT_ROOM(LENGTH)];
    size_t splines, quads, length, written;

    stop_if_refused("the drawing", belt_end());
    stop_if_refused("the flattening",
        kermezhul_flatten(1, points, used, opening, x, POINTS, y, POINTS, weight, POINTS, commands, POINTS, quad_rows, KERMEZHUL_QUAD_ROW * QUADS, partial_splines,
            QUADS, curvature, SPLINES, p0x, SPLINES, p0y, SPLINES, p2x, SPLINES, p2y, SPLINES, contour, SPLINES, first_quad, SPLINES, quad_count, SPLINES, words,
            LENGTH, out_x, LENGTH, out_y, LENGTH, end, LENGTH, &splines, &quads, &length));
    /* as many points as were written, though the columns are longer */
    stop_if_refused("the plot", kermezhul_plot(out_x, length, out_y, length, end, length, text, sizeof text, &written));
    fwrite(text, 1, written, stdout);
    return 0;
}
