/* Kermezhul for C: outlines of lines, quads and cubics, flattened into the points that a knife follows.
 *
 * Link with target/staticlib/libabi.a, which `bindings/build` proves and writes.
 *
 * The caller lends all memory. Each column is a pointer and its length in entries. No pointer may be null, not even if the length is 0, and no two columns or
 * counts that are lent to one call may overlap. Apart from that every call is defined on all values: it returns 0, or the number of a refusal.
 *
 * The library keeps no state and writes only what is lent to a call, so several threads may call it at once, each with memory of its own to write to.
 *
 * It calls no other library. On the 64-bit processors where it was measured a flattening touches at most 2,048 bytes of stack, a plot or whole units as many, a
 * drawing call 512, and a float leaf 128 (tests/stack).
 *
 *   0 done                                            5 a cubic needs over 1,024 pieces
 *   1 a coordinate is NaN or beyond +-65,536          6 the quad table is full
 *   2 a weight is NaN or outside 1/64..64             7 the spline table is full, or holds 4,194,304
 *   3 the store is unusable                           8 a spline's running sum would pass 65,536
 *   4 the store is full                               9 words or outputs are shorter than the walk
 *
 *  12 a coordinate is NaN or infinite, or rounds      13 the text, or a column of whole numbers, is
 *     outside -32,768..32,767                            too short
 *
 * 10 and 11 are the programs' alone.
 */
#ifndef KERMEZHUL_H
#define KERMEZHUL_H

#include <stddef.h>
#include <stdint.h>

#ifdef __cplusplus
extern "C" {
#endif

/* A drawing: columns x, y, weight of one length, and the commands (0 Move, 1 Line, 2 Quad, 3 Cubic) with a length of their own. `points` and `used` say how
 * many of each are in use, `opening` which point opened the contour. A call reads and changes them; a refused call changes nothing, except that a refused
 * `kermezhul_fresh` sets the three to 0. */
#define KERMEZHUL_DRAWING                                                                                                                                \
    float *x, size_t x_len, float *y, size_t y_len, float *weight, size_t weight_len, uint8_t *commands, size_t commands_len, size_t *points, size_t *used, \
        size_t *opening

/* A fresh drawing: a Move at (0,0). The three counts are written and not read: if it is refused they are 0, and the columns stay as they were. Answers 0,
 * 3 (columns of unequal length) or 4 (no room). */
uint32_t kermezhul_fresh(KERMEZHUL_DRAWING);

/* The drawing calls test 3, 1, 2, 4 in that order. */
uint32_t kermezhul_move_to(KERMEZHUL_DRAWING, float px, float py);
uint32_t kermezhul_line_to(KERMEZHUL_DRAWING, float px, float py);
uint32_t kermezhul_quad_to(KERMEZHUL_DRAWING, float x1, float y1, float x2, float y2);
uint32_t kermezhul_cubic_to(KERMEZHUL_DRAWING, float x1, float y1, float x2, float y2, float x3, float y3);
/* w, w1 and w2 are the weights of the control points. */
uint32_t kermezhul_rat_quad_to(KERMEZHUL_DRAWING, float x1, float y1, float x2, float y2, float w);
uint32_t kermezhul_rat_cubic_to(KERMEZHUL_DRAWING, float x1, float y1, float x2, float y2, float x3, float y3, float w1, float w2);
/* Closes the contour with a line if it is open. */
uint32_t kermezhul_build(KERMEZHUL_DRAWING);

/* The quad table has a row of 15 numbers for each quad: quad i is quad_rows[15 i] to quad_rows[15 i + 14], and partial_splines[i] is the number of its spline.
 * A row is, in order,
 *
 *   0, 1, 2   x of its three points         9   x0          12   dk
 *   3, 4, 5   y of its three points        10   dx_recip    13   the reciprocal, 1 over the quad's own curvature
 *   6, 7, 8   their weights                11   k0          14   the sum of its spline's curvatures up to this quad
 *
 * where points are as stored, x and y multiplied by the weight. The table's capacity is the whole rows that fit, quad_rows_len / 15 rounded down, or
 * partial_splines_len, the smaller of the two. An incomplete row at the end is never written. */
#define KERMEZHUL_QUAD_ROW 15

/* Flattens the drawing as it is, closed or not. setting: 0 for the screen, any other number for the knife. Nothing of the drawing is changed.
 *
 * The settings differ in five things. After a line without length the knife keeps the direction before it, and the screen forgets it: a corner at a doubled
 * point is then lost. For the knife a reversal of direction is a corner, for the screen it is none: a line out and the same line back then lose their far end.
 * For the knife a line and a quad never share a spline, for the screen they do if one runs smoothly into the other: the point where straight meets round is
 * then lost, and a chord goes across it. Cubics become quads; a quad whose control point lies on its start or end is a line. For the knife the points inside a
 * spline lie on its own quads; for the screen they may lie on those of an earlier one, whose last quad got no point, and the path then runs back. For the knife
 * a Move forgets the direction before it, for the screen it does not, which decides nothing there.
 *
 * For the knife the points are those of the contours, each flattened as a drawing by itself, one after the other. A contour is the commands from a Move up to
 * the next one or the end, with their points and weights, and `opening` 0. So contours may be flattened in any order, and by several threads at once. For the
 * screen it is so if in every spline of two or more quads a whole number lies strictly between the sums of the last two.
 *
 * The knife needs more room: at each smooth joint of straight and round one spline more, and one End more in words and outputs. A line without length after
 * a quad, or at a contour's start before one, has a spline too, whose End repeats the point unless a line goes on smoothly from there.
 *
 * The work tables: the quad table, as above, and the spline table of eight columns, whose capacity is its shortest column. In both settings the quads of
 * spline k are the quad_count[k] ones from first_quad[k] on. A spline of lines alone has none, and its first_quad is the number that the next quad has or would
 * have. So first_quad[0] is 0, and first_quad[k] + quad_count[k] is first_quad[k + 1], for the last spline `quads`.
 *
 * words, out_x, out_y and out_end take one entry for each point; out_end is 1 at a contour's last point.
 *
 * On 0 `splines` and `quads` say how much the tables hold, and the first `length` words and outputs are written. On 3 nothing is written and all three are
 * 0. On 5 to 9 no word and no output is written, `length` is 0, and the tables hold what `splines` and `quads` say; 6 means that `quads` is the quad table's
 * capacity. Rows and entries past the counts never change. */
uint32_t kermezhul_flatten(
    uint32_t setting, size_t points, size_t used, size_t opening,
    const float *x, size_t x_len, const float *y, size_t y_len, const float *weight, size_t weight_len, const uint8_t *commands, size_t commands_len,
    float *quad_rows, size_t quad_rows_len, uint32_t *partial_splines, size_t partial_splines_len,
    float *curvature, size_t curvature_len, float *p0x, size_t p0x_len, float *p0y, size_t p0y_len, float *p2x, size_t p2x_len, float *p2y, size_t p2y_len,
    uint8_t *contour, size_t contour_len, size_t *first_quad, size_t first_quad_len, uint32_t *quad_count, size_t quad_count_len,
    uint32_t *words, size_t words_len, float *out_x, size_t out_x_len, float *out_y, size_t out_y_len, uint8_t *out_end, size_t out_end_len,
    size_t *splines, size_t *quads, size_t *length);

/* Finished points, flattened or made by hand: x, y and end, as many as the shortest of the three has entries. What a longer one holds past that is neither
 * tested nor written. Any byte of `end` but 0 is a flag. A contour ends at a flagged point or with the list. A Start inside a contour is a point like any other.
 *
 * One drawing unit is one plotter unit. A coordinate becomes the whole number nearest to its exact value, halves away from zero: 0.5 is 1, -2.5 is -3, -0.4 is
 * 0. One that is NaN or infinite, or becomes a number outside -32,768..32,767, is refused with 12, whichever point it is of; 32767.5 and -32768.5 are refused. */

/* Writes the points as HP-GL: `IN;`, then for each contour `PU x,y;` for its first point and `PD x,y;` for each later one. There is one blank, after each PU and
 * PD, and no other, no line end, and no zero byte at the end. Numbers are plain decimal, and zero has no sign. A contour of one point is one PU. Without points
 * the text is `IN;`.
 *
 *     x 0.5, -0.4, 7    y -2.5, 0, 7    end 0, 1, 0    gives    IN;PU 1,-3;PD 0,0;PU 7,7;
 *
 * Answers 0, 12 (a coordinate), then 13 (`text` is shorter than the text of all points). On every answer `written` is set, to how many bytes were written: all of
 * the text on 0, none on a refusal. Bytes past it stay as they were. `text` and `written` may overlap nothing else that is lent.
 * KERMEZHUL_PLOT_ROOM bytes are enough for any points that can be plotted. */
#define KERMEZHUL_PLOT_ROOM(POINTS) (3 + 17 * (size_t)(POINTS))
uint32_t kermezhul_plot(
    const float *x, size_t x_len, const float *y, size_t y_len, const uint8_t *end, size_t end_len, uint8_t *text, size_t text_len, size_t *written);

/* The points in whole plotter units, the numbers that `kermezhul_plot` prints. There are as many as the shorter of x and y has entries.
 *
 * Answers 0, 12 as above, then 13 (whole_x or whole_y is shorter than that). On every answer `points` is set, to how many were written: all on 0, none on a
 * refusal. Entries past it stay as they were. whole_x, whole_y and `points` may overlap nothing else that is lent. */
uint32_t kermezhul_whole(
    const float *x, size_t x_len, const float *y, size_t y_len, int32_t *whole_x, size_t whole_x_len, int32_t *whole_y, size_t whole_y_len, size_t *points);

/* The float leaves, for tests and measuring; docs/RULES.md, Numbers, says what each gives. All NaNs count as one. */
float kermezhul_fma(float a, float b, float c);
float kermezhul_sqrt(float a);
/* The largest float whose exact sixth power is at most q. */
float kermezhul_sixth_root(float q);
/* How many pieces a cubic with the error q and the weights w1, w2 gets. */
uint32_t kermezhul_pieces(float q, float w1, float w2);
float kermezhul_min(float a, float b);
float kermezhul_max(float a, float b);
float kermezhul_clamp(float a, float low, float high);
float kermezhul_ceil(float a);

#ifdef __cplusplus
}
#endif

#endif
