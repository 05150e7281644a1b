/* A library with a wrong bit, for tests/bench/run: the archive's own flattening, which the script renames, and after it one bit changed. WRONG=COLUMN,CALL says
 * where: in the middle of words, x, y or end, from which call on. */
#include "../../bindings/kermezhul.h"
#include <stdio.h>
#include <stdlib.h>
#include <string.h>

#define PARAMETERS                                                                                                                                              \
    uint32_t setting, size_t points, size_t used, size_t opening, const float *x, size_t x_len, const float *y, size_t y_len, const float *weight,              \
        size_t weight_len, const uint8_t *commands, size_t commands_len, float *quad_rows, size_t quad_rows_len, uint32_t *partial_splines,                     \
        size_t partial_splines_len, float *curvature, size_t curvature_len, float *p0x, size_t p0x_len, float *p0y, size_t p0y_len, float *p2x, size_t p2x_len, \
        float *p2y, size_t p2y_len, uint8_t *contour, size_t contour_len, size_t *first_quad, size_t first_quad_len, uint32_t *quad_count,                      \
        size_t quad_count_len, uint32_t *words, size_t words_len, float *out_x, size_t out_x_len, float *out_y, size_t out_y_len, uint8_t *out_end,             \
        size_t out_end_len, size_t *splines, size_t *quads, size_t *length

uint32_t right_flatten(PARAMETERS);

uint32_t kermezhul_flatten(PARAMETERS) {
    static long calls;
    const uint32_t answer =
        right_flatten(setting, points, used, opening, x, x_len, y, y_len, weight, weight_len, commands, commands_len, quad_rows, quad_rows_len, partial_splines,
                      partial_splines_len, curvature, curvature_len, p0x, p0x_len, p0y, p0y_len, p2x, p2x_len, p2y, p2y_len, contour, contour_len, first_quad,
                      first_quad_len, quad_count, quad_count_len, words, words_len, out_x, out_x_len, out_y, out_y_len, out_end, out_end_len, splines, quads, length);
    char column[8];
    long from;
    const char *said = getenv("WRONG");
    if (said == NULL || sscanf(said, "%7[a-z],%ld", column, &from) != 2 || ++calls < from || *length == 0) return answer;
    const size_t i = *length / 2;
    if (strcmp(column, "words") == 0) words[i] ^= 1;
    if (strcmp(column, "end") == 0) out_end[i] ^= 1;
    float *const point = strcmp(column, "x") == 0 ? &out_x[i] : strcmp(column, "y") == 0 ? &out_y[i] : NULL;
    if (point != NULL) {
        uint32_t bits;
        memcpy(&bits, point, sizeof bits);
        bits ^= 1;
        memcpy(point, &bits, sizeof bits);
    }
    return answer;
}
