/* Frank-Wolfe in floating point, for the benchmark: the published iteration over doubles, with weights in place of shares.
 * Files in, answer out; values are decoded once, and the files are taken to be right. */
#include <string.h>

#include "dofitrano.h"

typedef struct {
    uint32_t verdict, steps;
    double distance, gap; /* squared distance and gap of the point */
} float_answer;

static double value_at(const uint8_t *p) { return (int16_t)((uint32_t)p[0] | (uint32_t)p[1] << 8); }

float_answer float_search(const uint8_t *book, size_t book_length, const uint8_t *sheet, size_t sheet_length, double *weights)
{
    static double rows[256 * 64];
    double u[64], x[64], d[64];
    const uint8_t *end = book + book_length - 12;
    size_t boats = end[4] | (size_t)end[5] << 8, columns = end[6];
    const uint8_t *body = end - 2 * boats * columns;
    for (size_t i = 0; i < boats * columns; i++)
        rows[i] = value_at(body + 2 * i);
    end = sheet + sheet_length - 16;
    uint32_t steps = end[6] | (uint32_t)end[7] << 8;
    double tolerance = end[8] | (uint32_t)end[9] << 8 | (uint32_t)end[10] << 16 | (uint32_t)end[11] << 24;
    for (size_t j = 0; j < columns; j++)
        u[j] = value_at(end - 2 * columns + 2 * j);
    memcpy(x, rows, columns * sizeof *x);
    memset(weights, 0, boats * sizeof *weights);
    weights[0] = 1;
    float_answer a = { 0, 0, 0, 0 };
    for (uint32_t k = 0;; k++) {
        /* measure the point: squared distance, gap, and the boat where the linear form of the gradient is least */
        double least = 0, along = 0, distance = 0;
        size_t best = 0;
        for (size_t j = 0; j < columns; j++) {
            d[j] = x[j] - u[j];
            distance += d[j] * d[j];
            along += d[j] * x[j];
        }
        for (size_t i = 0; i < boats; i++) {
            double s = 0;
            for (size_t j = 0; j < columns; j++)
                s += d[j] * rows[i * columns + j];
            if (i == 0 || s < least || (s == least && weights[best] == 0 && weights[i] > 0)) {
                least = s;
                best = i;
            }
        }
        if (k > 0) {
            double gap = along - least;
            a.verdict = distance <= tolerance ? 1 : distance > gap && (distance - gap) * (distance - gap) > tolerance * distance ? 2 : k == steps ? 3 : 0;
            if (a.verdict != 0) {
                a.steps = k;
                a.distance = distance;
                a.gap = gap;
                return a;
            }
        }
        double g = 2.0 / (k + 2.0);
        for (size_t j = 0; j < columns; j++)
            x[j] = (1 - g) * x[j] + g * rows[best * columns + j];
        for (size_t i = 0; i < boats; i++)
            weights[i] *= 1 - g;
        weights[best] += g;
    }
}
