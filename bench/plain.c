/* The search in plain C, one pass over the book a step, for the benchmark: the algorithm of plain.rs, with the same checks. */
#include <string.h>

#include "dofitrano.h"

static uint32_t u16_at(const uint8_t *p) { return (uint32_t)p[0] | (uint32_t)p[1] << 8; }

static uint32_t u32_at(const uint8_t *p) { return u16_at(p) | u16_at(p + 2) << 16; }

static int32_t value_at(const uint8_t *p) { return (int16_t)u16_at(p); }

static int in_range(const uint8_t *body, size_t count)
{
    for (size_t i = 0; i < count; i++) {
        int32_t v = value_at(body + 2 * i);
        if (v < -2000 || v > 2000)
            return 0;
    }
    return 1;
}

static int64_t inner(const int32_t *r, const uint8_t *row, size_t columns)
{
    int64_t sum = 0;
    for (size_t j = 0; j < columns; j++)
        sum += (int64_t)r[j] * value_at(row + 2 * j);
    return sum;
}

static size_t least(const int32_t *r, const uint8_t *rows, size_t boats, size_t columns, const uint16_t *shares, int64_t *score)
{
    size_t best = 0;
    *score = INT64_MAX;
    for (size_t i = 0; i < boats; i++) {
        int64_t s = inner(r, rows + 2 * i * columns, columns);
        if (s < *score || (s == *score && shares[best] == 0 && shares[i] != 0)) {
            best = i;
            *score = s;
        }
    }
    return best;
}

static void step(int32_t *r, const uint8_t *row, const uint8_t *target, size_t columns, int32_t k)
{
    for (size_t j = 0; j < columns; j++)
        r[j] += k * (value_at(row + 2 * j) - value_at(target + 2 * j));
}

dofitrano_reply plain_c_search(const uint8_t *book, size_t book_length, const uint8_t *sheet, size_t sheet_length,
                               uint16_t *slots, size_t count)
{
    dofitrano_reply a = { 0, 0, 0, 0, 0, 0, 0, 0 };
#define REFUSE(condition, number) \
    if (condition) {              \
        a.refusal = number;       \
        return a;                 \
    }
    REFUSE(book_length < 12 || book_length > 40000, 1)
    const uint8_t *end = book + book_length - 12;
    REFUSE(memcmp(end + 8, "WBK1", 4) != 0, 2)
    size_t boats = u16_at(end + 4), columns = u16_at(end + 6), back = u32_at(end);
    REFUSE(boats < 1 || boats > 256, 3)
    REFUSE(columns < 1 || columns > 64, 4)
    REFUSE(back != 2 * boats * columns || back > book_length - 12, 5)
    const uint8_t *rows = end - back;
    REFUSE(!in_range(rows, boats * columns), 6)
    REFUSE(sheet_length < 16 || sheet_length > 40000, 11)
    end = sheet + sheet_length - 16;
    REFUSE(memcmp(end + 12, "WSH1", 4) != 0, 12)
    uint32_t steps = u16_at(end + 6);
    REFUSE(u16_at(end + 4) != columns, 13)
    REFUSE(steps < 1 || steps > 360, 14)
    int64_t tolerance = u32_at(end + 8);
    REFUSE(tolerance > 1024000000, 15)
    REFUSE(u32_at(end) != 2 * columns || 2 * columns > sheet_length - 16, 16)
    const uint8_t *target = end - 2 * columns;
    REFUSE(!in_range(target, columns), 17)
    REFUSE(count < boats, 21)

    uint16_t shares[256] = { 0 };
    int32_t r[64] = { 0 };
    int64_t score;
    step(r, rows, target, columns, 1);
    size_t best = least(r, rows, boats, columns, shares, &score);
    memset(r, 0, sizeof r);
    for (uint32_t t = 1;; t++) {
        shares[best] += t;
        step(r, rows + 2 * best * columns, target, columns, (int32_t)t);
        best = least(r, rows, boats, columns, shares, &score);
        int64_t w = (int64_t)t * (t + 1) / 2, e = 0;
        for (size_t j = 0; j < columns; j++)
            e += (int64_t)r[j] * r[j];
        int64_t g = e + w * (inner(r, target, columns) - score); /* <r,y> = E + W <r,u> */
        int64_t limit = tolerance * w * w;
        if (e <= limit) {
            a.verdict = 1;
        } else if (e > g && (__int128)(e - g) * (e - g) > (__int128)limit * e) {
            a.verdict = 2;
            a.floor = e - 2 * g;
        } else if (t == steps) {
            a.verdict = 3;
            a.shortfall = (uint64_t)(e - limit);
        } else {
            continue;
        }
        a.steps = t;
        a.weight = (uint32_t)w;
        a.distance = (uint64_t)e;
        a.gap = (uint64_t)g;
        memcpy(slots, shares, boats * sizeof *slots);
        return a;
    }
}
