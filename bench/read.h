/* A twin in C of crates/bits, crates/layout, crates/unpacker and crates/reader: a table unpacked field by field, 01's answers 1 to 6.
   As there, each row is read twice, to test it and to convert it, and the reader hands out the lists that it filled. */
#ifndef READ_H
#define READ_H

#include "plain.h"

/* The unpacker's lists. A refusal leaves no rows. */
typedef struct {
    uint64_t delays[4], systems[64][1], vls[256][4], streams[512][7], ports[128][3], hops[1024][3];
    size_t rows[6];
} Lists;

typedef struct {
    uint64_t number, section, row;
} Answer;

static const Answer ACCEPTED = {0, 0, 0};

/* ---- the layout */

enum kind { NUMBER, REFERENCE, GAP, LESS_ONE, SPEED };

typedef struct {
    uint32_t width;
    enum kind kind;
    uint64_t low, high;
} Shape;

static const Shape SHAPES[6][11] = {
    {{8, NUMBER, 1, 1}, {8, NUMBER, 0, 64}, {12, NUMBER, 0, 256}, {12, NUMBER, 0, 512}, {8, NUMBER, 0, 128},
     {12, NUMBER, 0, 1024}, {12, NUMBER, 0, 1875}, {12, NUMBER, 0, 1875}, {12, NUMBER, 0, 1875}, {12, NUMBER, 0, 1875},
     {4, NUMBER, 0, 0}},
    {{1, SPEED, 0, 0}, {7, NUMBER, 0, 0}},
    {{8, REFERENCE, 0, 0}, {3, GAP, 0, 0}, {2, LESS_ONE, 0, 0}, {11, NUMBER, 64, 1518}},
    {{12, REFERENCE, 0, 0}, {2, REFERENCE, 0, 0}, {1, NUMBER, 0, 1}, {14, NUMBER, 1, 8192}, {14, NUMBER, 1, 8192},
     {27, NUMBER, 12500, 125000000}, {27, NUMBER, 0, 125000000}, {7, NUMBER, 0, 0}},
    {{1, SPEED, 0, 0}, {12, NUMBER, 0, 1250}, {12, NUMBER, 0, 1250}, {7, NUMBER, 0, 0}},
    {{12, REFERENCE, 0, 0}, {8, REFERENCE, 0, 0}, {12, REFERENCE, 0, 0}},
};

/* By section: the fields of a record, the numbers it has in a list, its bytes. */
static const size_t FIELDS[6] = {11, 2, 4, 8, 4, 3};
static const size_t NUMBERS[6] = {10, 1, 4, 7, 3, 3};
static const size_t BYTES[6] = {14, 1, 3, 13, 4, 4};

/* What a stored number means; whether it means anything. */
static int meaning(const Shape *s, uint64_t n, uint64_t *value)
{
    *value = n;
    switch (s->kind) {
    case NUMBER:
        return s->low <= n && n <= s->high;
    case REFERENCE:
        return 1;
    case GAP:
        *value = (uint64_t)1 << (n & 7);
        return n < 8;
    case LESS_ONE:
        *value = n + 1;
        return n < 4;
    case SPEED:
        *value = n == 0 ? 100 : 10;
        return n < 2;
    }
    return 0;
}

/* The field of w bits from bit `at` on: the bytes that it touches, cut at both ends; 0 where the table has none. */
static uint64_t field(const uint8_t *table, size_t bytes, size_t at, size_t w)
{
    uint64_t v = 0;
    size_t end = at + w, to = (end + 7) / 8;
    if (8 * bytes < w || 8 * bytes - w < at)
        return 0;
    for (size_t k = at / 8; k < to; k++)
        v = v * 256 + table[k];
    return (v >> (8 * to - end)) % ((uint64_t)1 << w);
}

/* The stored numbers of a section's row that begins at byte `from`; zeros where the table has no such row. */
static void row_at(const uint8_t *table, size_t bytes, size_t from, int section, uint64_t row[11])
{
    size_t at = 8 * from;
    for (int k = 0; k < 11; k++)
        row[k] = 0;
    if (bytes < BYTES[section] || bytes - BYTES[section] < from)
        return;
    for (size_t k = 0; k < FIELDS[section]; k++) {
        row[k] = field(table, bytes, at, SHAPES[section][k].width);
        at += SHAPES[section][k].width;
    }
}

static int is_bad(int section, const uint64_t row[11])
{
    uint64_t value;
    for (size_t k = 0; k < FIELDS[section]; k++)
        if (!meaning(&SHAPES[section][k], row[k], &value))
            return 1;
    switch (section) {
    case 0:
        return row[7] < row[6] || row[9] < row[8];
    case 3:
        return row[3] < row[4];
    case 4:
        return row[2] < row[1];
    }
    return 0;
}

/* ---- the answers 1 to 4, and the lists */

static Answer examine(const uint8_t *table, size_t bytes, uint64_t header[11], size_t rows[6], size_t starts[7])
{
    row_at(table, bytes < 14 ? bytes : 14, 0, 0, header);
    starts[0] = 0;
    for (int s = 0; s < 6; s++) {
        rows[s] = s == 0 ? 1 : header[s];
        starts[s + 1] = starts[s] + rows[s] * BYTES[s];
    }
    if (bytes < 14)
        return (Answer){1, 0, 0};
    if (is_bad(0, header))
        return (Answer){2, 0, 0};
    if (bytes != starts[6])
        return (Answer){3, 0, 0};
    for (int s = 1; s < 6; s++)
        for (size_t i = 0; i < rows[s]; i++) {
            uint64_t row[11];
            row_at(table, bytes, starts[s] + i * BYTES[s], s, row);
            if (is_bad(s, row))
                return (Answer){4, s, i};
        }
    return ACCEPTED;
}

/* The records of a section, one after the other. */
static void fill(const uint8_t *table, size_t bytes, int section, size_t from, size_t n, uint64_t *out)
{
    for (size_t i = 0; i < n; i++) {
        uint64_t row[11];
        row_at(table, bytes, from + i * BYTES[section], section, row);
        for (size_t k = 0; k < FIELDS[section]; k++) {
            uint64_t value;
            meaning(&SHAPES[section][k], row[k], &value);
            row[k] = value;
        }
        for (size_t k = 0; k < NUMBERS[section]; k++)
            *out++ = row[k];
    }
}

static Answer unpack(const uint8_t *table, size_t bytes, Lists *l)
{
    uint64_t header[11];
    size_t starts[7];
    Answer a = examine(table, bytes, header, l->rows, starts);
    memset(l, 0, sizeof *l - sizeof l->rows);
    if (a.number != 0) {
        memset(l->rows, 0, sizeof l->rows);
        return a;
    }
    for (int k = 0; k < 4; k++)
        l->delays[k] = header[6 + k];
    fill(table, bytes, 1, starts[1], l->rows[1], &l->systems[0][0]);
    fill(table, bytes, 2, starts[2], l->rows[2], &l->vls[0][0]);
    fill(table, bytes, 3, starts[3], l->rows[3], &l->streams[0][0]);
    fill(table, bytes, 4, starts[4], l->rows[4], &l->ports[0][0]);
    fill(table, bytes, 5, starts[5], l->rows[5], &l->hops[0][0]);
    return ACCEPTED;
}

/* ---- the answers 5 and 6 */

static int has_hop(const Lists *l, size_t v)
{
    for (size_t h = 0; h < l->rows[5]; h++)
        if (l->hops[h][0] == v)
            return 1;
    return 0;
}

static int is_twin(const Lists *l, size_t h)
{
    for (size_t g = 0; g < h; g++)
        if (l->hops[g][0] == l->hops[h][0] && l->hops[g][1] == l->hops[h][1])
            return 1;
    return 0;
}

static int too_deep(const Lists *l, size_t h)
{
    uint64_t g = h;
    for (int n = 8; 0 < n; n--) {
        uint64_t p = l->rows[5] <= g ? 0 : l->hops[g][2];
        if (p == 0)
            return 0;
        g = p - 1;
    }
    return 1;
}

static int bad_hop(const Lists *l, size_t h)
{
    const uint64_t *hop = l->hops[h];
    if (l->rows[2] <= hop[0] || l->rows[4] <= hop[1])
        return 1;
    if (hop[2] != 0) {
        uint64_t g = hop[2] - 1;
        if (h <= g || l->hops[g][0] != hop[0] || hop[1] <= l->hops[g][1])
            return 1;
    }
    return is_twin(l, h) || too_deep(l, h);
}

static uint64_t packets(uint64_t m, uint64_t lmax)
{
    uint64_t most = lmax - 39, spare = most % 8, full = most - spare;
    return (m + (8 - spare) + (full - 1)) / full;
}

static Answer references(const Lists *l)
{
    for (size_t v = 0; v < l->rows[2]; v++)
        if (l->rows[1] <= l->vls[v][0] || !has_hop(l, v))
            return (Answer){5, 2, v};
    for (size_t s = 0; s < l->rows[3]; s++)
        if (l->rows[2] <= l->streams[s][0] || l->vls[l->streams[s][0]][2] <= l->streams[s][1])
            return (Answer){5, 3, s};
    for (size_t h = 0; h < l->rows[5]; h++)
        if (bad_hop(l, h))
            return (Answer){5, 5, h};
    for (size_t s = 0; s < l->rows[3]; s++)
        if (l->streams[s][2] == 1 && 1 < packets(l->streams[s][3], l->vls[l->streams[s][0]][3]))
            return (Answer){6, 3, s};
    return ACCEPTED;
}

/* The reader, which hands out the lists that it filled. */
static Answer read_table(const uint8_t *table, size_t bytes, Lists *l)
{
    Answer a = unpack(table, bytes, l);
    return a.number != 0 ? a : references(l);
}

#endif
