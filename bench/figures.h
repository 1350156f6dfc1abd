/* A twin in C of crates/figures and crates/analysis: mux waits, queue figures, figures by hop and result rows of a table, and 01's answers 7 to 10.
   The same loops over the same lists, but that the proved code marks the leaves a second time for the rows, and adds up a route in one walk, not two; as there, flows are gathered in one place and lent. */
#ifndef FIGURES_H
#define FIGURES_H

#include "plain.h"
#include "read.h"
#include "search.h"

typedef struct {
    Lists net;
    uint64_t queues[1024], waits[256], figures[1024], jitters[1024];
    uint8_t leaves[1024];
    Flow flows[MOST_FLOWS];
} Work;

/* ---- the records, in ticks */

static uint64_t ticks_at(uint64_t mbit)
{
    return mbit == 100 ? 1 : 10;
}

static uint64_t gap(const Lists *l, size_t v)
{
    return 12500 * l->vls[v][1];
}

static uint64_t line(const Lists *l, size_t v)
{
    return 20 + l->vls[v][3];
}

static uint64_t system_byte(const Lists *l, size_t v)
{
    return ticks_at(l->systems[l->vls[v][0]][0]);
}

static uint64_t send_most(const Lists *l, size_t v)
{
    return line(l, v) * system_byte(l, v);
}

static uint64_t hop_least(const Lists *l, size_t h)
{
    return 84 * ticks_at(l->ports[l->hops[h][1]][0]);
}

static int is_root(const Lists *l, size_t h)
{
    return l->hops[h][2] == 0;
}

/* ---- links */

/* The frames of the VLs of end system e, VL `but` left out. */
static uint64_t sum_without(const Lists *l, uint64_t e, size_t but)
{
    uint64_t sum = 0;
    for (size_t v = 0; v < l->rows[2]; v++)
        if (l->vls[v][0] == e && v != but)
            sum += send_most(l, v);
    return sum;
}

static size_t late_system(const Lists *l)
{
    size_t e = 0;
    while (e < l->rows[1] && sum_without(l, e, l->rows[2]) <= 6250 - 500)
        e++;
    return e;
}

static void mux_waits(Work *w)
{
    for (size_t v = 0; v < w->net.rows[2]; v++)
        w->waits[v] = sum_without(&w->net, w->net.vls[v][0], v);
}

/* ---- queues */

static size_t queue_flows(Work *w, size_t v, size_t k)
{
    const Lists *l = &w->net;
    size_t n = 0;
    for (size_t s = 0; s < l->rows[3]; s++) {
        const uint64_t *stream = l->streams[s];
        if (stream[0] == v && stream[1] == k)
            w->flows[n++] = (Flow){stream[5], stream[6] + (l->delays[1] - l->delays[0]),
                                   packets(stream[3], l->vls[v][3]) * l->vls[v][2] * gap(l, v)};
    }
    return n;
}

/* 9: the first VL with a queue that has no busy length, or their number. */
static size_t all_queues(Work *w)
{
    for (size_t v = 0; v < w->net.rows[2]; v++)
        for (size_t k = 0; k < w->net.vls[v][2]; k++) {
            Search s = searched(w->flows, queue_flows(w, v, k));
            if (s.answer != SERVED)
                return v;
            w->queues[v * 4 + k] = less(s.best.figure, gap(&w->net, v));
        }
    return w->net.rows[2];
}

/* ---- ports */

static uint64_t hop_jitter(const Work *w, size_t h)
{
    const Lists *l = &w->net;
    const uint64_t *hop = l->hops[h], *port = l->ports[hop[1]];
    uint64_t spread = port[2] - port[1];
    if (is_root(l, h))
        return w->waits[hop[0]] + (line(l, hop[0]) - 84) * system_byte(l, hop[0]) + spread;
    size_t g = hop[2] - 1;
    return w->jitters[g] + less(w->figures[g], hop_least(l, g)) + spread;
}

static size_t port_flows(Work *w, size_t p)
{
    const Lists *l = &w->net;
    size_t n = 0;
    for (size_t h = 0; h < l->rows[5]; h++)
        if (l->hops[h][1] == p) {
            size_t v = l->hops[h][0];
            w->jitters[h] = hop_jitter(w, h);
            w->flows[n++] = (Flow){gap(l, v), w->jitters[h], line(l, v) * ticks_at(l->ports[p][0])};
        }
    return n;
}

/* 10: the first port that has no busy length, or their number. */
static size_t all_ports(Work *w)
{
    for (size_t p = 0; p < w->net.rows[4]; p++) {
        Search s = searched(w->flows, port_flows(w, p));
        if (s.answer != SERVED)
            return p;
        for (size_t h = 0; h < w->net.rows[5]; h++)
            if (w->net.hops[h][1] == p)
                w->figures[h] = s.best.figure;
    }
    return w->net.rows[4];
}

/* ---- rows */

static void find_leaves(Work *w)
{
    memset(w->leaves, 1, sizeof w->leaves);
    for (size_t h = 0; h < w->net.rows[5]; h++)
        if (!is_root(&w->net, h))
            w->leaves[w->net.hops[h][2] - 1] = 0;
}

static size_t row_count(const Work *w)
{
    size_t counts[256] = {0}, n = 0;
    for (size_t h = 0; h < w->net.rows[5]; h++)
        if (w->leaves[h])
            counts[w->net.hops[h][0]]++;
    for (size_t s = 0; s < w->net.rows[3]; s++)
        n += counts[w->net.streams[s][0]];
    return n;
}

static uint64_t route_most(const Work *w, size_t h)
{
    const Lists *l = &w->net;
    uint64_t sum = 0;
    for (int left = 8; 0 < left; left--) {
        sum += l->ports[l->hops[h][1]][2] + w->figures[h];
        if (is_root(l, h))
            break;
        h = l->hops[h][2] - 1;
    }
    return sum;
}

static uint64_t route_least(const Lists *l, size_t h)
{
    uint64_t sum = 0;
    for (int left = 8; 0 < left; left--) {
        sum += hop_least(l, h) + l->ports[l->hops[h][1]][1];
        if (is_root(l, h))
            break;
        h = l->hops[h][2] - 1;
    }
    return sum;
}

static void put_row(const Work *w, size_t s, size_t h, uint64_t row[6])
{
    const Lists *l = &w->net;
    const uint64_t *stream = l->streams[s];
    size_t v = stream[0];
    uint64_t queue = w->queues[v * 4 + stream[1]];
    uint64_t worst = l->delays[1] + queue + w->waits[v] + send_most(l, v) + route_most(w, h) + l->delays[3];
    uint64_t best = l->delays[0] + (packets(stream[4], l->vls[v][3]) - 1) * gap(l, v) + 84 * system_byte(l, v) +
                    route_least(l, h) + l->delays[2];
    row[0] = s;
    row[1] = h;
    row[2] = queue;
    row[3] = worst;
    row[4] = best;
    row[5] = stream[6] + less(worst, best);
}

static void put_rows(const Work *w, uint64_t *result)
{
    for (size_t s = 0; s < w->net.rows[3]; s++)
        for (size_t h = 0; h < w->net.rows[5]; h++)
            if (w->net.hops[h][0] == w->net.streams[s][0] && w->leaves[h]) {
                put_row(w, s, h, result);
                result += 6;
            }
}

/* ---- the whole: 01's answer, and how many rows were written */

static Answer analyse(const uint8_t *table, size_t bytes, uint64_t *result, size_t room, size_t *rows)
{
    Work w;
    memset(result, 0, room * sizeof *result);
    *rows = 0;
    Answer a = read_table(table, bytes, &w.net);
    if (a.number != 0)
        return a;
    size_t late = late_system(&w.net);
    if (late < w.net.rows[1])
        return (Answer){7, 1, late};
    find_leaves(&w);
    size_t count = row_count(&w);
    if (1024 < count || room < 6 * count)
        return (Answer){8, 0, 0};
    size_t vl = all_queues(&w);
    if (vl < w.net.rows[2])
        return (Answer){9, 2, vl};
    mux_waits(&w);
    size_t port = all_ports(&w);
    if (port < w.net.rows[4])
        return (Answer){10, 4, port};
    put_rows(&w, result);
    *rows = count;
    return ACCEPTED;
}

#endif
