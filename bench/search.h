/* A twin in C of the search in crates/search/src and crates/station/src, pass for pass, with the same division: the busy length and the figure of flows.
   With -DCOUNT it counts the passes over the flows, those of the way up and of the way down, and the flows looked at. */
#ifndef SEARCH_H
#define SEARCH_H

#include "plain.h"

#define MOST_FLOWS 1024
#define LIMIT 125000000
#define CYCLE 1600000

typedef struct {
    uint64_t period, jitter, cost;
} Flow;

#ifdef COUNT
static struct {
    uint64_t up, down, looks, longest;
} counted;
#define COUNTED(statement) statement
#else
#define COUNTED(statement)
#endif

static int in_range(const Flow *f)
{
    if (f->period < 12500)
        return 0;
    if (125000000 < f->period)
        return 0;
    if (2000000000 < f->jitter)
        return 0;
    if (f->cost < 1)
        return 0;
    return f->cost <= 4000000000;
}

/* ---- one pass over the flows, for a span of d ticks */

typedef struct {
    int fair;
    uint64_t load, start;
    int even;
} Tally;

/* Adds a flow that is in range. */
static Tally step(Tally a, const Flow *f, uint64_t d)
{
    uint64_t q = (d + f->jitter) / f->period;
    uint64_t edge = q * f->period;
    a.load += (q + 1) * f->cost;
    if (f->jitter < edge && a.start < edge - f->jitter)
        a.start = edge - f->jitter;
    if (d == 0 && a.even)
        a.even = CYCLE % f->period == 0;
    return a;
}

static Tally sweep(const Flow *flows, uint64_t n, uint64_t d)
{
    Tally a = {1, 0, 0, 1};
    for (uint64_t i = 0; i < n; i++) {
        if (a.fair && in_range(&flows[i]))
            a = step(a, &flows[i], d);
        else
            a.fair = 0;
    }
    return a;
}

/* ---- the search */

enum verdict { SERVED = 0, OUT_OF_RANGE = 4, ENDLESS = 10 };

typedef struct {
    uint64_t figure, span;
} Best;

typedef struct {
    int going, rising;
    uint64_t d, length;
    Best best;
    enum verdict answer;
    int even;
} Search;

static Search found(enum verdict answer, uint64_t length, Best best)
{
    return (Search){0, 0, 0, length, best, answer, 0};
}

static uint64_t less(uint64_t a, uint64_t b)
{
    return a < b ? 0 : a - b;
}

static uint64_t lesser(uint64_t a, uint64_t b)
{
    return a < b ? a : b;
}

static Best better(Best b, uint64_t load, uint64_t start)
{
    uint64_t v = less(load, start);
    if (b.figure < v)
        return (Best){v, start};
    if (v < b.figure)
        return b;
    return (Best){b.figure, lesser(start, b.span)};
}

static Search fall(uint64_t length, Best best, uint64_t load, uint64_t start)
{
    Best b = better(best, load, start);
    if (load <= b.figure)
        return found(SERVED, length, b);
    return (Search){1, 0, lesser(less(load, b.figure), less(start, 1)), length, b, OUT_OF_RANGE, 0};
}

/* No span of a cycle or more is as good as the one that is a cycle shorter, where the work is even. */
static Search turn_down(uint64_t length, Best best, int even, uint64_t load, uint64_t start)
{
    if (even && CYCLE < length)
        return (Search){1, 0, CYCLE - 1, length, best, OUT_OF_RANGE, even};
    return fall(length, best, load, start);
}

static Search rise(uint64_t d, Best best, int even, uint64_t load, uint64_t start)
{
    if (load <= d + 1)
        return turn_down(d + 1, best, even, load, start);
    if (LIMIT < load)
        return found(ENDLESS, 0, best);
    return (Search){1, 1, load - 1, 0, best, OUT_OF_RANGE, even};
}

static Best seed(uint64_t d, uint64_t load, Best best)
{
    return d == 0 ? (Best){load, 0} : best;
}

static Search turn(Search s, Tally t)
{
    if (!t.fair)
        return found(OUT_OF_RANGE, 0, s.best);
    if (!s.rising)
        return fall(s.length, s.best, t.load, t.start);
    return rise(s.d, seed(s.d, t.load, s.best), s.d == 0 ? t.even : s.even, t.load, t.start);
}

static Search begin(uint64_t n)
{
    Best best = {0, 0};
    if (MOST_FLOWS < n)
        return found(OUT_OF_RANGE, 0, best);
    return (Search){1, 1, 0, 0, best, OUT_OF_RANGE, 0};
}

static Search searched(const Flow *flows, uint64_t n)
{
    Search s = begin(n);
    while (s.going) {
        COUNTED(*(s.rising ? &counted.up : &counted.down) += 1);
        COUNTED(counted.looks += n);
        s = turn(s, sweep(flows, n, s.d));
    }
    COUNTED(if (counted.longest < s.length) counted.longest = s.length);
    return s;
}

#endif
