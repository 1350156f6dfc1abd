/* The stations whose passes are counted. Whole numbers only, and the same formulas as in crates/run_stations. */
#ifndef STATIONS_H
#define STATIONS_H

#include "search.h"

/* Flows of one period. All of them bring one at tick 0. The second of flow j comes at tick (first + j * gap) mod period,
   or a whole period later where that is 0: so the jitter is what is left of the period then, and `rounds` periods more
   bring as many others at tick 0. The cost is one more for the first `more` of them. */
typedef struct {
    uint64_t count, period, first, gap, cost, more, rounds;
} Group;

/* Flows by a generator of numbers. Where `base` is 0, those of a port: gaps of 12,500 * 2^code, costs of 84 to 84 + spread.
   Else those of a queue: periods from `base` on in steps, and 1 to 1 + spread packets of a gap of 12,500 ticks. */
typedef struct {
    uint64_t seed, low, spread, base, step;
} Mix;

/* A mix where it has a seed, else groups one after the other. `flows` is how many are handed over. */
typedef struct {
    const char *name;
    uint64_t flows;
    Group group[3];
    Mix mix;
} Plan;

static Flow of_group(Group g, uint64_t j)
{
    Flow f = {g.period, 0, j < g.more ? g.cost + 1 : g.cost};
    if (g.period != 0)
        f.jitter = g.rounds * g.period + (g.period - (g.first + j * g.gap) % g.period) % g.period;
    return f;
}

static Flow of_groups(const Plan *p, uint64_t i)
{
    const Group *g = p->group;
    if (i < g[0].count)
        return of_group(g[0], i);
    i -= g[0].count;
    if (i < g[1].count)
        return of_group(g[1], i);
    return of_group(g[2], i - g[1].count);
}

static uint64_t next(uint64_t x)
{
    return (x * 1664525 + 1013904223) % 4294967296;
}

static uint64_t high(uint64_t x)
{
    return x / 65536;
}

static uint64_t gap_code(uint64_t i, uint64_t a, uint64_t low)
{
    return i % 128 == 0 ? i / 128 : low + high(a) % (8 - low);
}

/* x is the generator's last number: a flow takes the next three. */
static Flow of_mix(Mix m, uint64_t i, uint64_t x)
{
    uint64_t a = next(x), b = next(a), c = next(b);
    uint64_t by = high(b) % (m.spread + 1);
    Flow f;
    f.period = m.base == 0 ? (uint64_t)12500 << gap_code(i, a, m.low) : m.base + high(a) * m.step;
    f.jitter = high(c);
    f.cost = m.base == 0 ? 84 + by : 12500 * (1 + by);
    return f;
}

static Flow of_plan(const Plan *p, uint64_t i, uint64_t x)
{
    return p->mix.seed == 0 ? of_groups(p, i) : of_mix(p->mix, i, x);
}

static void built(const Plan *p, Flow flows[MOST_FLOWS])
{
    uint64_t x = p->mix.seed;
    for (uint64_t i = 0; i < MOST_FLOWS; i++) {
        flows[i] = of_plan(p, i, x);
        x = next(next(next(x)));
    }
}

static const Plan plans[] = {
    /* nothing, and one flow */
    {"none", 0, {{0}}, {0}},
    {"one", 1, {{1, 12500, 0, 0, 1538, 0, 1}}, {0}},
    /* the ends of each range, and one past them, which is refused 4 */
    {"short-period", 1024, {{1023, 12500, 0, 0, 1, 0, 0}, {1, 12499, 0, 0, 1, 0, 0}}, {0}},
    {"longest-period", 1024, {{1023, 12500, 0, 0, 1, 0, 0}, {1, 125000000, 0, 0, 1, 0, 0}}, {0}},
    {"long-period", 1024, {{1023, 12500, 0, 0, 1, 0, 0}, {1, 125000001, 0, 0, 1, 0, 0}}, {0}},
    {"longest-jitter", 1024, {{1023, 12500, 0, 0, 1, 0, 0}, {1, 125000000, 0, 0, 1, 0, 16}}, {0}},
    {"long-jitter", 1024, {{1023, 12500, 0, 0, 1, 0, 0}, {1, 125000000, 124999999, 0, 1, 0, 16}}, {0}},
    {"no-cost", 1024, {{1023, 12500, 0, 0, 1, 0, 0}, {1, 12500, 0, 0, 0, 0, 0}}, {0}},
    {"greatest-cost", 1024, {{1023, 12500, 0, 0, 1, 0, 0}, {1, 12500, 0, 0, 4000000000, 0, 0}}, {0}},
    {"great-cost", 1024, {{1023, 12500, 0, 0, 1, 0, 0}, {1, 12500, 0, 0, 4000000001, 0, 0}}, {0}},
    {"most", 1024, {{1024, 12500, 0, 0, 1, 0, 0}}, {0}},
    {"too-many", 1025, {{1024, 12500, 0, 0, 1, 0, 0}}, {0}},
    /* usual ports and queues */
    {"port-30", 1024, {{0}}, {1, 6, 360, 0, 0}},
    {"port-60", 1024, {{0}}, {2, 6, 900, 0, 0}},
    {"port-90", 1024, {{0}}, {3, 5, 940, 0, 0}},
    {"queue-30", 1024, {{0}}, {4, 0, 1, 36000000, 1000}},
    {"queue-60", 1024, {{0}}, {5, 0, 1, 18000000, 500}},
    {"queue-90", 1024, {{0}}, {6, 0, 1, 12000000, 340}},
    /* a load near one, and above it */
    {"near-99", 1024, {{1024, 12500, 0, 4581, 12, 87, 0}}, {0}},
    {"near-999", 1024, {{1024, 12500, 0, 4581, 12, 200, 0}}, {0}},
    {"near-9999", 1024, {{1023, 12500, 0, 4581, 12, 222, 0}, {1, 50000, 0, 0, 3, 0, 0}}, {0}},
    {"above-one", 1024, {{1024, 12500, 0, 4581, 12, 300, 0}}, {0}},
    {"twice", 1024, {{1024, 12500, 0, 4581, 24, 424, 0}}, {0}},
    /* 600 flows of short periods and 424 of the longest, whose second arrivals come just before the backlog ends: the
       way up creeps from one short flow's arrival to the next. */
    {"ends-small", 1024,
     {{450, 12500, 1, 21, 21, 0, 0}, {150, 12500, 9451, 20, 20, 0, 0}, {424, 125000000, 5100000, 5000, 20, 0, 0}}, {0}},
    {"ends", 1024,
     {{497, 12500, 1, 21, 21, 0, 0}, {103, 12500, 10438, 20, 20, 0, 0}, {424, 125000000, 87400000, 83333, 20, 0, 0}}, {0}},
    /* The same, their second arrivals all near its beginning: the way down creeps for as long as the backlog is above
       that of tick 0. */
    {"begins-small", 1024, {{600, 12500, 1, 20, 1, 0, 0}, {424, 125000000, 1, 1, 140, 0, 0}}, {0}},
    {"begins", 1024, {{600, 12500, 1, 20, 1, 0, 0}, {424, 125000000, 1, 1, 140300, 0, 0}}, {0}},
    /* One flow of a period a little longer slips past the 1,022 small ones after some thousand periods. From then on the
       backlog is down to one tick where they come: the way up creeps from one of them to the next. */
    {"slip-small", 1024,
     {{1022, 12500, 9979, 1, 1, 0, 0}, {1, 12500, 11001, 0, 8958, 0, 0}, {1, 15000, 0, 0, 2520, 0, 0}}, {0}},
    {"slip", 1024,
     {{1022, 12500, 9979, 1, 1, 0, 0}, {1, 12500, 11001, 0, 8958, 0, 0}, {1, 12502, 0, 0, 2520, 0, 0}}, {0}},
    /* One large flow comes again at tick 1, and 1,022 small ones follow it tick by tick, so that all of them stand at
       the crest of the backlog, which falls a little with each period: the way down stops at each of them. */
    {"crest-small", 1024,
     {{1, 12500, 1, 0, 9478, 0, 0}, {1022, 12500, 2, 1, 1, 0, 0}, {1, 50000, 0, 0, 3, 0, 0}}, {0}},
    {"crest", 1024,
     {{1, 12500, 1, 0, 11476, 0, 0}, {1022, 12500, 2, 1, 1, 0, 0}, {1, 50000, 0, 0, 3, 0, 0}}, {0}},
    {"crest-odd", 1024,
     {{1, 12500, 1, 0, 11476, 0, 0}, {1022, 12500, 2, 1, 1, 0, 0}, {1, 50001, 0, 0, 3, 0, 0}}, {0}},
    /* The same with costs of 84 to 1,538 and periods that are gaps, as in a port. */
    {"crest-port-small", 83,
     {{4, 12500, 1, 0, 1456, 1, 0}, {78, 12500, 85, 84, 84, 0, 0}, {1, 50000, 0, 0, 87, 0, 0}}, {0}},
    {"crest-port", 83,
     {{4, 12500, 1, 0, 1481, 1, 0}, {78, 12500, 85, 84, 84, 0, 0}, {1, 50000, 0, 0, 87, 0, 0}}, {0}},
    /* One flow of a queue of gap 12,500. */
    {"creep-queue", 1, {{1, 12501, 2502, 0, 12500, 0, 0}}, {0}},
};

#define PLANS (sizeof plans / sizeof plans[0])

#endif
