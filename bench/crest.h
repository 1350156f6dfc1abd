/* Legal tables whose ports take many passes: each of the last ports is the station crest-port of stations.h, flow for flow.
   The jitters that it needs are made by mux waits, 84 ticks apart, and by slow ports before it, one for each group of VLs. */
#ifndef CREST_H
#define CREST_H

#include "pack.h"

#define GROUPS 8
#define SYSTEMS 13
#define BIGS 4

/* 78 small VLs of 84 bytes on the line go by GROUPS ports of 10 Mbit/s, SIZE[g] of them by port g, the big ones by a port of
   their own, and all of them by each of the crest ports. SPREAD[g] is the span of the switch delay before port g. */
static const uint32_t SIZE[GROUPS] = {7, 8, 8, 9, 10, 11, 12, 13};
static const uint32_t SPREAD[GROUPS + 1] = {319, 67, 739, 571, 487, 487, 571, 739, 388};
static const uint32_t BIG[BIGS] = {1462, 1461, 1461, 1461};

static void crest(Net *n, uint32_t ports)
{
    uint32_t small[GROUPS][SYSTEMS], first[GROUPS][SYSTEMS], big[BIGS], first_big[BIGS];
    uint32_t fill[2 * SYSTEMS], fills = 0, extra = 0;
    /* End system e has one VL of each group that has more than e, and so much else that the mux wait of each of them is
       84 * (e + GROUPS - 1). */
    for (uint32_t e = 0; e < SYSTEMS; e++) {
        uint32_t system = new_system(n, 0), left = 84 * (e + GROUPS);
        for (uint32_t g = 0; g < GROUPS; g++)
            if (e < SIZE[g]) {
                small[g][e] = new_vl(n, system, 0, 1, 64);
                left -= 84;
            }
        while (0 < left) {
            uint32_t bytes = left <= 1538 ? left : 84;
            fill[fills++] = new_vl(n, system, 7, 1, bytes - 20);
            left -= bytes;
        }
    }
    for (uint32_t k = 0; k < BIGS; k++)
        big[k] = new_vl(n, new_system(n, 0), 0, 1, BIG[k]);
    uint32_t last = new_vl(n, new_system(n, 0), 2, 1, 67);

    for (uint32_t g = 0; g < GROUPS; g++) {
        uint32_t port = new_port(n, 1, 0, SPREAD[g]);
        for (uint32_t e = 0; e < SIZE[g]; e++)
            first[g][e] = new_hop(n, small[g][e], port, 0) + 1;
        for (uint32_t e = 0; e < SIZE[g]; e++)
            new_stream(n, small[g][e], 0, 17, 50000, 0);
    }
    uint32_t before = new_port(n, 0, 0, SPREAD[GROUPS]), aside = new_port(n, 0, 0, 0);
    for (uint32_t k = 0; k < BIGS; k++)
        first_big[k] = new_hop(n, big[k], before, 0) + 1;
    for (uint32_t i = fills; 0 < i--;) {
        uint32_t bytes = 20 + n->vl[fill[i]].lmax;
        int with_big = extra + bytes <= 4900;
        new_hop(n, fill[i], with_big ? before : aside, 0);
        extra += with_big ? bytes : 0;
    }
    for (uint32_t p = 0; p < ports; p++) {
        uint32_t port = new_port(n, 0, 0, 0);
        for (uint32_t k = 0; k < BIGS; k++)
            new_hop(n, big[k], port, first_big[k]);
        for (uint32_t g = 0; g < GROUPS; g++)
            for (uint32_t e = 0; e < SIZE[g]; e++)
                new_hop(n, small[g][e], port, first[g][e]);
        new_hop(n, last, port, 0);
    }
}

#endif
