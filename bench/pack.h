/* A network that is put together row by row, and its packed table: for the programs that make tables.
   Each `new_` answers the row of what it adds. Nothing is tested here; the analysis refuses what is not good. */
#ifndef PACK_H
#define PACK_H

#include "plain.h"

#define MOST_BYTES 12111

typedef struct {
    uint32_t system, code, sub_links, lmax;
} Vl;

typedef struct {
    uint32_t vl, sub_link, kind, m, least, period, jitter;
} Stream;

typedef struct {
    uint32_t slow, least, greatest;
} Port;

typedef struct {
    uint32_t vl, port, parent;
} Hop;

typedef struct {
    uint32_t delays[4], systems, vls, streams, ports, hops;
    uint32_t slow[64];
    Vl vl[256];
    Stream stream[512];
    Port port[128];
    Hop hop[1024];
} Net;

static uint32_t new_system(Net *n, uint32_t slow)
{
    if (n->systems < 64)
        n->slow[n->systems] = slow;
    return n->systems++;
}

static uint32_t new_vl(Net *n, uint32_t system, uint32_t code, uint32_t sub_links, uint32_t lmax)
{
    if (n->vls < 256)
        n->vl[n->vls] = (Vl){system, code, sub_links, lmax};
    return n->vls++;
}

static uint32_t new_stream(Net *n, uint32_t vl, uint32_t sub_link, uint32_t m, uint32_t period, uint32_t jitter)
{
    if (n->streams < 512)
        n->stream[n->streams] = (Stream){vl, sub_link, 0, m, 1, period, jitter};
    return n->streams++;
}

static uint32_t new_port(Net *n, uint32_t slow, uint32_t least, uint32_t greatest)
{
    if (n->ports < 128)
        n->port[n->ports] = (Port){slow, least, greatest};
    return n->ports++;
}

/* `parent` is the parent's row + 1, or 0. */
static uint32_t new_hop(Net *n, uint32_t vl, uint32_t port, uint32_t parent)
{
    if (n->hops < 1024)
        n->hop[n->hops] = (Hop){vl, port, parent};
    return n->hops++;
}

/* Whether nothing was added past a limit. */
static int fits(const Net *n)
{
    return n->systems <= 64 && n->vls <= 256 && n->streams <= 512 && n->ports <= 128 && n->hops <= 1024;
}

/* ---- the table */

typedef struct {
    uint8_t *bytes;
    size_t at;
} Pen;

static void put(Pen *p, uint32_t width, uint32_t value)
{
    for (uint32_t i = width; 0 < i; i--, p->at++)
        if (value >> (i - 1) & 1)
            p->bytes[p->at / 8] |= (uint8_t)(128 >> p->at % 8);
}

/* The table's bytes, and how many they are: none where the network is too large. */
static size_t packed(const Net *n, uint8_t bytes[MOST_BYTES])
{
    Pen p = {bytes, 0};
    memset(bytes, 0, MOST_BYTES);
    if (!fits(n))
        return 0;
    put(&p, 8, 1);
    put(&p, 8, n->systems);
    put(&p, 12, n->vls);
    put(&p, 12, n->streams);
    put(&p, 8, n->ports);
    put(&p, 12, n->hops);
    for (int k = 0; k < 4; k++)
        put(&p, 12, n->delays[k]);
    put(&p, 4, 0);
    for (uint32_t i = 0; i < n->systems; i++) {
        put(&p, 1, n->slow[i]);
        put(&p, 7, 0);
    }
    for (uint32_t i = 0; i < n->vls; i++) {
        put(&p, 8, n->vl[i].system);
        put(&p, 3, n->vl[i].code);
        put(&p, 2, n->vl[i].sub_links - 1);
        put(&p, 11, n->vl[i].lmax);
    }
    for (uint32_t i = 0; i < n->streams; i++) {
        const Stream *s = &n->stream[i];
        put(&p, 12, s->vl);
        put(&p, 2, s->sub_link);
        put(&p, 1, s->kind);
        put(&p, 14, s->m);
        put(&p, 14, s->least);
        put(&p, 27, s->period);
        put(&p, 27, s->jitter);
        put(&p, 7, 0);
    }
    for (uint32_t i = 0; i < n->ports; i++) {
        put(&p, 1, n->port[i].slow);
        put(&p, 12, n->port[i].least);
        put(&p, 12, n->port[i].greatest);
        put(&p, 7, 0);
    }
    for (uint32_t i = 0; i < n->hops; i++) {
        put(&p, 12, n->hop[i].vl);
        put(&p, 8, n->hop[i].port);
        put(&p, 12, n->hop[i].parent);
    }
    return p.at / 8;
}

/* ---- numbers by a generator, the same on every machine */

static uint64_t drawn;

/* A number below m. */
static uint32_t draw(uint32_t m)
{
    drawn = drawn * 6364136223846793005u + 1442695040888963407u;
    return (uint32_t)((drawn >> 33) % m);
}

#endif
