/* The tables that are measured, by name: each is a network put together by rule, the same on every machine.
   Names that end in a number are a row of tables that grow with it. */
#ifndef TABLES_H
#define TABLES_H

#include "crest.h"

/* ---- usual: some dozen VLs over two or three switches, moderate loads */

static void usual(Net *n, uint32_t number)
{
    drawn = number;
    uint32_t left[64], width = 6 + draw(6);
    memcpy(n->delays, (uint32_t[4]){100, 1000, 100, 500}, sizeof n->delays);
    for (uint32_t e = 0; e < 12 + number % 20; e++)
        left[new_system(n, draw(8) == 0)] = 5750;
    for (uint32_t p = 0; p < 3 * width; p++)
        new_port(n, draw(8) == 0, draw(200), 200 + draw(800));
    for (uint32_t i = 0; i < 3 * n->systems; i++) {
        uint32_t e = draw(n->systems), lmax = 64 + draw(300), links = draw(4) == 0 ? 2 + draw(3) : 1;
        uint32_t line = (20 + lmax) * (n->slow[e] ? 10 : 1), code = 2 + draw(6);
        if (left[e] < line)
            continue;
        left[e] -= line;
        uint32_t v = new_vl(n, e, code, links, lmax);
        uint32_t root = new_hop(n, v, draw(width), 0) + 1, second = width + draw(width - 1);
        for (uint32_t k = 0; k < 2; k++) {
            uint32_t next = new_hop(n, v, second + k, root) + 1;
            if (draw(2) == 0)
                new_hop(n, v, 2 * width + (second + k) % width, next);
        }
        for (uint32_t s = 0; s <= draw(3); s++) {
            uint32_t packets = 1 + (draw(4) == 0) * draw(3), period = (12500u << code) * links * packets * (4 + draw(8));
            new_stream(n, v, draw(links), packets * (lmax - 47), period < 125000000 ? period : 125000000, draw(100000));
        }
    }
}

/* ---- full size: 64 end systems, 128 ports, and so many VLs with two streams and four hops each; 256 are the most */

static void full(Net *n, uint32_t vls, uint32_t links)
{
    drawn = 3;
    memcpy(n->delays, (uint32_t[4]){100, 1000, 10, 500}, sizeof n->delays);
    for (uint32_t e = 0; e < 64; e++)
        new_system(n, 0);
    for (uint32_t p = 0; p < 128; p++)
        new_port(n, 0, draw(400), 400 + draw(850));
    for (uint32_t v = 0; v < vls; v++) {
        uint32_t code = 1 + draw(5), lmax = 64 + draw(900), most = links == 0 ? 1 + draw(4) : links;
        uint32_t base = draw(32), gap = 12500u << code, k;
        new_vl(n, v / 4, code, most, lmax);
        k = new_hop(n, v, base, 0) + 1;
        k = new_hop(n, v, base + 32, k) + 1;
        new_hop(n, v, base + 64, k);
        new_hop(n, v, base + 96, k);
        for (uint32_t s = 0; s < 2; s++)
            new_stream(n, v, draw(most), 1 + draw(lmax - 47), gap * most * (3 + draw(9)), draw(100000));
    }
}

/* ---- crafted: VLs of 1 ms and 84 bytes that share slow ports, one the first, two the second, .. fourteen the fourteenth
   and so on anew; then each goes by every one of the last ports, whose load one VL of 4 ms brings to what is wanted */

static void crafted(Net *n, uint32_t ports, uint32_t vls, uint32_t tune)
{
    uint32_t first[256], port = 0, room = 0, turn = 0;
    drawn = 5;
    for (uint32_t v = 0; v < vls; v++) {
        if (v % 3 == 0)
            new_system(n, 0);
        if (room == 0) {
            room = 1 + turn++ % 14;
            port = new_port(n, 1, 0, draw(1251));
        }
        room--;
        first[v] = new_hop(n, new_vl(n, v / 3, 0, 1, 64), port, 0) + 1;
        if (v % 4 == 0)
            new_stream(n, v, 0, 10, 50000, 0);
    }
    uint32_t last = new_vl(n, new_system(n, 0), 2, 1, tune - 20);
    for (uint32_t p = 0; p < ports; p++) {
        port = new_port(n, 0, 0, 0);
        for (uint32_t v = 0; v < vls; v++)
            new_hop(n, v, port, first[v]);
        new_hop(n, last, port, 0);
    }
}

/* One such port at a load in ten thousandths. */
static void loaded(Net *n, uint32_t load)
{
    uint32_t vls = load * 5 / 4 / 84 - 1;
    crafted(n, 1, vls, load * 5 - 4 * 84 * vls);
}

/* One port with so many VLs, up to 128, at a load of 0.9999 in all. Each comes from an end system and over a port that it
   shares with a VL of 128 ms; these are of many sizes, so that the jitters differ. */
static void gathered(Net *n, uint32_t flows)
{
    uint32_t line = (12498 - 300) / (flows - 1), first[128], systems = flows < 63 ? flows : 63;
    drawn = 7;
    for (uint32_t e = 0; e < systems; e++)
        new_hop(n, new_vl(n, new_system(n, 0), 7, 1, 64 + draw(1400)), new_port(n, 0, 0, draw(1251)), 0);
    for (uint32_t i = 0; i + 1 < flows; i++)
        first[i] = new_hop(n, new_vl(n, i % systems, 0, 1, line - 20), i % systems, 0) + 1;
    uint32_t last = new_port(n, 0, 0, 0);
    for (uint32_t i = 0; i + 1 < flows; i++) {
        new_hop(n, systems + i, last, first[i]);
        new_stream(n, systems + i, 0, 17, 50000, 0);
    }
    new_hop(n, new_vl(n, new_system(n, 0), 2, 1, 49995 - 4 * line * (flows - 1) - 20), last, 0);
}

/* ---- queues */

/* VLs of 1 ms, with a hop each and no streams yet. */
static void bare_vls(Net *n, uint32_t vls)
{
    for (uint32_t e = 0; e < 64; e++)
        new_system(n, 0);
    for (uint32_t p = 0; p < 128; p++)
        new_port(n, 0, 0, 0);
    for (uint32_t v = 0; v < vls; v++)
        new_hop(n, new_vl(n, v / 4, 0, 1, 64), v % 128, 0);
}

/* A queue of 512 streams with a load of exactly one and a busy length of 125,000,000. */
static void queue_one(Net *n)
{
    bare_vls(n, 1);
    for (uint32_t k = 0; k < 4; k++)
        new_stream(n, 0, 0, 17, 25000u << k, 0);
    for (uint32_t k = 0; k < 507; k++)
        new_stream(n, 0, 0, 17, 125000000, 0);
    new_stream(n, 0, 0, 117 * 24 + 17, 125000000, 0); /* the longest message of 118 packets */
}

/* 256 queues of one stream, the station creep-queue of stations.h. */
static void queue_creep(Net *n)
{
    bare_vls(n, 256);
    for (uint32_t v = 0; v < 256; v++)
        new_stream(n, v, 0, 17, 12501, 9999);
}

/* ---- by name */

static int is_row(const char *name, const char *row, uint32_t *number)
{
    size_t k = strlen(row);
    for (size_t i = 0; i < k; i++)
        if (name[i] != row[i])
            return 0;
    *number = (uint32_t)strtoul(name + k, NULL, 10);
    return 0 < *number;
}

/* Whether there is a table of that name. */
static int made(Net *n, const char *name)
{
    uint32_t k;
    memset(n, 0, sizeof *n);
    if (is_row(name, "usual-", &k))
        usual(n, k);
    else if (strcmp(name, "full") == 0)
        full(n, 256, 0);
    else if (strcmp(name, "full-queues") == 0)
        full(n, 256, 4);
    else if (is_row(name, "hops-", &k))
        full(n, k / 4, 0);
    else if (strcmp(name, "crafted") == 0)
        crafted(n, 6, 145, 1275);
    else if (is_row(name, "load-", &k))
        loaded(n, k);
    else if (is_row(name, "flows-", &k))
        gathered(n, k);
    else if (strcmp(name, "queue-one") == 0)
        queue_one(n);
    else if (strcmp(name, "queue-creep") == 0)
        queue_creep(n);
    else if (is_row(name, "crest-", &k))
        crest(n, k);
    else
        return 0;
    return 1;
}

#endif
