/* Looks for legal tables that take long: starts from a table of tables.h, changes a few of its numbers at random, and keeps
   what is accepted and makes the searches look at no fewer flows. The same words give the same.

     climb NAME SEED STEPS [FILE]    prints the flows looked at whenever they are more; FILE gets the last table */
#define COUNT
#include "figures.h"
#include "tables.h"

static Net best, tried;
static uint8_t bytes[MOST_BYTES];

/* The flows that the searches look at; 0 where the table is refused. */
static uint64_t looks(const Net *n)
{
    static uint64_t result[6 * 1024];
    size_t rows, length = packed(n, bytes);
    memset(&counted, 0, sizeof counted);
    if (length == 0 || analyse(bytes, length, result, 6 * 1024, &rows).number != 0)
        return 0;
    return counted.looks;
}

static void shift(uint32_t *at, uint32_t low, uint32_t high, uint32_t by)
{
    uint32_t d = 1 + draw(by);
    if (draw(2) == 0)
        *at = *at < low + d ? low : *at - d;
    else
        *at = high < *at + d ? high : *at + d;
}

static void change(Net *n)
{
    uint32_t by = draw(2);
    Port *port = &n->port[draw(n->ports)];
    Vl *vl = &n->vl[draw(n->vls)];
    Hop *hop = &n->hop[draw(n->hops)];
    switch (draw(n->streams == 0 ? 7 : 9)) {
    case 0:
    case 1:
        shift(&port->greatest, port->least, 1250, by == 0 ? 8 : 400);
        break;
    case 2:
        shift(&vl->lmax, 64, 1518, by == 0 ? 2 : 100);
        break;
    case 3:
        shift(&vl->code, 0, 7, 1);
        break;
    case 4:
        vl->system = draw(n->systems);
        break;
    case 5:
        shift(&hop->port, 0, n->ports - 1, 3);
        break;
    case 6:
        port->slow = 1 - port->slow;
        break;
    case 7:
        shift(&n->stream[draw(n->streams)].period, 12500, 125000000, by == 0 ? 2 : 10000);
        break;
    default:
        shift(&n->stream[draw(n->streams)].jitter, 0, 125000000, by == 0 ? 2 : 10000);
    }
}

int main(int argc, char **argv)
{
    if (argc < 4 || !made(&best, argv[1])) {
        dprintf(2, "climb NAME SEED STEPS [FILE]\n");
        return 2;
    }
    uint64_t most = looks(&best), steps = strtoul(argv[3], NULL, 10);
    drawn = strtoul(argv[2], NULL, 10);
    printf("0 %lu\n", (unsigned long)most);
    for (uint64_t i = 1; i <= steps; i++) {
        tried = best;
        for (uint32_t k = draw(3) + 1; 0 < k; k--)
            change(&tried);
        uint64_t now = looks(&tried);
        if (now == 0 || now < most)
            continue;
        best = tried;
        if (most < now)
            printf("%lu %lu\n", (unsigned long)i, (unsigned long)now);
        most = now;
    }
    int file = argc < 5 ? -1 : open(argv[4], 01 | 0100 | 01000, 0644);
    if (0 <= file) {
        size_t length = packed(&best, bytes);
        write(file, bytes, length);
        close(file);
    }
    return 0;
}
