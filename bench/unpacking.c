/* A table unpacked and nothing else, for bench/run: by avulgjesh_unpack of the suppliers' archive where PROVED is set, and otherwise by
   the twin's reader. Reads the table and writes the numbers of its records, as they stand in memory, with the answer before them. */
#include "read.h"
#ifdef PROVED
#include "../include/avulgjesh.h"
#endif

static uint8_t bytes[12111];
static Lists l;

static size_t read_full(void)
{
    size_t n = 0;
    long got;
    while (n < sizeof bytes && 0 < (got = read(0, bytes + n, sizeof bytes - n)))
        n += (size_t)got;
    return n;
}

static Answer unpacked(size_t n)
{
#ifdef PROVED
    uint64_t header[5];
    struct avulgjesh_unpack_answer a =
        avulgjesh_unpack(bytes, n, header, 5, &l.systems[0][0], 64, &l.vls[0][0], 1024, &l.streams[0][0], 3584, &l.ports[0][0], 384,
                         &l.hops[0][0], 3072);
    memcpy(l.delays, header + 1, sizeof l.delays);
    l.rows[1] = a.systems, l.rows[2] = a.vls, l.rows[3] = a.streams, l.rows[4] = a.ports, l.rows[5] = a.hops;
    return (Answer){a.number, a.section, a.row};
#else
    return unpack(bytes, n, &l);
#endif
}

int main(void)
{
    size_t n = read_full();
    Answer a = unpacked(n);
    write(1, &a, sizeof a);
    write(1, l.delays, sizeof l.delays);
    write(1, l.systems, l.rows[1] * sizeof l.systems[0]);
    write(1, l.vls, l.rows[2] * sizeof l.vls[0]);
    write(1, l.streams, l.rows[3] * sizeof l.streams[0]);
    write(1, l.ports, l.rows[4] * sizeof l.ports[0]);
    write(1, l.hops, l.rows[5] * sizeof l.hops[0]);
    return 0;
}
