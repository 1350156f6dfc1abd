/* The twin in C of the program crates/run_stations: the same stations in the same order, and the same lines. Each is searched
   twice, as there by both doors of the station.
   Those of stations.h that run for seconds are left out there and here. With -DCOUNT a last line has the counts. */
#include "stations.h"

static const char *const LONG[] = {"near-9999", "ends", "begins", "slip", "crest", "crest-odd", "crest-port"};

static int is_long(const char *name)
{
    for (size_t k = 0; k < sizeof LONG / sizeof LONG[0]; k++)
        if (strcmp(LONG[k], name) == 0)
            return 1;
    return 0;
}

static void show(const char *before, Search s, const char *after)
{
    char line[80];
    int n = s.answer == SERVED ? snprintf(line, sizeof line, "%s %lu %lu%s", before, (unsigned long)s.length,
                                          (unsigned long)s.best.figure, after)
                               : snprintf(line, sizeof line, "%s refused %d%s", before, (int)s.answer, after);
    write(1, line, (size_t)n);
}

static void show_both(const Plan *p)
{
    static Flow flows[MOST_FLOWS];
    built(p, flows);
    show(p->name, searched(flows, p->flows), " |");
    show("", searched(flows, p->flows), "\n");
}

int main(void)
{
    for (size_t k = 0; k < PLANS; k++)
        if (!is_long(plans[k].name))
            show_both(&plans[k]);
#ifdef COUNT
    dprintf(1, "0 %lu %lu %lu %lu 0\n", (unsigned long)counted.up, (unsigned long)counted.down, (unsigned long)counted.looks,
            (unsigned long)counted.longest);
#endif
    return 0;
}
