/* The passes over the flows that the search of crates/station takes, counted in its twin in C (search.h).

     station [NAME..]    the named stations of stations.h, or all of them

   prints a line for each:

     NAME LENGTH FIGURE SPAN PASSES UP DOWN FLOWS LOAD
     NAME refused NUMBER - PASSES UP DOWN FLOWS LOAD

   SPAN is the least span that gives the figure. UP and DOWN are the passes of the two ways; the last pass up is also
   the first look of the way down. */
#define COUNT
#include "stations.h"

/* The load in billionths, each flow's rounded down. */
static uint64_t load_of(const Flow *flows, uint64_t n)
{
    uint64_t sum = 0;
    for (uint64_t i = 0; i < n && i < MOST_FLOWS; i++)
        if (flows[i].period != 0)
            sum += flows[i].cost * 1000000000 / flows[i].period;
    return sum;
}

static void show(const Plan *p)
{
    static Flow flows[MOST_FLOWS];
    built(p, flows);
    uint64_t load = load_of(flows, p->flows) / 100;
    counted.up = counted.down = 0;
    Search s = searched(flows, p->flows);
    if (s.answer == SERVED)
        dprintf(1, "%s %llu %llu %llu", p->name, (unsigned long long)s.length, (unsigned long long)s.best.figure,
                (unsigned long long)s.best.span);
    else
        dprintf(1, "%s refused %d -", p->name, (int)s.answer);
    dprintf(1, " %llu %llu %llu %llu %llu.%07llu\n", (unsigned long long)(counted.up + counted.down),
            (unsigned long long)counted.up, (unsigned long long)counted.down, (unsigned long long)p->flows,
            (unsigned long long)(load / 10000000), (unsigned long long)(load % 10000000));
}

int main(int argc, char **argv)
{
    if (argc < 2)
        for (size_t k = 0; k < PLANS; k++)
            show(&plans[k]);
    for (int i = 1; i < argc; i++) {
        size_t k = 0;
        while (k < PLANS && strcmp(plans[k].name, argv[i]) != 0)
            k++;
        if (k == PLANS) {
            dprintf(2, "station: no station is named %s\n", argv[i]);
            return 1;
        }
        show(&plans[k]);
    }
    return 0;
}
