/* Runs a proved program and its twin in C beside each other, in one process and by turns, each many times on the same tables;
   what they write must be the same. Linked with both, main, read and write wrapped, so that neither meets the system.

     beside MILLISECONDS [TABLE..]

   prints the nanoseconds of processor time that each takes for all of the tables, the least of the rounds:

     PROVED TWIN ROUNDS */
#include "plain.h"

#define MOST_TABLES 4096
#define MOST_BYTES 12112
#define MOST_TEXT 262144
#define LEAST_ROUNDS 3

int __real_main(void);
int twin_main(void);
long __real_read(int file, void *to, size_t most);

struct timespec {
    long seconds, nanoseconds;
};

int clock_gettime(int clock, struct timespec *now);

/* ---- what the two read and write */

static uint8_t tables[MOST_TABLES][MOST_BYTES];
static size_t sizes[MOST_TABLES], count, now_read, now_at;
static char text[2][MOST_TEXT];
static size_t written[2];
static int who;

long __wrap_read(int file, void *to, size_t most)
{
    size_t left = sizes[now_read] - now_at, n = left < most ? left : most;
    (void)file;
    memcpy(to, tables[now_read] + now_at, n);
    now_at += n;
    return (long)n;
}

long __wrap_write(int file, const void *from, size_t n)
{
    (void)file;
    if (MOST_TEXT - written[who] < n)
        return -1;
    memcpy(text[who] + written[who], from, n);
    written[who] += n;
    return (long)n;
}

/* The toolchain's library has C's write under this name too. */
long __wrap___write(int file, const void *from, size_t n)
{
    return __wrap_write(file, from, n);
}

static void one(int which, size_t table)
{
    who = which;
    now_read = table;
    now_at = 0;
    written[which] = 0;
    if (which == 0)
        __real_main();
    else
        twin_main();
}

/* ---- the time of all tables, some times over */

static uint64_t processor_time(void)
{
    struct timespec t;
    clock_gettime(2, &t);
    return (uint64_t)t.seconds * 1000000000 + (uint64_t)t.nanoseconds;
}

static uint64_t timed(int which, uint64_t times)
{
    uint64_t begin = processor_time();
    for (uint64_t k = 0; k < times; k++)
        for (size_t i = 0; i < count; i++)
            one(which, i);
    return processor_time() - begin;
}

static int same(size_t table)
{
    one(0, table);
    one(1, table);
    return written[0] == written[1] && memcmp(text[0], text[1], written[0]) == 0;
}

static int taken(const char *path)
{
    int file = open(path, 0);
    long n = 1;
    if (file < 0 || count == MOST_TABLES)
        return 0;
    while (0 < n && sizes[count] < MOST_BYTES) {
        n = __real_read(file, tables[count] + sizes[count], MOST_BYTES - sizes[count]);
        if (0 < n)
            sizes[count] += (size_t)n;
    }
    close(file);
    count++;
    return 1;
}

int __wrap_main(int argc, char **argv)
{
    uint64_t wanted = argc < 2 ? 0 : strtoul(argv[1], NULL, 10) * 1000000;
    for (int i = 2; i < argc; i++)
        if (!taken(argv[i])) {
            dprintf(2, "beside: cannot take %s\n", argv[i]);
            return 2;
        }
    if (count == 0)
        count = 1;
    for (size_t i = 0; i < count; i++)
        if (!same(i)) {
            dprintf(2, "beside: the two do not write the same of table %s\n", i + 2 < (size_t)argc ? argv[i + 2] : "-");
            return 1;
        }
    /* a round is as many times as take about a tenth of the time that is wanted, and once at least */
    uint64_t once = timed(1, 1) + 1, times = wanted / 20 / once + 1, rounds = 0, spent = 0, least[2] = {0, 0};
    while (rounds < LEAST_ROUNDS || spent < wanted) {
        for (int which = 0; which < 2; which++) {
            uint64_t t = timed(which, times);
            spent += t;
            if (rounds == 0 || t < least[which])
                least[which] = t;
        }
        rounds++;
    }
    printf("%lu %lu %lu\n", (unsigned long)(least[0] / times), (unsigned long)(least[1] / times), (unsigned long)rounds);
    return 0;
}
