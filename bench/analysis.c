/* The twin in C of the latency program: reads a packed table from standard input, writes its rows or its refusal.
   With -DCOUNT it writes instead: answer, passes up, passes down, flows looked at, longest busy length, rows. */
#include "figures.h"

#define MOST_BYTES 12111

static size_t read_full(uint8_t *to, size_t room)
{
    size_t n = 0;
    while (n < room) {
        long got = read(0, to + n, room - n);
        if (got <= 0)
            break;
        n += (size_t)got;
    }
    return n;
}

static void write_all(const char *from, size_t n)
{
    while (0 < n) {
        long put = write(1, from, n);
        if (put <= 0)
            break;
        from += put;
        n -= (size_t)put;
    }
}

/* A number in decimal; the place behind it. */
static char *put_number(char *at, uint64_t n)
{
    char digits[20];
    int count = 0;
    do
        digits[count++] = (char)('0' + n % 10);
    while ((n /= 10) != 0);
    while (0 < count)
        *at++ = digits[--count];
    return at;
}

/* A line of numbers, by a write of its own as in crates/latency. */
static void line_of(const uint64_t *numbers, int n)
{
    char text[126], *at = text;
    for (int k = 0; k < n; k++) {
        if (0 < k)
            *at++ = ' ';
        at = put_number(at, numbers[k]);
    }
    *at++ = '\n';
    write_all(text, (size_t)(at - text));
}

int main(void)
{
    uint8_t bytes[MOST_BYTES];
    uint64_t numbers[6 * 1024];
    size_t rows;
    size_t n = read_full(bytes, sizeof bytes);
    Answer a = analyse(bytes, n, numbers, 6 * 1024, &rows);
#ifdef COUNT
    uint64_t counts[6] = {a.number, counted.up, counted.down, counted.looks, counted.longest, rows};
    line_of(counts, 6);
#else
    if (a.number != 0) {
        uint64_t refusal[3] = {a.number, a.section, a.row};
        write_all("refused ", 8);
        line_of(refusal, 3);
        return 0;
    }
    write_all("stream hop queue worst best jitter\n", 35);
    for (size_t i = 0; i < rows; i++)
        line_of(numbers + 6 * i, 6);
#endif
    return 0;
}
