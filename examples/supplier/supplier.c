/* A supplier's program: links both archives, prints numbers of the customer's paper, and ends with a failure where one
   is not what the paper says. A line is a question, then number, section and row of the answer, then its values. */
#include "avulgjesh.h"

int printf(const char *form, ...);

typedef avulgjesh_number number;

#define COUNT(list) (sizeof(list) / sizeof(list)[0])

static int wrong;

/* Prints a number, and says so where another was to come. */
static void hold(number is, number wanted)
{
    printf(" %lu", is);
    if (is == wanted)
        return;
    printf(" (wanted %lu)", wanted);
    wrong = 1;
}

/* ---- the frame rule and the station */

static void rule(const char *question, struct avulgjesh_rule_answer is, number refusal, number value)
{
    printf("%s:", question);
    hold(is.number, refusal);
    hold(is.section, 0);
    hold(is.row, 0);
    hold(is.value, value);
    printf("\n");
}

static void test(const char *question, avulgjesh_bool is, number wanted)
{
    printf("%s:", question);
    hold(is, wanted);
    printf("\n");
}

static void frames(void)
{
    rule("payload 0", avulgjesh_line_of(0), 4, 0);
    rule("payload 17", avulgjesh_line_of(17), 0, 84);
    rule("payload 18", avulgjesh_line_of(18), 0, 85);
    rule("payload 1471", avulgjesh_line_of(1471), 0, 1538);
    rule("payload 1472", avulgjesh_line_of(1472), 4, 0);
    rule("largest line of Lmax 1518", avulgjesh_largest_line(1518), 0, 1538);
    rule("largest line of Lmax 63", avulgjesh_largest_line(63), 4, 0);
    rule("packets of M 1471 at Lmax 1518", avulgjesh_packets_of(1471, 1518), 0, 1);
    rule("packets of M 1472 at Lmax 1518", avulgjesh_packets_of(1472, 1518), 0, 2);
    rule("packets of M 100 at Lmax 64", avulgjesh_packets_of(100, 64), 0, 5);
    rule("packets of M 1 at Lmax 47", avulgjesh_packets_of(1, 47), 4, 0);
    rule("gap of code 7", avulgjesh_gap_of(7), 0, 1600000);
    rule("gap of code 8", avulgjesh_gap_of(8), 4, 0);
    rule("code of 2 ms", avulgjesh_code_of(2), 0, 1);
    rule("code of 3 ms", avulgjesh_code_of(3), 4, 0);
    rule("ms of code 1", avulgjesh_ms_of(1), 0, 2);
    rule("ms of code 8", avulgjesh_ms_of(8), 4, 0);
    rule("ticks a byte at 100 Mbit/s", avulgjesh_per_byte(100), 0, 1);
    rule("ticks a byte at 10 Mbit/s", avulgjesh_per_byte(10), 0, 10);
    rule("ticks a byte at 1000 Mbit/s", avulgjesh_per_byte(1000), 4, 0);
    test("line sizes of 5750 send in time", avulgjesh_sends_in_time(5750), 1);
    test("line sizes of 5751 send in time", avulgjesh_sends_in_time(5751), 0);
}

static void station(const char *question, const number *flows, number count, number refusal, number length, number figure)
{
    struct avulgjesh_station_answer is = avulgjesh_station(flows, count);

    printf("%s:", question);
    hold(is.number, refusal);
    hold(is.section, 0);
    hold(is.row, 0);
    hold(is.length, length);
    hold(is.figure, figure);
    printf("\n");
}

static void stations(void)
{
    static const number port[] = { 12500, 12500, 1538 };
    static const number port_less[] = { 12500, 12499, 1538 };
    static const number queue[] = { 50000, 0, 37500 };
    static const number full[] = { 25000, 0, 12500, 50000, 0, 25000 };
    static const number over[] = { 25000, 1, 12500, 50000, 0, 25000 };
    static number many[1025 * 3];
    number i;

    for (i = 0; i < 1025; i++) {
        many[i * 3] = 125000000;
        many[i * 3 + 1] = 0;
        many[i * 3 + 2] = 1;
    }
    station("station of no flow", port, 0, 0, 1, 0);
    station("station of number 3", queue, COUNT(queue), 0, 37500, 37500);
    station("station of number 5", full, COUNT(full), 0, 50000, 37500);
    station("station of number 6", over, COUNT(over), 10, 0, 0);
    station("station of number 8", port, COUNT(port), 0, 3076, 3076);
    station("station of number 8, J 12499", port_less, COUNT(port_less), 0, 3076, 3075);
    station("station of 1024 flows", many, 1024 * 3, 0, 1024, 1024);
    station("station of 1025 flows", many, 1025 * 3, 4, 0, 0);
    station("station of two numbers", port, 2, 4, 0, 0);
}

/* ---- tables: written from their lists, and unpacked again */

struct list {
    const number *numbers;
    number count;
};

struct lists {
    struct list head, systems, vls, streams, ports, hops;
};

#define LIST(numbers) { numbers, COUNT(numbers) }

/* The whole case. */
static const number head[] = { 1, 500, 1000, 500, 500 };
static const number systems[] = { 100 };
static const number vls[] = { 0, 1, 1, 1518, 0, 2, 1, 516 };
static const number streams[] = { 0, 0, 0, 2000, 1000, 250000, 0, 1, 0, 1, 469, 10, 500000, 1000 };
static const number ports[] = { 100, 875, 1250 };
static const number hops[] = { 0, 0, 0, 1, 0, 0 };
static const struct lists whole = { LIST(head), LIST(systems), LIST(vls), LIST(streams), LIST(ports), LIST(hops) };

static const avulgjesh_byte header[] = { 0x01, 0x01, 0x00, 0x20, 0x02, 0x01, 0x00, 0x21, 0xF4, 0x3E, 0x81, 0xF4, 0x1F, 0x40 };

/* The whole case, Lmax of VL 1 out of range. */
static const number wide_vls[] = { 0, 1, 1, 1518, 0, 2, 1, 1519 };
static const struct lists wide = { LIST(head), LIST(systems), LIST(wide_vls), LIST(streams), LIST(ports), LIST(hops) };

/* One to five records of each kind, so that no two counts are the same. */
static const number five_head[] = { 1, 1, 2, 3, 4 };
static const number five_systems[] = { 10 };
static const number five_vls[] = { 0, 4, 2, 100, 0, 8, 3, 200 };
static const number five_streams[] = { 0, 1, 0, 53, 20, 250000, 7, 1, 2, 1, 153, 30, 500000, 8, 1, 0, 0, 400, 40, 125000000, 9 };
static const number five_ports[] = { 100, 11, 12, 10, 13, 14, 100, 15, 16, 10, 17, 18 };
static const number five_hops[] = { 0, 0, 0, 0, 1, 1, 1, 0, 0, 1, 2, 3, 1, 3, 4 };
static const struct lists five = { LIST(five_head), LIST(five_systems), LIST(five_vls), LIST(five_streams), LIST(five_ports), LIST(five_hops) };

/* One byte more than the longer table has. */
static avulgjesh_byte table[97];

static void write_with(const char *question, const struct lists *of, number room, number refusal, number section, number row, number failed, number length)
{
    struct avulgjesh_write_answer is;
    number i, left = 0;

    for (i = 0; i < room; i++)
        table[i] = 255;
    is = avulgjesh_write(of->head.numbers, of->head.count, of->systems.numbers, of->systems.count, of->vls.numbers,
        of->vls.count, of->streams.numbers, of->streams.count, of->ports.numbers, of->ports.count, of->hops.numbers,
        of->hops.count, table, room);
    printf("%s:", question);
    hold(is.number, refusal);
    hold(is.section, section);
    hold(is.row, row);
    hold(is.test, failed);
    hold(is.length, length);
    for (i = length; i < room; i++)
        left += table[i] != 0;
    printf(", bytes after it that are not 0:");
    hold(left, 0);
    printf("\n");
}

static void written(void)
{
    number i;

    write_with("written with Lmax 1519 on VL 1", &wide, 60, 4, 2, 1, 3, 0);
    write_with("written to 58 bytes", &whole, 58, 11, 0, 0, 0, 0);
    write_with("the whole case, written", &whole, 60, 0, 0, 0, 0, 59);
    printf("its header:");
    for (i = 0; i < COUNT(header); i++) {
        printf(" %02X", table[i]);
        if (table[i] != header[i])
            wrong = 1;
    }
    printf("\n");
}

/* A list that was lent with room for one number more: the numbers that it was to get, and zeros. */
static void left(const char *name, const number *list, struct list wanted, number all)
{
    number i;

    printf("  %s:", name);
    for (i = 0; i < wanted.count + 1; i++)
        hold(list[i], all && i < wanted.count ? wanted.numbers[i] : 0);
    printf("\n");
}

static void unpack_first(const char *question, const struct lists *of, number bytes, number refusal, number section, number row, number failed)
{
    static number d[6], e[2], v[9], s[22], p[13], h[16];
    number *lists[] = { d, e, v, s, p, h };
    number lent[] = { COUNT(d), COUNT(e), COUNT(v), COUNT(s), COUNT(p), COUNT(h) };
    number all = refusal == 0;
    struct avulgjesh_unpack_answer is;
    number i, k;

    for (i = 0; i < COUNT(lists); i++)
        for (k = 0; k < lent[i]; k++)
            lists[i][k] = 9;
    is = avulgjesh_unpack(table, bytes, d, of->head.count + 1, e, of->systems.count + 1, v, of->vls.count + 1,
        s, of->streams.count + 1, p, of->ports.count + 1, h, of->hops.count + 1);
    printf("%s:", question);
    hold(is.number, refusal);
    hold(is.section, section);
    hold(is.row, row);
    hold(is.test, failed);
    hold(is.systems, all * of->systems.count);
    hold(is.vls, all * of->vls.count / 4);
    hold(is.streams, all * of->streams.count / 7);
    hold(is.ports, all * of->ports.count / 3);
    hold(is.hops, all * of->hops.count / 3);
    printf("\n");
    left("header", d, of->head, all);
    left("systems", e, of->systems, all);
    left("vls", v, of->vls, all);
    left("streams", s, of->streams, all);
    left("ports", p, of->ports, all);
    left("hops", h, of->hops, all);
}

/* The fields of an answer are told apart: five counts that differ, and a refusal whose number, section, row and test do. */
static void told_apart(void)
{
    write_with("one to five records of each kind, written", &five, COUNT(table), 0, 0, 0, 0, 96);
    unpack_first("the same, unpacked", &five, 96, 0, 0, 0, 0);
    /* the last eleven bits of VL 1, which stands behind the header, an end system and VL 0 */
    table[14 + 1 + 3 + 1] |= 0x07;
    table[14 + 1 + 3 + 2] = 0xFF;
    unpack_first("the same with Lmax 2047 on VL 1", &five, 96, 4, 2, 1, 3);
}

int main(void)
{
    frames();
    stations();
    written();
    unpack_first("its first 13 bytes, unpacked", &whole, 13, 1, 0, 0, 0);
    unpack_first("the whole case, unpacked", &whole, 59, 0, 0, 0, 0);
    told_apart();
    return wrong;
}
