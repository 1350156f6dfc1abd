/* What suppliers link: the frame rule and the station (libendsystem.a), the unpacker and the writer of the packed table
   (libpackedtable.a). Both archives are for x86-64 Linux. docs/SUPPLIERS.md says what is proved and what is assumed.

   Units. Time is a whole number of ticks. A tick is 80 ns: 1 ms is 12,500 ticks, 40 us is 500, 500 us is 6,250.

   Answers. Each routine answers for all numbers and all contents of what is lent to it; nothing has to be looked at
   first. An answer carries number, section and row: number 0 is accepted, with section and row 0; any other number is a
   refusal, by the customer's list, and then every value but test is 0. Rows are numbered from 0.

   Lists. A list crosses as a pointer and the count of its elements, which are numbers of 64 bits, or bytes. The pointer
   is to at least that many elements, is aligned for them, and is not null, even where the count is 0. The data() of an
   empty C++ vector may be null: pass a pointer to any one element of the list's type then, with the count 0. A list that
   comes as a pointer to const is only read. A place that is lent to be written overlaps nothing else that is lent, and
   nobody else reads or writes it before the routine returns. A refusal leaves every lent place all zero; an acceptance
   leaves zero after what was written. */
#ifndef AVULGJESH_H
#define AVULGJESH_H

#ifdef __cplusplus
extern "C" {
typedef bool avulgjesh_bool;
#else
typedef _Bool avulgjesh_bool;
#endif

/* An unsigned number of 64 bits: on x86-64 Linux this is uint64_t and size_t. Where it is not, the next line is refused. */
typedef unsigned long avulgjesh_number;
typedef char avulgjesh_number_has_64_bits[sizeof(avulgjesh_number) == 8 ? 1 : -1];

typedef unsigned char avulgjesh_byte;

/* ---- the frame rule (libendsystem.a) */

/* The answer of a rule that gives one number. Refused: number 4, section, row and value 0. */
struct avulgjesh_rule_answer {
    avulgjesh_number number;
    avulgjesh_number section;
    avulgjesh_number row;
    avulgjesh_number value;
};

/* The bytes of a packet on the line. "A packet payload of 1 to 17 bytes occupies 84 bytes on the line, 18 to 1,471
   occupies 67 plus the payload, any other is refused (4)." */
struct avulgjesh_rule_answer avulgjesh_line_of(avulgjesh_number payload);

/* The most bytes that a frame of a VL of largest frame Lmax occupies on the line: 20 + Lmax. Lmax is 64 to 1,518; any
   other is refused (4). */
struct avulgjesh_rule_answer avulgjesh_largest_line(avulgjesh_number lmax);

/* The packets that a message of M bytes becomes on a VL of largest frame Lmax. "With S = Lmax - 39 and C = S rounded down
   to a multiple of 8, p is the least count with M + 8 at most (p - 1) x C + S." M is 1 to 8,192 and Lmax 64 to 1,518; any
   other is refused (4). */
struct avulgjesh_rule_answer avulgjesh_packets_of(avulgjesh_number m, avulgjesh_number lmax);

/* The gap in ticks of a BAG code. "BAG codes 0 to 7 stand for these gaps in ticks: 12,500; 25,000; 50,000; 100,000;
   200,000; 400,000; 800,000; 1,600,000." Any other code is refused (4). */
struct avulgjesh_rule_answer avulgjesh_gap_of(avulgjesh_number code);

/* The BAG code of a gap in milliseconds. "A gap is good if it is 1 to 128 and exactly one of its bits is set, and its
   code is the count of zeros below that bit." Any other gap is refused (4). */
struct avulgjesh_rule_answer avulgjesh_code_of(avulgjesh_number ms);

/* The gap in milliseconds of a BAG code, 1 for code 0 to 128 for code 7. Any other code is refused (4). */
struct avulgjesh_rule_answer avulgjesh_ms_of(avulgjesh_number code);

/* The ticks that a byte takes. "A byte takes 1 tick at 100 Mbit/s and 10 ticks at 10 Mbit/s." The speed is 100 or 10;
   any other is refused (4). */
struct avulgjesh_rule_answer avulgjesh_per_byte(avulgjesh_number speed);

/* Whether an end system keeps to equation 1: true exactly if 500 + sum does not exceed 6,250, where sum is the sum of
   (20 + Lmax) x ticks per byte over its VLs. */
avulgjesh_bool avulgjesh_sends_in_time(avulgjesh_number sum);

/* ---- the station (libendsystem.a) */

/* The answer of the station. Refused: number 4 or 10, section, row, length and figure 0. */
struct avulgjesh_station_answer {
    avulgjesh_number number;
    avulgjesh_number section;
    avulgjesh_number row;
    avulgjesh_number length;
    avulgjesh_number figure;
};

/* The station of a list of flows. A flow is three numbers of the list, one behind the other: a period T, a jitter J and
   a cost C, in ticks; count is three times the number of flows. "In a span of d ticks, both end ticks counted, a flow
   brings at most (d + J) / T rounded down, plus 1."
   length: the busy length, "the least L from 1 to 125,000,000 with: the sum over flows of ((L + J) / T rounded up) x C
   is at most L".
   figure: "the greatest, over d from 0 to L - 1, of (sum of the most arrivals in d x C) - d. No flows: L = 1, figure 0."
   It "refuses 4 for more than 1,024 flows, a period outside 12,500 to 125,000,000, a jitter above 2,000,000,000 or a
   cost outside 1 to 4,000,000,000, then 10 for no busy length"; 4 also for a list that is no whole number of flows. */
struct avulgjesh_station_answer avulgjesh_station(const avulgjesh_number *flows, avulgjesh_number count);

/* ---- the packed table (libpackedtable.a)

   The lists of a table, and the numbers of one record of each:

     header   5, in all: version (1), send delay least, greatest, receive delay least, greatest
     systems  1: speed in Mbit/s (100 or 10)
     vls      4: end system, gap in ms, sub-links (1 to 4), Lmax
     streams  7: VL, sub-link (from 0), kind (1: sampling), M, least M, period, jitter
     ports    3: speed in Mbit/s, switch delay least, greatest
     hops     3: VL, port, parent (0: none, else the parent's row + 1)

   At most 64 end systems, 256 VLs, 512 streams, 128 ports and 1,024 hops: a table has at most 12,110 bytes, and its
   lists at most 5, 64, 1,024, 3,584, 384 and 3,072 numbers. */

/* The unpacker's answer: test is the place of the test that failed, where the number has several; systems to hops are
   the records that were written to each list. Refused: number 1, 2, 3, 4 or 11, and the five counts 0. */
struct avulgjesh_unpack_answer {
    avulgjesh_number number;
    avulgjesh_number section;
    avulgjesh_number row;
    avulgjesh_number test;
    avulgjesh_number systems;
    avulgjesh_number vls;
    avulgjesh_number streams;
    avulgjesh_number ports;
    avulgjesh_number hops;
};

/* Unpacks a table to its lists. "The unpacker gives 1 to 4 and 11, in that order": 1, fewer than 14 bytes; 2, header
   version, count, delay or padding out of range; 3, length is not what the counts require; 4, a record's field or
   padding out of range, with the record's own section and row, the first bad row of the lowest section; 11, a lent
   result is too short. References are not looked at. "Each refusal leaves every lent result all zero; an acceptance
   leaves zero after what it wrote." */
struct avulgjesh_unpack_answer avulgjesh_unpack(
    const avulgjesh_byte *table, avulgjesh_number table_count,
    avulgjesh_number *header, avulgjesh_number header_count,
    avulgjesh_number *systems, avulgjesh_number systems_count,
    avulgjesh_number *vls, avulgjesh_number vls_count,
    avulgjesh_number *streams, avulgjesh_number streams_count,
    avulgjesh_number *ports, avulgjesh_number ports_count,
    avulgjesh_number *hops, avulgjesh_number hops_count);

/* The writer's answer: test as above; length is the bytes of the table. Refused: number 2, 4 or 11, and length 0. */
struct avulgjesh_write_answer {
    avulgjesh_number number;
    avulgjesh_number section;
    avulgjesh_number row;
    avulgjesh_number test;
    avulgjesh_number length;
};

/* Writes the table of these lists. "The writer takes its counts from its lists and gives 2 (also for a list that is no
   whole number of records), 4 (also for a value wider than its field), 11": 2, a version, a count or a delay out of range; 4, a
   value out of range, with the record's own section and row; 11, the lent bytes are too few. A refusal leaves every
   lent byte 0; an acceptance leaves zero after the table. What was written unpacks to the same lists, and what was
   unpacked writes to the same bytes. */
struct avulgjesh_write_answer avulgjesh_write(
    const avulgjesh_number *header, avulgjesh_number header_count,
    const avulgjesh_number *systems, avulgjesh_number systems_count,
    const avulgjesh_number *vls, avulgjesh_number vls_count,
    const avulgjesh_number *streams, avulgjesh_number streams_count,
    const avulgjesh_number *ports, avulgjesh_number ports_count,
    const avulgjesh_number *hops, avulgjesh_number hops_count,
    avulgjesh_byte *out, avulgjesh_number out_count);

#ifdef __cplusplus
}
#endif

#endif
