/*
 * Rubblewaltz: tests and makes periodic timetables over lent rows of numbers, and reads and prints
 * networks as text.
 *
 * A network is six rows, each lent as pointer and length. The length of periods is the number of
 * events n, the common length of the other five the number of arcs m. An arc's g is the greatest
 * common divisor of the periods at its ends. Each pointer is to as many entries as its length says;
 * of a row of length 0 it is not used, and may be NULL. No row is kept after a call, and no row that
 * is written may overlap another.
 *
 * Each answer has a code, a place and a cost. Code 0 is success. Under any other code the cost is 0
 * and every row keeps its contents. The place is 0 under codes 0, 1, 3, 9 and 10. Codes are tried in
 * this order:
 *
 *    1  n is 0 or above 64
 *    2  a period is 0 or above 3600; place: the first such event
 *    3  arc rows differ in length, or m is above 256; for rebuild, the tension row counts as an
 *       arc row
 *    4  an end is n or more; place: the first such arc, here and below
 *    5  tail equals head
 *    6  lower is below -7200 or above 7200
 *    7  upper is below lower
 *    8  a weight is above 10000
 *   18  an arc repeats an earlier one: equal tail, equal head, lower bounds that leave the same
 *       remainder by g, and equal working width, the lesser of upper less lower and g less 1;
 *       weights play no part; place: the second arc
 *    9  a row to be written is too short, or a row of times read is not exactly n long
 *   10  there is no feasible timetable
 *   11  a period differs from event 0's; place: the first such event
 *   12  a tension is outside its arc's bounds, or above lower plus the common period less 1
 *   13  no whole numbers as times give arcs 0 up to this one their tensions by the common period
 *   14  a time is not below its period; place: the first such event
 *   15  an arc is not met
 *
 * A network as text is two rows of bytes, records of comma-separated fields (RFC 4180). The events
 * text has the header event,period and a record for each event, the arcs text the header
 * arc,tail,head,lower,upper,weight and a record for each arc, both numbered in rising order from 0.
 * A field is one or more decimal digits without quotes, in lower and upper with an optional minus.
 * A line ends in CR LF, which the last line may lack. For reading, first 9 is tried; then for the
 * events text and after it for the arcs text:
 *
 *   16  the header is wrong; place: 0 for the events text, 1 for the arcs text
 *   17  a record is bad, by its layout, its number, a value that its row can't hold, or as a 65th
 *       event or 257th arc; place: the first such record of its text, from 0 after the header, and
 *       0 for an events text without records
 */
#ifndef RUBBLEWALTZ_H
#define RUBBLEWALTZ_H

#include <stddef.h>
#include <stdint.h>

#ifdef __cplusplus
extern "C" {
#endif

struct rubblewaltz_answer {
    uint32_t code;
    uint32_t place;
    uint64_t cost;
};

/* What reading and printing answer. The cost is 0; under any code but 0, so are both counts. */
struct rubblewaltz_filled {
    uint32_t code;
    uint32_t place;
    uint64_t cost;
    size_t events;
    size_t arcs;
};

/*
 * Is the timetable right? Reads n times; writes nothing. Codes 0 with the cost, 1 to 9, 14, 15, 18.
 */
struct rubblewaltz_answer rubblewaltz_check(
    const uint32_t *periods, size_t periods_length,
    const uint32_t *tail, size_t tail_length,
    const uint32_t *head, size_t head_length,
    const int32_t *lower, size_t lower_length,
    const int32_t *upper, size_t upper_length,
    const uint32_t *weight, size_t weight_length,
    const uint32_t *times, size_t times_length);

/*
 * The tensions, the turns and the cost of a timetable, whether its arcs are met or not. The turn of
 * an arc is the whole number z, from -14400 to 14400, with tension equal to head time less tail
 * time plus z times g. Reads n times; writes tensions and turns 0 to m less 1, the rest of longer
 * rows is kept. Codes 0 with the cost, 1 to 9, 14, 18.
 */
struct rubblewaltz_answer rubblewaltz_measure(
    const uint32_t *periods, size_t periods_length,
    const uint32_t *tail, size_t tail_length,
    const uint32_t *head, size_t head_length,
    const int32_t *lower, size_t lower_length,
    const int32_t *upper, size_t upper_length,
    const uint32_t *weight, size_t weight_length,
    const uint32_t *times, size_t times_length,
    int32_t *tensions, size_t tensions_length,
    int32_t *turns, size_t turns_length);

/*
 * The smallest feasible timetable. Writes times 0 to n less 1, and tensions and turns 0 to m less
 * 1, the rest of longer rows is kept. Codes 0 with the cost, 1 to 10, 18. It has no time limit, and
 * needs 348 KiB of stack beside its caller's.
 */
struct rubblewaltz_answer rubblewaltz_solve(
    const uint32_t *periods, size_t periods_length,
    const uint32_t *tail, size_t tail_length,
    const uint32_t *head, size_t head_length,
    const int32_t *lower, size_t lower_length,
    const int32_t *upper, size_t upper_length,
    const uint32_t *weight, size_t weight_length,
    uint32_t *times, size_t times_length,
    int32_t *tensions, size_t tensions_length,
    int32_t *turns, size_t turns_length);

/*
 * The timetable of these tensions, with the lowest event of each connected part at 0. Reads m
 * tensions; writes times 0 to n less 1, the rest of a longer row is kept. Codes 0 with the cost,
 * 1 to 9, 11 to 13, 18.
 */
struct rubblewaltz_answer rubblewaltz_rebuild(
    const uint32_t *periods, size_t periods_length,
    const uint32_t *tail, size_t tail_length,
    const uint32_t *head, size_t head_length,
    const int32_t *lower, size_t lower_length,
    const int32_t *upper, size_t upper_length,
    const uint32_t *weight, size_t weight_length,
    const int32_t *tensions, size_t tensions_length,
    uint32_t *times, size_t times_length);

/*
 * The network of two texts, not judged in any other way. The period row must have 64 entries, each
 * arc row 256, or more. Writes periods 0 to n less 1 and arcs 0 to m less 1, the rest of the rows
 * is kept; events is n and arcs is m. Codes 0, 9, 16, 17.
 */
struct rubblewaltz_filled rubblewaltz_read(
    const uint8_t *events, size_t events_length,
    const uint8_t *arcs, size_t arcs_length,
    uint32_t *periods, size_t periods_length,
    uint32_t *tail, size_t tail_length,
    uint32_t *head, size_t head_length,
    int32_t *lower, size_t lower_length,
    int32_t *upper, size_t upper_length,
    uint32_t *weight, size_t weight_length);

/*
 * The two texts of a network, which is not judged beyond the lengths of its rows: numbers in the
 * fewest digits, CR LF after every line. Events and arcs are the bytes written, the rest of longer
 * rows is kept. Codes 0, 1, 3, 9.
 */
struct rubblewaltz_filled rubblewaltz_print(
    const uint32_t *periods, size_t periods_length,
    const uint32_t *tail, size_t tail_length,
    const uint32_t *head, size_t head_length,
    const int32_t *lower, size_t lower_length,
    const int32_t *upper, size_t upper_length,
    const uint32_t *weight, size_t weight_length,
    uint8_t *events, size_t events_length,
    uint8_t *arcs, size_t arcs_length);

#ifdef __cplusplus
}
#endif

#endif
