/*
 * Makes each call once on network A of the paper, and some with rows of length 0 at NULL. The status
 * it ends with is 0, or the number of the first that gives something else than the paper does.
 */
#include "rubblewaltz.h"

_Static_assert(sizeof(struct rubblewaltz_answer) == 16, "the answer is 16 bytes");
_Static_assert(sizeof(struct rubblewaltz_filled) == 32, "that of read and print is 32 bytes");

enum { CHECK = 1, MEASURE, SOLVE, REBUILD, READ, PRINT, EMPTY_ROWS, NO_ROWS };

static const uint32_t periods[] = {60, 60, 60};
static const uint32_t tail[] = {0, 1, 2}, head[] = {1, 2, 0}, weight[] = {3, 1, 2};
static const int32_t lower[] = {10, 20, 28}, upper[] = {15, 25, 30};

#define NETWORK periods, 3, tail, 3, head, 3, lower, 3, upper, 3, weight, 3

static const uint32_t smallest[] = {0, 10, 30};

#define EVENTS_TEXT "event,period\r\n0,60\r\n1,60\r\n2,60\r\n"
#define ARCS_TEXT \
    "arc,tail,head,lower,upper,weight\r\n0,0,1,10,15,3\r\n1,1,2,20,25,1\r\n2,2,0,28,30,2\r\n"

/* The bytes of each text, without the 0 behind it. */
enum { EVENTS = sizeof EVENTS_TEXT - 1, ARCS = sizeof ARCS_TEXT - 1 };

static int is(struct rubblewaltz_answer got, uint32_t code, uint32_t place, uint64_t cost) {
    return got.code == code && got.place == place && got.cost == cost;
}

static int are(const int32_t *got, int32_t a, int32_t b, int32_t c) {
    return got[0] == a && got[1] == b && got[2] == c;
}

static int is_filled(struct rubblewaltz_filled got, size_t events, size_t arcs) {
    return got.code == 0 && got.place == 0 && got.cost == 0
        && got.events == events && got.arcs == arcs;
}

static int same(const void *got, const void *expected, size_t size) {
    const char *one = got, *other = expected;
    for (size_t k = 0; k < size; k++)
        if (one[k] != other[k]) return 0;
    return 1;
}

static int check(void) {
    return is(rubblewaltz_check(NETWORK, smallest, 3), 0, 0, 4);
}

static int measure(void) {
    int32_t tensions[3] = {0, 0, 0}, turns[3] = {9, 9, 9};
    return is(rubblewaltz_measure(NETWORK, smallest, 3, tensions, 3, turns, 3), 0, 0, 4)
        && are(tensions, 10, 20, 30) && are(turns, 0, 0, 1);
}

static int solve(void) {
    uint32_t times[3] = {0, 0, 0};
    int32_t tensions[3] = {0, 0, 0}, turns[3] = {9, 9, 9};
    return is(rubblewaltz_solve(NETWORK, times, 3, tensions, 3, turns, 3), 0, 0, 4)
        && times[0] == 0 && times[1] == 10 && times[2] == 30
        && are(tensions, 10, 20, 30) && are(turns, 0, 0, 1);
}

static int rebuild(void) {
    static const int32_t tensions[] = {12, 20, 28};
    uint32_t times[3] = {0, 0, 0};
    return is(rubblewaltz_rebuild(NETWORK, tensions, 3, times, 3), 0, 0, 6)
        && times[0] == 0 && times[1] == 12 && times[2] == 32;
}

static int read(void) {
    const uint8_t *events = (const uint8_t *)EVENTS_TEXT, *arcs = (const uint8_t *)ARCS_TEXT;
    uint32_t p[64], t[256], h[256], w[256];
    int32_t l[256], u[256];
    struct rubblewaltz_filled got = rubblewaltz_read(
        events, EVENTS, arcs, ARCS, p, 64, t, 256, h, 256, l, 256, u, 256, w, 256);
    return is_filled(got, 3, 3)
        && same(p, periods, sizeof periods) && same(t, tail, sizeof tail)
        && same(h, head, sizeof head) && same(l, lower, sizeof lower)
        && same(u, upper, sizeof upper) && same(w, weight, sizeof weight);
}

static int print(void) {
    uint8_t events[EVENTS], arcs[ARCS];
    return is_filled(rubblewaltz_print(NETWORK, events, EVENTS, arcs, ARCS), EVENTS, ARCS)
        && same(events, EVENTS_TEXT, EVENTS) && same(arcs, ARCS_TEXT, ARCS);
}

#define NO_ARCS NULL, 0, NULL, 0, NULL, 0, NULL, 0, NULL, 0

/* One event and no arcs. */
static int empty_rows(void) {
    uint32_t times[1] = {9};
    return is(rubblewaltz_solve(periods, 1, NO_ARCS, times, 1, NULL, 0, NULL, 0), 0, 0, 0)
        && times[0] == 0
        && is(rubblewaltz_check(periods, 1, NO_ARCS, times, 1), 0, 0, 0)
        && is(rubblewaltz_measure(periods, 1, NO_ARCS, times, 1, NULL, 0, NULL, 0), 0, 0, 0)
        && is(rubblewaltz_rebuild(periods, 1, NO_ARCS, NULL, 0, times, 1), 0, 0, 0);
}

/* No event either, and no texts. */
static int no_rows(void) {
    return is(rubblewaltz_solve(NULL, 0, NO_ARCS, NULL, 0, NULL, 0, NULL, 0), 1, 0, 0)
        && rubblewaltz_print(NULL, 0, NO_ARCS, NULL, 0, NULL, 0).code == 1
        && rubblewaltz_read(NULL, 0, NULL, 0, NULL, 0, NO_ARCS).code == 9;
}

int main(void) {
    if (!check()) return CHECK;
    if (!measure()) return MEASURE;
    if (!solve()) return SOLVE;
    if (!rebuild()) return REBUILD;
    if (!read()) return READ;
    if (!print()) return PRINT;
    if (!empty_rows()) return EMPTY_ROWS;
    if (!no_rows()) return NO_ROWS;
    return 0;
}
