/*
 * Makes the calls that come over standard input, for a host of another processor.
 *
 * A request is the call's number and the sizes of the nine rows in bytes, as 32-bit words, then
 * the rows and a fence. The reply is the answer, then rows and fence as the call left them.
 */
#include "rubblewaltz.h"

/* What the closure shows to the tests; no part of the interface. */
struct rubblewaltz_gauge {
    uint32_t code, rounds;
    uint64_t arcs;
};

struct rubblewaltz_gauge rubblewaltz_gauge(
    const uint32_t *periods, size_t periods_len, const uint32_t *tail, size_t tail_len,
    const uint32_t *head, size_t head_len, const int32_t *lower, size_t lower_len,
    const int32_t *upper, size_t upper_len, const uint32_t *weight, size_t weight_len,
    uint32_t *longer, size_t longer_len);

enum { ROWS = 9, FENCE = 8, SPACE = 1 << 18 };
enum { CHECK, MEASURE, SOLVE, REBUILD, READ, PRINT, GAUGE };
enum { READ_CALL = 0, WRITE_CALL = 1, INPUT = 0, OUTPUT = 1 };

static struct {
    uint32_t call, size[ROWS];
    struct rubblewaltz_filled answer;
    unsigned char rows[SPACE];
} desk;

static long system_call(long number, long channel, void *data, size_t size) {
    long result;
    __asm__ volatile("syscall"
                     : "=a"(result)
                     : "a"(number), "D"(channel), "S"(data), "d"(size)
                     : "rcx", "r11", "memory");
    return result;
}

/* Reads or writes all of it; 0 if the other side has gone. */
static int transfer(long number, long channel, void *data, size_t size) {
    char *next = data;
    while (size > 0) {
        long done = system_call(number, channel, next, size);
        if (done <= 0) return 0;
        next += done;
        size -= (size_t)done;
    }
    return 1;
}

/* The rows lie one behind the other, so that a write past the end of one is seen in the next. */
static size_t place_rows(void *row[ROWS]) {
    unsigned char *next = desk.rows;
    for (int k = 0; k < ROWS; k++) {
        row[k] = next;
        next += desk.size[k];
    }
    return (size_t)(next - desk.rows) + FENCE;
}

#define WORDS(k) row[k], desk.size[k] / 4
#define BYTES(k) row[k], desk.size[k]
#define NETWORK WORDS(0), WORDS(1), WORDS(2), WORDS(3), WORDS(4), WORDS(5)
#define TIMES WORDS(6)
#define TENSIONS WORDS(7)
#define TURNS WORDS(8)
#define TEXTS BYTES(6), BYTES(7)
#define LONGER WORDS(6)

static struct rubblewaltz_filled widened(struct rubblewaltz_answer answer) {
    return (struct rubblewaltz_filled){answer.code, answer.place, answer.cost, 0, 0};
}

static struct rubblewaltz_filled gauged(struct rubblewaltz_gauge gauge) {
    return (struct rubblewaltz_filled){gauge.code, gauge.rounds, gauge.arcs, 0, 0};
}

static struct rubblewaltz_filled answer(void *row[ROWS]) {
    switch (desk.call) {
    case CHECK: return widened(rubblewaltz_check(NETWORK, TIMES));
    case MEASURE: return widened(rubblewaltz_measure(NETWORK, TIMES, TENSIONS, TURNS));
    case SOLVE: return widened(rubblewaltz_solve(NETWORK, TIMES, TENSIONS, TURNS));
    case REBUILD: return widened(rubblewaltz_rebuild(NETWORK, TENSIONS, TIMES));
    case READ: return rubblewaltz_read(TEXTS, NETWORK);
    case PRINT: return rubblewaltz_print(NETWORK, TEXTS);
    case GAUGE: return gauged(rubblewaltz_gauge(NETWORK, LONGER));
    }
    return (struct rubblewaltz_filled){UINT32_MAX, 0, 0, 0, 0};
}

int main(void) {
    void *row[ROWS];
    while (transfer(READ_CALL, INPUT, &desk.call, 4 + sizeof desk.size)) {
        size_t size = place_rows(row);
        if (size > sizeof desk.rows) return 1;
        if (!transfer(READ_CALL, INPUT, desk.rows, size)) return 1;
        desk.answer = answer(row);
        if (!transfer(WRITE_CALL, OUTPUT, &desk.answer, sizeof desk.answer + size)) return 1;
    }
    return 0;
}
