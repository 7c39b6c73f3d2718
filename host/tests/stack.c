/*
 * Solves a network of 64 events at period 3,600. The status it ends with is 0 if the timetable is
 * the smallest one. Too small a stack ends it before.
 */
#include "rubblewaltz.h"

enum { EVENTS = 64, PERIOD = 3600, STEP = 50 };

/* The last three events, and how long the last is after each of the others. */
enum { THIRD = EVENTS - 3, SECOND, LAST, AFTER_THIRD = 1000, AFTER_SECOND = 100 };

static uint32_t periods[EVENTS], tail[EVENTS], head[EVENTS], weight[EVENTS], times[EVENTS];
static int32_t lower[EVENTS], upper[EVENTS], tensions[EVENTS], turns[EVENTS];
static size_t arcs;

static void tie(uint32_t from, uint32_t to, int32_t ticks) {
    tail[arcs] = from;
    head[arcs] = to;
    lower[arcs] = upper[arcs] = ticks;
    arcs++;
}

/*
 * Each event up to the third last follows the one before it, and the second last is bound to the
 * last alone. There is a timetable, so the search places all events: that is its full depth.
 */
static void fill(void) {
    for (uint32_t event = 0; event < EVENTS; event++) periods[event] = PERIOD;
    for (uint32_t event = 0; event < THIRD; event++) tie(event, event + 1, STEP);
    tie(THIRD, LAST, AFTER_THIRD);
    tie(SECOND, LAST, AFTER_SECOND);
}

static int is_smallest(void) {
    for (uint32_t event = 0; event <= THIRD; event++)
        if (times[event] != event * STEP) return 0;
    uint32_t last = (THIRD * STEP + AFTER_THIRD) % PERIOD;
    return times[LAST] == last && times[SECOND] == last - AFTER_SECOND;
}

int main(void) {
    fill();
    struct rubblewaltz_answer answer = rubblewaltz_solve(
        periods, EVENTS, tail, arcs, head, arcs, lower, arcs, upper, arcs, weight, arcs,
        times, EVENTS, tensions, arcs, turns, arcs);
    return answer.code == 0 && is_smallest() ? 0 : 1;
}
