// Polls for the next request for some microseconds before the serving thread sleeps.
//
// Invariant: it polls only after at least FEWEST requests in a row have come within that time, and each poll in vain
// doubles that number, so an idle mount uses no processor. All state belongs to the thread that serves requests.
#define _GNU_SOURCE
#include "busy_poll.h"
#include <poll.h>
#include <sched.h>
#include <stdint.h>
#include <time.h>

// How many requests in a row have to come soon before one is looked for, at least and at most. A look in vain doubles
// that: who asks may wait for this very processor.
enum { FEWEST = 8, MOST = 64 };

static uint64_t longest; // in nanoseconds
static uint64_t begun;   // when the last wait began
static unsigned soon;    // requests in a row that came soon
static unsigned enough = FEWEST;
static bool looks; // in the last wait

static uint64_t monotonic_ns(void) {
    struct timespec time;
    clock_gettime(CLOCK_MONOTONIC, &time);
    return (uint64_t)time.tv_sec * 1000000000 + (uint64_t)time.tv_nsec;
}

static bool has_processors(void) {
    cpu_set_t set;
    return !sched_getaffinity(0, sizeof set, &set) && CPU_COUNT(&set) > 1;
}

void busy_poll_set(unsigned microseconds) { longest = has_processors() ? (uint64_t)microseconds * 1000 : 0; }

bool busy_poll_ready(int device) {
    struct pollfd comes = {.fd = device, .events = POLLIN};
    return poll(&comes, 1, 0) > 0;
}

bool busy_poll_wait(int device, bool has_come) {
    if (!longest) return has_come;
    begun = monotonic_ns();
    looks = soon >= enough;
    if (has_come) return true;
    while (looks && monotonic_ns() - begun < longest)
        if (busy_poll_ready(device)) return true;
    return false;
}

void busy_poll_note(void) {
    bool is_soon = longest && monotonic_ns() - begun < longest;
    soon = is_soon ? soon + 1 : 0;
    if (!looks) return;
    if (is_soon && enough > FEWEST) enough /= 2;
    else if (!is_soon && enough < MOST) enough *= 2;
}
