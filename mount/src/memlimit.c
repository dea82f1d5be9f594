// Counts the memory that the library and the mount take, and limits it for calls that make the tree grow (--size).
//
// Invariant: `taken` is the sum of the usable sizes of all blocks that these functions gave. Only between
// `memlimit_begin` and `memlimit_suspend` or `memlimit_retry` does the calling thread get no memory beyond the limit
// less the reserve, so removals and undo always may take more.
#include "memlimit.h"
#include <errno.h>
#include <inttypes.h>
#include <malloc.h>
#include <stdatomic.h>
#include <stdio.h>
#include <stdlib.h>
#include <string.h>

enum { STEPS_AT_ONCE = 256, MOST_ROUNDS = 64, WORTH_A_TRIM = 16 << 20 };

static _Atomic size_t taken;
static uint64_t size;
static size_t most_taken; // since the last trim, as it was asked after requests
// Of the call that this thread makes; null: it is not limited. The library hands nothing from its caller to its
// allocator.
static _Thread_local struct mem_budget *current;

// What a piece of memory takes, with the word that malloc keeps in front of it.
static size_t taken_by(void *at) { return at ? malloc_usable_size(at) + sizeof(size_t) : 0; }

static bool is_refused(size_t more) {
    size_t now = atomic_load_explicit(&taken, memory_order_relaxed);
    if (!current || (now <= current->most && more <= current->most - now)) return false;
    current->was_refused = true;
    return true;
}

static void *count_in(void *at) {
    atomic_fetch_add_explicit(&taken, taken_by(at), memory_order_relaxed);
    return at;
}

static void count_out(size_t bytes) { atomic_fetch_sub_explicit(&taken, bytes, memory_order_relaxed); }

void *mem_alloc(size_t count) { return is_refused(count) ? NULL : count_in(malloc(count)); }

void *mem_calloc(size_t many, size_t count) {
    size_t all;
    if (__builtin_mul_overflow(many, count, &all) || is_refused(all)) return NULL;
    return count_in(calloc(many, count));
}

void *mem_realloc(void *old, size_t count) {
    size_t before = taken_by(old);
    if (count > before && is_refused(count - before)) return NULL;
    void *at = realloc(old, count);
    if (!at) return NULL;
    count_out(before);
    return count_in(at);
}

void mem_free(void *at) {
    count_out(taken_by(at));
    free(at);
}

char *mem_strdup(const char *text) {
    size_t count = strlen(text) + 1;
    char *copy = mem_alloc(count);
    return copy ? memcpy(copy, text, count) : NULL;
}

static uint64_t reserve(void) { return size / SHARE_KEPT; }

void memlimit_set(uint64_t bytes) { size = bytes; }

// A number of /proc/meminfo, in bytes.
static uint64_t machine_has(const char *what) {
    char line[128];
    uint64_t kilobytes = 0;
    size_t length = strlen(what);
    FILE *file = fopen("/proc/meminfo", "re");
    while (file && fgets(line, sizeof line, file))
        if (!strncmp(line, what, length) && line[length] == ':') kilobytes = strtoull(line + length + 1, NULL, 10);
    if (file) fclose(file);
    return kilobytes * 1024;
}

struct mem_usage memlimit_usage(void) {
    if (size) return (struct mem_usage){size, atomic_load(&taken), reserve()};
    uint64_t all = machine_has("MemTotal"), available = machine_has("MemAvailable");
    return (struct mem_usage){all, all - (available < all ? available : all), 0};
}

bool memlimit_has_freed(void) {
    size_t now = atomic_load_explicit(&taken, memory_order_relaxed);
    if (now > most_taken) most_taken = now;
    return most_taken - now > WORTH_A_TRIM;
}

void memlimit_trim(void) {
    malloc_trim(0);
    most_taken = 0;
}

uint64_t memlimit_size(void) { return size; }

uint64_t memlimit_taken(void) { return atomic_load(&taken); }

void memlimit_begin(struct mem_budget *budget) {
    *budget = (struct mem_budget){.most = size - reserve()};
    current = size ? budget : NULL;
}

void memlimit_suspend(void) { current = NULL; }

int memlimit_reserve(struct bytes *bytes, size_t more) {
    struct mem_budget *before = current;
    current = NULL;
    int err = bytes_reserve(bytes, more);
    current = before;
    return err;
}

// Whether steps of the tree gave memory back. What was removed takes memory until they have come to it. A step that
// finds no memory itself changes nothing, so that they are not tried for ever.
static bool gives_back(const struct backend *backend) {
    size_t before = atomic_load(&taken);
    for (unsigned i = 0; i < MOST_ROUNDS && backend_compact(backend, STEPS_AT_ONCE); i++)
        if (atomic_load(&taken) < before) return true;
    return false;
}

bool memlimit_retry(struct mem_budget *budget, const struct backend *backend, int *err) {
    bool wants_room = budget->was_refused && *err == ENOMEM;
    current = NULL;
    budget->was_refused = false;
    if (!wants_room) return false;
    if (gives_back(backend)) return true;
    *err = ENOSPC;
    return false;
}
