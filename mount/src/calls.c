// Times the calls of the library's backend without FUSE: out/calls. A row has the name of a call and its microseconds.
//
// Invariant: a call that fails ends the program, so each row is of calls that were done.
#include "backend.h"
#include <stdio.h>
#include <stdlib.h>
#include <string.h>
#include <time.h>

enum { MANY = 5000, FEW = 32, SMALL = 4096, LARGE = 1 << 20 };

static char bytes[LARGE], into[LARGE];
static struct backend backend;

static double seconds(void) {
    struct timespec time;
    clock_gettime(CLOCK_MONOTONIC, &time);
    return (double)time.tv_sec + (double)time.tv_nsec / 1e9;
}

static const char *file(int number) {
    static char path[32];
    snprintf(path, sizeof path, "/folder/file%d", number);
    return path;
}

// Each call has a moment of its own, as the mount's have.
static uint64_t timestamp(int i) { return (uint64_t)i + 1; }

static int create(int i) { return backend.ops->change(backend.self, CALL_CREATE, file(i), timestamp(i)); }

static int take_away(int i) { return backend.ops->change(backend.self, CALL_UNLINK, file(i), timestamp(i)); }

static int look(int i) {
    struct node_stat node_stat;
    return backend_stat(&backend, (struct path_ref){NULL, file(i * 7919 % MANY)}, &node_stat);
}

static int write_small(int i) {
    size_t done;
    return backend.ops->write(backend.self, file(i), 0, bytes, SMALL, timestamp(i), &done);
}

static int read_small(int i) {
    size_t got;
    return backend_read(&backend, (struct path_ref){NULL, file(i * 7919 % MANY)}, 0, into, SMALL, &got) || got != SMALL;
}

static int write_large(int i) {
    size_t done;
    return backend.ops->write(backend.self, "/large", (uint64_t)i * LARGE, bytes, LARGE, timestamp(i), &done);
}

static int read_large(int i) {
    size_t got;
    return backend_read(&backend, (struct path_ref){NULL, "/large"}, (uint64_t)i * LARGE, into, LARGE, &got) ||
           got != LARGE;
}

static void time_calls(const char *name, int (*call)(int), int count) {
    double began = seconds();
    for (int i = 0; i < count; i++) {
        if (call(i)) {
            fprintf(stderr, "calls: %s was refused\n", name);
            exit(1);
        }
        backend_compact(&backend, backend_compaction_debt(&backend));
    }
    printf("%-16s %10.2f\n", name, (seconds() - began) * 1e6 / count);
}

int main(void) {
    const struct open_options options = {.steps = 4};
    for (int i = 0; i < LARGE; i++) bytes[i] = (char)(i * 7 + i / 4096);
    if (open_library(&options, &backend)) return 1;
    if (backend.ops->change(backend.self, CALL_MKDIR, "/folder", 0)) return 1;
    if (backend.ops->change(backend.self, CALL_CREATE, "/large", 0)) return 1;
    time_calls("create", create, MANY);
    time_calls("stat", look, MANY);
    time_calls("write 4 KiB", write_small, MANY);
    time_calls("read 4 KiB", read_small, MANY);
    time_calls("write 1 MiB", write_large, FEW);
    time_calls("read 1 MiB", read_large, FEW);
    time_calls("unlink", take_away, MANY);
    return backend.ops->close(backend.self, NULL) != 0;
}
