// Times the first change after a snapshot, with many pending messages: bench/snapshot.c, over the static library.
//
//     cc -O2 -Iinclude bench/snapshot.c LIBRARY HEAP -o snapshot && ./snapshot
//
// LIBRARY is libdoorvervain.a, HEAP the toolchain's object (docs/C_LIBRARY.md). For each number of files it prints
// microseconds, each the middle one of 21 rounds: a snapshot, the first write after it, the second one, and dropping the snapshot.
#include "doorvervain.h"
#include <stdio.h>
#include <stdlib.h>
#include <string.h>
#include <time.h>

enum { ROUNDS = 21, WORKS = 4 };

static double took[WORKS][ROUNDS];

static double now(void) {
    struct timespec at;
    clock_gettime(CLOCK_MONOTONIC, &at);
    return at.tv_sec * 1e6 + at.tv_nsec / 1e3;
}

static int by_size(const void *one, const void *other) {
    double a = *(const double *)one, b = *(const double *)other;
    return (a > b) - (a < b);
}

static double middle(double *times) {
    qsort(times, ROUNDS, sizeof *times, by_size);
    return times[ROUNDS / 2];
}

static void need(uint8_t number) {
    if (number != 0) {
        fprintf(stderr, "snapshot: a call failed with %d\n", number);
        exit(1);
    }
}

static size_t path_of(char *path, unsigned number) { return (size_t)sprintf(path, "/d/f%07u", number); }

static void write_one(struct doorvervain *fs, unsigned number) {
    char path[32];
    size_t length = path_of(path, number);
    need(doorvervain_write(fs, path, length, 0, "a", 1, 0));
}

// One round: what each work takes.
static void round_of(struct doorvervain *fs, unsigned files, unsigned number) {
    const char *name = "s";
    double begun = now();
    need(doorvervain_snapshot(fs, name, 1));
    double frozen = now();
    write_one(fs, number * 7919 % files);
    double first = now();
    write_one(fs, (number * 7919 + 1) % files);
    double second = now();
    need(doorvervain_drop_snapshot(fs, name, 1));
    double ended = now();
    double works[WORKS] = {frozen - begun, first - frozen, second - first, ended - second};
    for (int work = 0; work < WORKS; work++)
        took[work][number] = works[work];
}

static void measure(unsigned files) {
    struct doorvervain fs;
    need(doorvervain_open(&fs, DOORVERVAIN_FANOUT, DOORVERVAIN_PENDING, DOORVERVAIN_LEAF));
    need(doorvervain_mkdir(&fs, "/d", 2, 0));
    for (unsigned i = 0; i < files; i++) {
        char path[32];
        size_t length = path_of(path, i);
        need(doorvervain_create(&fs, path, length, 0));
    }
    for (unsigned i = 0; i < ROUNDS; i++)
        round_of(&fs, files, i);
    printf("%8u %8.1f %8.1f %8.1f %8.1f\n", files, middle(took[0]), middle(took[1]), middle(took[2]), middle(took[3]));
    doorvervain_close(&fs);
}

int main(void) {
    static const unsigned files[] = {2000, 65536, 1000000};
    printf("%8s %8s %8s %8s %8s\n", "files", "snapshot", "first", "second", "end");
    for (size_t i = 0; i < sizeof files / sizeof *files; i++)
        measure(files[i]);
    return 0;
}
