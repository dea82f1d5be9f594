// Times what differs from a snapshot: bench/changed.c, over the static library.
//
//     cc -O2 -Iinclude bench/changed.c LIBRARY HEAP -o changed && ./changed
//
// LIBRARY is libdoorvervain.a, HEAP the toolchain's object (docs/C_LIBRARY.md). There are 100,000 files of 4 KiB. For each number of files to
// which a byte is appended after a snapshot it prints milliseconds, each the least of 3 rounds: the list of the paths that differ; the edits
// printed (a delta of format 2); these applied to a fork of the snapshot; the list where nothing was noted, which reads both trees; and the
// delta of format 1, which prints both images.
#include "doorvervain.h"
#include <stdio.h>
#include <stdlib.h>
#include <string.h>
#include <time.h>

enum { FILES = 100000, ROUNDS = 3, WORKS = 5 };

static uint8_t room[1 << 26];

static double now(void) {
    struct timespec at;
    clock_gettime(CLOCK_MONOTONIC, &at);
    return at.tv_sec * 1e3 + at.tv_nsec / 1e6;
}

static void need(uint8_t number) {
    if (number != 0) {
        fprintf(stderr, "changed: a call failed with %d\n", number);
        exit(1);
    }
}

static size_t path_of(char *path, unsigned number) {
    return (size_t)sprintf(path, "/d%u/f%07u", number % 100, number);
}

static void fill(struct doorvervain *fs) {
    static uint8_t block[4096];
    char path[32];
    for (unsigned i = 0; i < 100; i++)
        need(doorvervain_mkdir(fs, path, (size_t)sprintf(path, "/d%u", i), 0));
    for (unsigned i = 0; i < FILES; i++) {
        size_t length = path_of(path, i);
        memset(block, 'a' + (int)(i % 26), sizeof block);
        need(doorvervain_create(fs, path, length, 1));
        need(doorvervain_write(fs, path, length, 0, block, sizeof block, 1));
    }
    while (doorvervain_compact(fs, 1000) > 0)
        ;
}

// The time of one list, or delta.
static double listed(struct doorvervain *fs, int is_delta) {
    double begun = now();
    size_t size;
    need(is_delta ? doorvervain_delta(fs, "s", 1, "", 0, room, sizeof room, &size)
                  : doorvervain_changed_paths(fs, "s", 1, "", 0, room, sizeof room, &size));
    return now() - begun;
}

// The time of the edits, which are left in the room.
static double printed(struct doorvervain *fs, size_t *size) {
    struct doorvervain_edits edits;
    double begun = now();
    size_t count;
    *size = 0;
    need(doorvervain_edits_begin(&edits, fs, "s", 1, "", 0));
    do {
        need(doorvervain_edits_next(&edits, room + *size, sizeof room - *size, &count));
        *size += count;
    } while (count > 0);
    doorvervain_edits_end(&edits);
    return now() - begun;
}

// The time that the edits take to be applied to a fork of the snapshot.
static double applied(struct doorvervain *fs, size_t size) {
    struct doorvervain fork;
    struct doorvervain_frozen tree;
    uint64_t line;
    need(doorvervain_open_snapshot(fs, "s", 1, &tree));
    need(doorvervain_frozen_fork(&tree, &fork));
    double begun = now();
    need(doorvervain_apply_edits(&fork, room, size, &line));
    double took = now() - begun;
    doorvervain_frozen_close(&tree);
    doorvervain_close(&fork);
    return took;
}

// Replaces the live tree by itself, so that the volume knows no more what was touched.
static void forget(struct doorvervain *fs) {
    struct doorvervain_frozen tree;
    need(doorvervain_freeze(fs, &tree));
    need(doorvervain_restore_frozen(fs, &tree));
    doorvervain_frozen_close(&tree);
}

// Each round writes another byte at another time, so that each file that is touched differs.
static void round_of(struct doorvervain *fs, unsigned changes, double *least) {
    static uint64_t at = 2;
    char path[32], byte = (char)('a' + at % 26);
    double took[WORKS];
    size_t size;
    need(doorvervain_snapshot(fs, "s", 1));
    for (unsigned i = 0; i < changes; i++)
        need(doorvervain_write(fs, path, path_of(path, i * 97 % FILES), 4096, &byte, 1, at));
    at++;
    took[0] = listed(fs, 0);
    took[1] = printed(fs, &size);
    took[2] = applied(fs, size);
    forget(fs);
    took[3] = listed(fs, 0);
    took[4] = listed(fs, 1);
    for (int work = 0; work < WORKS; work++)
        if (took[work] < least[work]) least[work] = took[work];
    need(doorvervain_drop_snapshot(fs, "s", 1));
}

int main(void) {
    static const unsigned changes[] = {1, 1000, 20000};
    struct doorvervain fs;
    need(doorvervain_open(&fs, DOORVERVAIN_FANOUT, DOORVERVAIN_PENDING, DOORVERVAIN_LEAF));
    fill(&fs);
    printf("%8s %10s %10s %10s %10s %10s\n", "changed", "paths", "edits", "applied", "not noted", "delta");
    for (size_t i = 0; i < sizeof changes / sizeof *changes; i++) {
        double least[WORKS] = {1e9, 1e9, 1e9, 1e9, 1e9};
        for (int round = 0; round < ROUNDS; round++)
            round_of(&fs, changes[i], least);
        printf("%8u %10.3f %10.3f %10.3f %10.1f %10.1f\n", changes[i], least[0], least[1], least[2], least[3], least[4]);
    }
    doorvervain_close(&fs);
    return 0;
}
