// Times calls of the static library on many files: bench/calls.c.
//
//     cc -O2 -Iinclude bench/calls.c LIBRARY HEAP -o calls && ./calls
//
// LIBRARY is libdoorvervain.a, HEAP the toolchain's object (docs/C_LIBRARY.md). Without and with compaction it prints the microseconds
// of each call on each of 10,000 files in 100 directories: create, a write and a read of 4,096 bytes, stat, a listing of its directory of
// 100 files, and unlink. Each is the least of nine rounds.
#include "doorvervain.h"
#include <stdio.h>
#include <stdlib.h>
#include <string.h>
#include <time.h>

enum { ROUNDS = 9, FOLDERS = 100, FILES = 100, BYTES = 4096, LISTED = 4096 };

static struct doorvervain fs;
static uint8_t bytes[BYTES], listed[LISTED];

static double now(void) {
    struct timespec at;
    clock_gettime(CLOCK_MONOTONIC, &at);
    return at.tv_sec * 1e6 + at.tv_nsec / 1e3;
}

static void need(uint8_t number) {
    if (number != 0) {
        fprintf(stderr, "calls: a call failed with %d\n", number);
        exit(1);
    }
}

// Each call takes the path of a directory, or of a file in it.
static void create(const char *path, size_t length) { need(doorvervain_create(&fs, path, length, 1)); }

static void write_all(const char *path, size_t length) {
    need(doorvervain_write(&fs, path, length, 0, bytes, BYTES, 2));
}

static void read_all(const char *path, size_t length) {
    size_t got;
    need(doorvervain_read(&fs, path, length, 0, bytes, BYTES, &got));
}

static void ask(const char *path, size_t length) {
    uint8_t kind;
    uint64_t size, modified;
    need(doorvervain_stat(&fs, path, length, &kind, &size, &modified));
}

static void list(const char *path, size_t length) {
    size_t size;
    need(doorvervain_readdir(&fs, path, length, listed, LISTED, &size));
}

static void unlink_file(const char *path, size_t length) { need(doorvervain_unlink(&fs, path, length, 3)); }

static const struct {
    const char *name;
    void (*call)(const char *path, size_t length);
    int of_folders;
} CALLS[] = {
    {"create", create, 0},       {"write 4 KiB", write_all, 0},        {"read 4 KiB", read_all, 0},
    {"stat", ask, 0},            {"a listing of 100 names", list, 1},  {"unlink", unlink_file, 0},
};
enum { COUNT = sizeof CALLS / sizeof *CALLS };

// The microseconds of a call, with the given number of compaction steps after every 16 calls.
static double time_call(int which, uint32_t steps) {
    int files = CALLS[which].of_folders ? 1 : FILES;
    double begun = now();
    for (int i = 0; i < FOLDERS * files; i++) {
        char path[32];
        int length = sprintf(path, "/d%02d", i / files);
        if (files > 1) length += sprintf(path + length, "/f%06d", i % files);
        CALLS[which].call(path, (size_t)length);
        if (steps && i % 16 == 15) doorvervain_compact(&fs, steps);
    }
    return (now() - begun) / (FOLDERS * files);
}

static void round_of(uint32_t steps, double *least) {
    need(doorvervain_open(&fs, DOORVERVAIN_FANOUT, DOORVERVAIN_PENDING, DOORVERVAIN_LEAF));
    for (int i = 0; i < FOLDERS; i++) {
        char path[8];
        size_t length = (size_t)sprintf(path, "/d%02d", i);
        need(doorvervain_mkdir(&fs, path, length, 0));
    }
    for (int which = 0; which < COUNT; which++) {
        double took = time_call(which, steps);
        if (least[which] == 0 || took < least[which]) least[which] = took;
    }
    doorvervain_close(&fs);
}

int main(void) {
    double plain[COUNT] = {0}, stepped[COUNT] = {0};
    for (int i = 0; i < ROUNDS; i++) {
        round_of(0, plain);
        round_of(4, stepped);
    }
    printf("%-24s %8s %8s\n", "", "alone", "stepped");
    for (int which = 0; which < COUNT; which++)
        printf("%-24s %8.2f %8.2f\n", CALLS[which].name, plain[which], stepped[which]);
    return 0;
}
