// Times ten writes of 100 bytes, alone and in a transaction, with many pending messages: bench/transactions.c, over the static library.
//
//     cc -O2 -Iinclude bench/transactions.c LIBRARY HEAP -o transactions && ./transactions
//     valgrind --tool=callgrind --toggle-collect=WORK ./transactions FILES    # WORK is alone, committed or rolled_back
//
// LIBRARY is libdoorvervain.a, HEAP the toolchain's object (docs/C_LIBRARY.md). For each number of files, or the one that is given, it
// prints microseconds, each the middle one of 21 rounds: the writes alone; a transaction of them that is committed, and the three parts
// of it; and one that is rolled back, and its end. Callgrind counts the instructions of a work in all rounds.
#include "doorvervain.h"
#include <stdio.h>
#include <stdlib.h>
#include <string.h>
#include <time.h>

enum { ROUNDS = 21, WRITES = 10, BYTES = 100 };

// What is printed of a round.
enum { ALONE, COMMITTED, BEGIN, INSIDE, COMMIT, ROLLED_BACK, ROLLBACK, TIMES };

static double took[TIMES][ROUNDS];
static struct doorvervain fs;
static unsigned files, next;

static double now(void) {
    struct timespec at;
    clock_gettime(CLOCK_MONOTONIC, &at);
    return at.tv_sec * 1e6 + at.tv_nsec / 1e3;
}

static int by_size(const void *one, const void *other) {
    double a = *(const double *)one, b = *(const double *)other;
    return (a > b) - (a < b);
}

static double middle(double *times) {
    qsort(times, ROUNDS, sizeof *times, by_size);
    return times[ROUNDS / 2];
}

static void need(uint8_t number) {
    if (number != 0) {
        fprintf(stderr, "transactions: a call failed with %d\n", number);
        exit(1);
    }
}

static size_t path_of(char *path, unsigned number) { return (size_t)sprintf(path, "/d/f%07u", number); }

// Writes to ten files that were not written before.
static void write_ten(void) {
    static const uint8_t bytes[BYTES] = "x";
    for (int i = 0; i < WRITES; i++) {
        char path[32];
        size_t length = path_of(path, next++ * 7919 % files);
        need(doorvervain_write(&fs, path, length, 0, bytes, BYTES, 0));
    }
}

__attribute__((noinline)) void alone(unsigned round) {
    double begun = now();
    write_ten();
    took[ALONE][round] = now() - begun;
}

__attribute__((noinline)) void committed(unsigned round) {
    double begun = now();
    need(doorvervain_begin(&fs));
    double open = now();
    write_ten();
    double written = now();
    need(doorvervain_commit(&fs));
    double ended = now();
    took[COMMITTED][round] = ended - begun;
    took[BEGIN][round] = open - begun;
    took[INSIDE][round] = written - open;
    took[COMMIT][round] = ended - written;
}

__attribute__((noinline)) void rolled_back(unsigned round) {
    double begun = now();
    need(doorvervain_begin(&fs));
    write_ten();
    double written = now();
    need(doorvervain_rollback(&fs));
    double ended = now();
    took[ROLLED_BACK][round] = ended - begun;
    took[ROLLBACK][round] = ended - written;
}

static void measure(unsigned count) {
    files = count;
    next = 0;
    need(doorvervain_open(&fs, DOORVERVAIN_FANOUT, DOORVERVAIN_PENDING, DOORVERVAIN_LEAF));
    need(doorvervain_mkdir(&fs, "/d", 2, 0));
    for (unsigned i = 0; i < files; i++) {
        char path[32];
        size_t length = path_of(path, i);
        need(doorvervain_create(&fs, path, length, 0));
    }
    for (unsigned round = 0; round < ROUNDS; round++) {
        alone(round);
        committed(round);
        rolled_back(round);
    }
    printf("%8u", files);
    for (int i = 0; i < TIMES; i++)
        printf(" %11.1f", middle(took[i]));
    printf("\n");
    doorvervain_close(&fs);
}

int main(int count, char **words) {
    static const unsigned usual[] = {2000, 65536, 1000000};
    printf("%8s %11s %11s %11s %11s %11s %11s %11s\n", "files", "alone", "committed", "begin", "writes", "commit", "rolled back", "rollback");
    if (count > 1) measure((unsigned)strtoul(words[1], NULL, 10));
    for (size_t i = 0; count < 2 && i < sizeof usual / sizeof *usual; i++)
        measure(usual[i]);
    return 0;
}
