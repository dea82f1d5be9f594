// Punches holes into a file, copies ranges of it, and reads its allocated extents before and after. It prints what it finds; examples/run
// compares that with holes.expected, whose numbers are computed independently.
//
// Built with -DREFUSE (examples/run does so), it also has each allocation of a call fail in turn.
#include "doorvervain.h"
#include <stdio.h>
#include <stdlib.h>
#include <string.h>

enum { BLOCK = 4096, LENGTH = 3 * BLOCK + 10, OLD = 99 };

static const uint8_t *bytes_of(const char *text) { return (const uint8_t *)text; }

static uint8_t hole(struct doorvervain *fs, const char *path, uint64_t offset, uint64_t count) {
    return doorvervain_punch(fs, path, strlen(path), offset, count, 7);
}

// Prints the allocated extents of a file.
static void say_runs(const char *what, struct doorvervain *fs, const char *path) {
    uint64_t from = 0, to = 0;
    printf("%s:", what);
    while (!doorvervain_next_extent(fs, path, strlen(path), to, &from, &to) && from < to)
        printf(" %llu to %llu", (unsigned long long)from, (unsigned long long)to);
    printf(", size %llu\n", (unsigned long long)to);
}

static void say_frozen_runs(const char *what, struct doorvervain_frozen *tree, const char *path) {
    uint64_t from = 0, to = 0;
    printf("%s:", what);
    while (!doorvervain_frozen_next_extent(tree, path, strlen(path), to, &from, &to) && from < to)
        printf(" %llu to %llu", (unsigned long long)from, (unsigned long long)to);
    printf(", size %llu\n", (unsigned long long)to);
}

// Prints the bytes of a file as runs of one byte, and its mtime.
static void say_bytes(struct doorvervain *fs, const char *path) {
    static uint8_t buffer[LENGTH + 1];
    size_t got = 0;
    uint8_t kind;
    uint64_t size, modified;
    uint8_t number = doorvervain_read(fs, path, strlen(path), 0, buffer, sizeof buffer, &got);
    printf("  read %d:", number);
    for (size_t from = 0, to = 0; from < got; from = to) {
        while (to < got && buffer[to] == buffer[from])
            to++;
        printf(" %zu of %c", to - from, buffer[from] ? buffer[from] : '0');
    }
    number = doorvervain_stat(fs, path, strlen(path), &kind, &size, &modified);
    printf("; stat %d, mtime %llu\n", number, (unsigned long long)modified);
}

// Three blocks of a, b and c, and ten bytes d.
static uint8_t fill(struct doorvervain *fs, const char *path) {
    static uint8_t bytes[LENGTH];
    memset(bytes, 'a', BLOCK);
    memset(bytes + BLOCK, 'b', BLOCK);
    memset(bytes + 2 * BLOCK, 'c', BLOCK);
    memset(bytes + 3 * BLOCK, 'd', 10);
    uint8_t number = doorvervain_create(fs, path, strlen(path), 2);
    return number ? number : doorvervain_write(fs, path, strlen(path), 0, bytes, sizeof bytes, 3);
}

static void say_hole(struct doorvervain *fs, const char *path, uint64_t offset, uint64_t count) {
    printf("hole of %llu at %llu: %d\n", (unsigned long long)count, (unsigned long long)offset,
        hole(fs, path, offset, count));
    say_bytes(fs, path);
    say_runs("  stored", fs, path);
}

// Holes one after the other in one file, and a snapshot from before.
static void holes(struct doorvervain *fs) {
    struct doorvervain_frozen kept = {0};
    printf("fill: %d\n", fill(fs, "/f"));
    say_runs("stored", fs, "/f");
    printf("snapshot: %d\n", doorvervain_snapshot(fs, "s", 1));
    say_hole(fs, "/f", LENGTH, 5);
    say_hole(fs, "/f", BLOCK, BLOCK);
    say_hole(fs, "/f", 10, 20);
    say_hole(fs, "/f", 2 * BLOCK - 1, 2);
    say_hole(fs, "/f", 2 * BLOCK, UINT64_MAX);
    say_hole(fs, "/f", 0, (uint64_t)1 << 40);
    printf("frozen: %d\n", doorvervain_open_snapshot(fs, "s", 1, &kept));
    say_frozen_runs("stored of the snapshot", &kept, "/f");
    doorvervain_frozen_close(&kept);
    printf("restore: %d\n", doorvervain_restore(fs, "s", 1));
    say_bytes(fs, "/f");
}

static void say_copy(struct doorvervain *fs, const char *from, uint64_t offset, const char *to, uint64_t target, uint64_t count) {
    uint64_t copied = OLD;
    uint8_t number =
        doorvervain_copy_range(fs, from, strlen(from), offset, to, strlen(to), target, count, 8, &copied);
    printf("copy of %llu from %s %llu to %s %llu: %d, %llu\n", (unsigned long long)count, from, (unsigned long long)offset, to,
        (unsigned long long)target, number, (unsigned long long)copied);
}

// Copies of a file to another one and within it: whole blocks, parts of blocks, ranges that overlap, and no byte; and those that fail.
static void copies(struct doorvervain *fs) {
    printf("create: %d\n", doorvervain_create(fs, "/g", 2, 4));
    say_copy(fs, "/f", LENGTH, "/g", 0, 5);
    say_bytes(fs, "/g");
    say_copy(fs, "/f", BLOCK, "/g", 0, BLOCK);
    say_copy(fs, "/f", 2 * BLOCK, "/g", 2 * BLOCK, UINT64_MAX);
    say_bytes(fs, "/g");
    say_runs("  stored", fs, "/g");
    say_copy(fs, "/f", BLOCK - 6, "/g", BLOCK - 5, 10);
    say_bytes(fs, "/g");
    say_copy(fs, "/g", BLOCK - 6, "/g", BLOCK - 5, 10);
    say_bytes(fs, "/g");
    say_copy(fs, "/none", 0, "/", 0, 1);
    say_copy(fs, "/f", 0, "/", 0, 1);
    say_copy(fs, "/f", 0, "/g", (uint64_t)1 << 40, 1);
    say_copy(fs, "/f", 0, "g", 0, 1);
    printf("a null result: %d\n", doorvervain_copy_range(fs, "/f", 2, 0, "/g", 2, 0, 1, 8, NULL));
    printf("unlink: %d\n", doorvervain_unlink(fs, "/g", 2, 8));
}

// A file of 2^40 bytes of which one is stored.
static void sparse(struct doorvervain *fs) {
    uint64_t last = ((uint64_t)1 << 40) - 1;
    printf("create: %d\n", doorvervain_create(fs, "/large", 6, 1));
    printf("write: %d\n", doorvervain_write(fs, "/large", 6, last, "x", 1, 2));
    say_runs("stored", fs, "/large");
    printf("hole: %d\n", hole(fs, "/large", 1, last));
    say_runs("stored", fs, "/large");
}

// What calls return if there is no file, and what is left in the results then.
static void say_refusal(struct doorvervain *fs, const char *path) {
    uint64_t from = OLD, to = OLD;
    uint8_t punched = doorvervain_raw_punch(fs, bytes_of(path), strlen(path), 0, 1, 7);
    uint8_t number = doorvervain_raw_next_extent(fs, bytes_of(path), strlen(path), 0, &from, &to);
    printf("%s: %d, %d, %llu to %llu\n", path, punched, number, (unsigned long long)from, (unsigned long long)to);
}

static void refusals(struct doorvervain *fs) {
    struct doorvervain closed = {0};
    struct doorvervain_frozen closed_tree = {0};
    uint64_t from = OLD, to = OLD;
    printf("mkdir: %d\n", doorvervain_mkdir(fs, "/d", 2, 1));
    say_refusal(fs, "/");
    say_refusal(fs, "/d");
    say_refusal(fs, "/d/x");
    say_refusal(fs, "/f/x");
    say_refusal(fs, "f");
    printf("no volume: %d, %d\n", hole(NULL, "/f", 0, 1), doorvervain_next_extent(NULL, "/f", 2, 0, &from, &to));
    printf("a closed volume: %d, %d\n", hole(&closed, "/f", 0, 1),
        doorvervain_next_extent(&closed, "/f", 2, 0, &from, &to));
    printf("a closed tree: %d\n", doorvervain_frozen_next_extent(&closed_tree, "/f", 2, 0, &from, &to));
    printf("a null path: %d, %d\n", doorvervain_punch(fs, NULL, 2, 0, 1, 7), doorvervain_next_extent(fs, NULL, 2, 0, &from, &to));
    printf("a null result: %d, %d\n", doorvervain_next_extent(fs, "/f", 2, 0, NULL, &to),
        doorvervain_next_extent(fs, "/f", 2, 0, &from, NULL));
}

#ifdef REFUSE
#include "refused_memory.h"

// Makes each allocation of a punch and of the search for extents fail in turn: they return ENOMEM, and the file is unchanged.
static void refused_memory(struct doorvervain *fs) {
    uint8_t number = DOORVERVAIN_ENOMEM;
    uint64_t from = OLD, to = OLD;
    int refusals = 0, changed = 0;
    for (long request = 1; number == DOORVERVAIN_ENOMEM; request++) {
        refused_request = request;
        number = hole(fs, "/f", 10, 2 * BLOCK);
        refused_request = 0;
        changed += number && (doorvervain_next_extent(fs, "/f", 2, 0, &from, &to) || from != 0 || to != LENGTH);
        refusals += number != 0;
    }
    printf("a hole without memory: %s, %d changed, then %d\n", refusals ? "refused" : "not refused", changed, number);
    number = DOORVERVAIN_ENOMEM;
    for (long request = 1; number == DOORVERVAIN_ENOMEM; request++) {
        refused_request = request;
        number = doorvervain_next_extent(fs, "/f", 2, 0, &from, &to);
        refused_request = 0;
        changed += number && (from || to);
    }
    printf("stored without memory: %d left, then %d, %llu to %llu\n", changed, number, (unsigned long long)from,
        (unsigned long long)to);
}

// Makes each allocation of a copy fail in turn: it returns ENOMEM and no count, and the file is unchanged.
static void refused_copy(struct doorvervain *fs) {
    uint8_t number = doorvervain_create(fs, "/g", 2, 4), kind;
    uint64_t copied = OLD, size = OLD, modified = OLD;
    int refusals = 0, changed = number;
    number = DOORVERVAIN_ENOMEM;
    for (long request = 1; number == DOORVERVAIN_ENOMEM; request++) {
        refused_request = request;
        number = doorvervain_copy_range(fs, "/f", 2, 10, "/g", 2, 3, 2 * BLOCK, 8, &copied);
        refused_request = 0;
        changed += number && (doorvervain_stat(fs, "/g", 2, &kind, &size, &modified) || copied || size || modified != 4);
        refusals += number != 0;
    }
    printf("a copy without memory: %s, %d changed, then %d, %llu bytes\n", refusals ? "refused" : "not refused", changed, number,
        (unsigned long long)copied);
}

// Makes each allocation of a read fail in turn, which the archive does in three pieces: it returns ENOMEM, and no bytes.
static void refused_read(struct doorvervain *fs) {
    enum { SIZE = 2 * 1048576 + 1 };
    static uint8_t out[SIZE];
    uint8_t number = DOORVERVAIN_ENOMEM;
    size_t got = 0;
    int later = 0, wrong = 0;
    printf("a long file: %d", doorvervain_create(fs, "/long", 5, 7));
    printf(", %d\n", doorvervain_truncate(fs, "/long", 5, SIZE, 7));
    for (long request = 1; number == DOORVERVAIN_ENOMEM; request++) {
        out[0] = 'x';
        refused_request = request;
        number = doorvervain_read(fs, "/long", 5, 0, out, SIZE, &got);
        refused_request = 0;
        later += number && out[0] == 0;
        wrong += number && got != 0;
    }
    printf("a read without memory: refused %s, %d with bytes, then %d, %d bytes\n", later ? "in later pieces too" : "at first",
        wrong, number, (int)got);
}
#else
static void refused_memory(struct doorvervain *fs) { (void)fs; }
static void refused_copy(struct doorvervain *fs) { (void)fs; }
static void refused_read(struct doorvervain *fs) { (void)fs; }
#endif

int main(void) {
    struct doorvervain fs = {0};
    printf("open: %d\n", doorvervain_open(&fs, 4, 4, 4));
    holes(&fs);
    copies(&fs);
    sparse(&fs);
    refusals(&fs);
    refused_memory(&fs);
    refused_copy(&fs);
    refused_read(&fs);
    doorvervain_close(&fs);
    return EXIT_SUCCESS;
}
