// Forks a volume and a frozen tree, restores frozen trees, and changes forks in several threads at once. It prints what it finds;
// examples/run compares that with forks.expected, which was written by hand.
//
// Built with -DREFUSE (examples/run does so), it also has each allocation of a call fail in turn.
#include "doorvervain.h"
#include <pthread.h>
#include <stdio.h>
#include <stdlib.h>
#include <string.h>

enum { CAPACITY = 256, THREADS = 8, FILES = 300, CALLS = 10000, SIZE = 16 };

static uint8_t open_usual(struct doorvervain *fs) {
    return doorvervain_open(fs, DOORVERVAIN_FANOUT, DOORVERVAIN_PENDING, DOORVERVAIN_LEAF);
}

static uint8_t create(struct doorvervain *fs, const char *path, uint64_t at) {
    return doorvervain_create(fs, path, strlen(path), at);
}

// Prints the names in the root, and its mtime.
static void say_root(const char *what, struct doorvervain *fs) {
    uint8_t listing[CAPACITY], kind;
    size_t size = 0;
    uint64_t length, modified;
    uint8_t number = doorvervain_readdir(fs, "/", 1, listing, CAPACITY, &size);
    printf("%s: readdir %d:", what, number);
    for (const uint8_t *at = listing; at < listing + size; at += strlen((const char *)at) + 1)
        printf(" %s", (const char *)at);
    number = doorvervain_stat(fs, "/", 1, &kind, &length, &modified);
    printf("; stat %d, mtime %llu\n", number, (unsigned long long)modified);
}

static void say_first_snapshot(const char *what, struct doorvervain *fs) {
    uint8_t name[CAPACITY];
    size_t size;
    uint8_t number = doorvervain_snapshot_name(fs, 0, name, CAPACITY, &size);
    printf("%s: first snapshot %d: %.*s\n", what, number, (int)size, (const char *)name);
}

// A fork has the tree of its volume, but not its snapshots. Neither sees a later change of the other.
static void fork_of_a_volume(struct doorvervain *fs, struct doorvervain *fork) {
    printf("open: %d\n", open_usual(fs));
    printf("create: %d\n", create(fs, "/a", 1));
    printf("snapshot: %d\n", doorvervain_snapshot(fs, "s", 1));
    printf("create: %d\n", create(fs, "/b", 2));
    printf("fork: %d\n", doorvervain_fork(fs, fork));
    say_root("fork", fork);
    say_first_snapshot("fork", fork);
    printf("create in the fork: %d\n", create(fork, "/c", 3));
    printf("unlink in the volume: %d\n", doorvervain_unlink(fs, "/a", 2, 4));
    say_root("fork", fork);
    say_root("volume", fs);
    say_first_snapshot("volume", fs);
}

// The fork of a frozen tree outlives the tree and its volume.
static void fork_of_a_tree(struct doorvervain *fs, struct doorvervain *fork) {
    struct doorvervain_frozen tree = {0};
    printf("open: %d\n", open_usual(fs));
    printf("create: %d\n", create(fs, "/a", 1));
    printf("freeze: %d\n", doorvervain_freeze(fs, &tree));
    printf("create: %d\n", create(fs, "/b", 2));
    printf("fork of the tree: %d\n", doorvervain_frozen_fork(&tree, fork));
    doorvervain_frozen_close(&tree);
    doorvervain_close(fs);
    printf("create in the fork: %d\n", create(fork, "/c", 3));
    say_root("fork", fork);
}

// A frozen tree of another volume, of another shape, takes the place of the volume's; the snapshots stay.
static void restores(struct doorvervain *fs, struct doorvervain *other) {
    struct doorvervain_frozen tree = {0};
    printf("open: %d, %d\n", open_usual(fs), doorvervain_open(other, 4, 4, 4));
    printf("create: %d, %d\n", create(fs, "/a", 1), create(other, "/x", 7));
    printf("snapshot: %d\n", doorvervain_snapshot(fs, "s", 1));
    printf("freeze: %d\n", doorvervain_freeze(other, &tree));
    printf("create in the other: %d\n", create(other, "/y", 8));
    printf("restore: %d\n", doorvervain_restore_frozen(fs, &tree));
    say_root("volume", fs);
    say_first_snapshot("volume", fs);
    printf("create: %d\n", create(fs, "/z", 9));
    say_root("volume", fs);
    printf("restore again: %d\n", doorvervain_restore_frozen(fs, &tree));
    say_root("volume", fs);
    say_root("other", other);
    printf("restore of a snapshot: %d\n", doorvervain_restore(fs, "s", 1));
    say_root("volume", fs);
    doorvervain_frozen_close(&tree);
}

static void refusals(void) {
    struct doorvervain fs = {0}, closed = {0}, out = {0};
    struct doorvervain_frozen tree = {0}, shut = {0};
    printf("open: %d\n", open_usual(&fs));
    printf("freeze: %d\n", doorvervain_freeze(&fs, &tree));
    printf("a null volume: %d, %d\n", doorvervain_fork(NULL, &out), doorvervain_restore_frozen(NULL, &tree));
    printf("a null tree: %d, %d\n", doorvervain_frozen_fork(NULL, &out), doorvervain_restore_frozen(&fs, NULL));
    printf("a null result: %d, %d\n", doorvervain_fork(&fs, NULL), doorvervain_frozen_fork(&tree, NULL));
    printf("a closed volume: %d, %d\n", doorvervain_fork(&closed, &out), doorvervain_restore_frozen(&closed, &tree));
    printf("a closed tree: %d, %d\n", doorvervain_frozen_fork(&shut, &out), doorvervain_restore_frozen(&fs, &shut));
    doorvervain_frozen_close(&tree);
    doorvervain_close(&fs);
}

#ifdef REFUSE
#include "refused_memory.h"

// Makes each allocation of a fork fail in turn: it returns ENOMEM, and `out` is closed. A restored tree asks for none.
static void refused_memory(struct doorvervain *fs, struct doorvervain *fork) {
    struct doorvervain_frozen tree = {0};
    uint8_t number;
    int right = 1;
    printf("open: %d\n", open_usual(fs));
    printf("freeze: %d\n", doorvervain_freeze(fs, &tree));
    for (int of_tree = 0; of_tree < 2; of_tree++) {
        long count = 0;
        do {
            refused_request = ++count;
            number = of_tree ? doorvervain_frozen_fork(&tree, fork) : doorvervain_fork(fs, fork);
            right = right && (number == DOORVERVAIN_DONE || (number == DOORVERVAIN_ENOMEM && !fork->ptr));
        } while (number == DOORVERVAIN_ENOMEM && right);
        refused_request = 0;
        printf("a fork with each request refused: %d, %s\n", number, right && count > 1 ? "as it should be" : "not so");
        doorvervain_close(fork);
    }
    refused_request = 1;
    number = doorvervain_restore_frozen(fs, &tree);
    printf("a restore with each request refused: %d, %s\n", number, refused_request == 1 ? "none was made" : "not so");
    refused_request = 0;
    doorvervain_frozen_close(&tree);
}
#else
static void refused_memory(struct doorvervain *fs, struct doorvervain *fork) { (void)fs, (void)fork; }
#endif

// ---- forks in threads

// A thread's own fork, the frozen tree that it is restored from now and then, and the length that each file of the fork should
// have: -1 if there should be none.
struct work {
    struct doorvervain fs;
    struct doorvervain_frozen tree;
    int length[FILES];
    unsigned seed;
    int wrong;
};

// The length of a file in the tree from which all forks are made: of three files one exists, and is empty.
static int first_length(int file) { return file % 3 ? -1 : 0; }

static void begin(struct work *work) {
    for (int file = 0; file < FILES; file++)
        work->length[file] = first_length(file);
}

static size_t name_of(int file, char *out) { return (size_t)snprintf(out, SIZE, "/f%03d", file); }

static unsigned drawn(struct work *work, unsigned below) {
    work->seed = work->seed * 1103515245 + 12345;
    return (work->seed >> 8) % below;
}

static void check(struct work *work, uint8_t number, uint8_t expected) { work->wrong += number != expected; }

static void create_file(struct work *work, int file) {
    char name[SIZE];
    size_t length = name_of(file, name);
    int has = work->length[file] >= 0;
    check(work, doorvervain_create(&work->fs, name, length, 1), has ? DOORVERVAIN_EEXIST : DOORVERVAIN_DONE);
    if (!has) work->length[file] = 0;
}

static void unlink_file(struct work *work, int file) {
    char name[SIZE];
    size_t length = name_of(file, name);
    int has = work->length[file] >= 0;
    check(work, doorvervain_unlink(&work->fs, name, length, 1), has ? DOORVERVAIN_DONE : DOORVERVAIN_ENOENT);
    work->length[file] = -1;
}

static void write_file(struct work *work, int file) {
    static const uint8_t zeros[SIZE];
    char name[SIZE];
    size_t length = name_of(file, name), count = 1 + drawn(work, SIZE);
    int has = work->length[file] >= 0;
    uint8_t number = doorvervain_write(&work->fs, name, length, 0, zeros, count, 1);
    check(work, number, has ? DOORVERVAIN_DONE : DOORVERVAIN_ENOENT);
    if (has && work->length[file] < (int)count) work->length[file] = (int)count;
}

// Compares a file of the fork, or of the frozen tree, with the length that it should have.
static void compare(struct work *work, int file, int expected, int of_tree) {
    char name[SIZE];
    uint8_t kind;
    uint64_t size, modified;
    size_t length = name_of(file, name);
    uint8_t number = of_tree ? doorvervain_frozen_stat(&work->tree, name, length, &kind, &size, &modified)
                             : doorvervain_stat(&work->fs, name, length, &kind, &size, &modified);
    check(work, number, expected < 0 ? DOORVERVAIN_ENOENT : DOORVERVAIN_DONE);
    if (expected >= 0) work->wrong += size != (uint64_t)expected;
}

// Makes a random call of the fork.
static void change(struct work *work) {
    int file = (int)drawn(work, FILES);
    switch (drawn(work, 5)) {
    case 0: create_file(work, file); break;
    case 1: unlink_file(work, file); break;
    case 2: write_file(work, file); break;
    case 3: doorvervain_compact(&work->fs, 3); break;
    default: compare(work, file, work->length[file], 0);
    }
}

static void *do_work(void *argument) {
    struct work *work = argument;
    for (int i = 0; i < CALLS; i++) {
        int file = (int)drawn(work, FILES);
        change(work);
        compare(work, file, first_length(file), 1);
        if (i % 500 != 499) continue;
        check(work, doorvervain_restore_frozen(&work->fs, &work->tree), DOORVERVAIN_DONE);
        begin(work);
    }
    for (int file = 0; file < FILES; file++)
        compare(work, file, work->length[file], 0);
    doorvervain_frozen_close(&work->tree);
    doorvervain_close(&work->fs);
    return NULL;
}

// A volume, and a fork and a frozen tree of it for each thread, are called at the same time: each has its own calls alone.
static void threads(void) {
    static struct work work[THREADS + 1];
    pthread_t thread[THREADS];
    struct work *first = &work[THREADS];
    int wrong = 0;
    printf("open: %d\n", open_usual(&first->fs));
    for (int file = 0; file < FILES; file++)
        first->length[file] = -1;
    for (int file = 0; file < FILES; file += 3)
        create_file(first, file);
    for (int i = 0; i <= THREADS; i++) {
        work[i].seed = (unsigned)i;
        wrong += doorvervain_freeze(&first->fs, &work[i].tree) != DOORVERVAIN_DONE;
        if (i == THREADS) break;
        begin(&work[i]);
        wrong += doorvervain_fork(&first->fs, &work[i].fs) != DOORVERVAIN_DONE;
        wrong += pthread_create(&thread[i], NULL, do_work, &work[i]) != 0;
    }
    do_work(first);
    for (int i = 0; i < THREADS; i++)
        wrong += pthread_join(thread[i], NULL) != 0;
    for (int i = 0; i <= THREADS; i++)
        wrong += work[i].wrong;
    printf("wrong answers in %d threads: %d\n", THREADS + 1, wrong);
}

int main(void) {
    struct doorvervain fs = {0}, other = {0};
    fork_of_a_volume(&fs, &other);
    doorvervain_close(&fs);
    doorvervain_close(&other);
    fork_of_a_tree(&fs, &other);
    doorvervain_close(&other);
    restores(&fs, &other);
    doorvervain_close(&fs);
    doorvervain_close(&other);
    refusals();
    refused_memory(&fs, &other);
    doorvervain_close(&fs);
    threads();
    return 0;
}
