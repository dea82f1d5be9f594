// Shows what calls that only look write into memory that other threads may be reading: nothing, or counts of owners, which are atomic.
// It makes all memory that was allocated before a call read-only, lets each write there trap, and looks at the instruction that makes
// it: an atomic one has the prefix `lock`. The last call changes the volume, and shows that a write is seen. examples/run compares what
// it prints with untouched.expected.
//
// It is for Linux on x86-64, and takes the place of malloc, realloc and free: -Wl,--wrap=malloc -Wl,--wrap=realloc -Wl,--wrap=free.
#define _GNU_SOURCE // REG_RIP, REG_EFL
#include "doorvervain.h"
#include <signal.h>
#include <stdio.h>
#include <sys/mman.h>
#include <ucontext.h>
#include <unistd.h>

enum { FILES = 200, PATH = 16, LENGTH = 5000, NO_MORE = 64 << 20, PAGE = 4096, LOCK_PREFIX = 0xF0, SINGLE_STEP = 0x100 };

// ---- memory, which is never freed: what was allocated before the calls, and what they allocate

static char *area[2];
static size_t used[2];
static int is_watched;

static void make_areas(void) {
    for (int i = 0; i < 2; i++)
        area[i] = mmap(NULL, NO_MORE, PROT_READ | PROT_WRITE, MAP_PRIVATE | MAP_ANONYMOUS, -1, 0);
}

void *__wrap_malloc(size_t size) {
    if (!area[0]) make_areas();
    char *block = area[is_watched] + used[is_watched];
    used[is_watched] += (size + 31) / 16 * 16;
    if (used[is_watched] > NO_MORE) return NULL;
    memcpy(block, &size, sizeof size);
    return block + 16;
}

void __wrap_free(void *block) { (void)block; }

void *__wrap_realloc(void *old, size_t size) {
    size_t had = 0;
    void *block = __wrap_malloc(size);
    if (old) memcpy(&had, (char *)old - 16, sizeof had);
    if (block && old) memcpy(block, old, had < size ? had : size);
    return block;
}

// ---- writes to what was there before

static volatile long by_atomics, by_others;
static void *volatile opened;

// Counts a write by its instruction, and lets that one instruction be done.
static void write_traps(int signal, siginfo_t *info, void *context) {
    greg_t *registers = ((ucontext_t *)context)->uc_mcontext.gregs;
    uintptr_t at = (uintptr_t)info->si_addr, first = (uintptr_t)area[0];
    (void)signal;
    if (at < first || at >= first + NO_MORE) _exit(2);
    if (*(const uint8_t *)registers[REG_RIP] == LOCK_PREFIX) by_atomics++;
    else by_others++;
    opened = (void *)(at / PAGE * PAGE);
    mprotect(opened, 2 * PAGE, PROT_READ | PROT_WRITE);
    registers[REG_EFL] |= SINGLE_STEP;
}

static void instruction_is_done(int signal, siginfo_t *info, void *context) {
    (void)signal, (void)info;
    mprotect(opened, 2 * PAGE, PROT_READ);
    ((ucontext_t *)context)->uc_mcontext.gregs[REG_EFL] &= ~SINGLE_STEP;
}

static void watch(void) {
    by_atomics = by_others = 0;
    is_watched = 1;
    mprotect(area[0], NO_MORE, PROT_READ);
}

static void say(const char *call, uint8_t number) {
    mprotect(area[0], NO_MORE, PROT_READ | PROT_WRITE);
    printf("%s: %d, writes %s\n", call, number, by_others ? "more than counts" : by_atomics ? "counts" : "nothing");
}

// ---- the calls

static struct doorvervain fs, fork_of_it;
static struct doorvervain_frozen tree, other_tree;
static struct doorvervain_edits edits;
static char out[1 << 20];
static size_t got;
static uint8_t kind;
static uint64_t first, second;

static size_t path_of(int file, char *path) { return (size_t)sprintf(path, "/d/f%05d", file); }

// A volume with files of two blocks, a snapshot, changes after it, and a frozen tree. Some of it was compacted.
static uint8_t fill(void) {
    static const char bytes[LENGTH] = {1};
    char path[PATH];
    uint8_t number = doorvervain_open(&fs, DOORVERVAIN_FANOUT, DOORVERVAIN_PENDING, DOORVERVAIN_LEAF);
    if (!number) number = doorvervain_mkdir(&fs, "/d", 2, 1);
    for (int file = 0; file < FILES && !number; file++) {
        size_t length = path_of(file, path);
        number = doorvervain_create(&fs, path, length, 1);
        if (!number) number = doorvervain_write(&fs, path, length, 0, bytes, LENGTH, 2);
        doorvervain_compact(&fs, file % 2);
    }
    if (!number) number = doorvervain_snapshot(&fs, "s", 1);
    for (int file = 0; file < FILES && !number; file += 7)
        number = doorvervain_write(&fs, path, path_of(file, path), 10, bytes, 100, 3);
    return number ? number : doorvervain_freeze(&fs, &tree);
}

typedef uint8_t (*call_of)(const char *path, size_t length);

static uint8_t frozen_stat(const char *path, size_t length) {
    return doorvervain_frozen_stat(&tree, path, length, &kind, &first, &second);
}

static uint8_t frozen_read(const char *path, size_t length) {
    return doorvervain_frozen_read(&tree, path, length, 0, out, sizeof out, &got);
}

static uint8_t frozen_next_extent(const char *path, size_t length) {
    return doorvervain_frozen_next_extent(&tree, path, length, 0, &first, &second);
}

static uint8_t live_stat(const char *path, size_t length) {
    return doorvervain_stat(&fs, path, length, &kind, &first, &second);
}

static uint8_t live_read(const char *path, size_t length) {
    return doorvervain_read(&fs, path, length, 0, out, sizeof out, &got);
}

static uint8_t live_next_extent(const char *path, size_t length) {
    return doorvervain_next_extent(&fs, path, length, 0, &first, &second);
}

// Makes a call for each file.
static void for_each(const char *name, call_of call) {
    char path[PATH];
    uint8_t number = 0;
    watch();
    for (int file = 0; file < FILES && !number; file++)
        number = call(path, path_of(file, path));
    say(name, number);
}

static void of_the_frozen_tree(void) {
    for_each("frozen_stat", frozen_stat);
    for_each("frozen_read", frozen_read);
    for_each("frozen_next_extent", frozen_next_extent);
    watch();
    say("frozen_readdir", doorvervain_frozen_readdir(&tree, "/d", 2, out, sizeof out, &got));
    watch();
    say("image", doorvervain_image(&tree, NULL, 0, &got));
    watch();
    say("frozen_fork", doorvervain_frozen_fork(&tree, &fork_of_it));
}

static void of_the_volume(void) {
    for_each("stat", live_stat);
    for_each("read", live_read);
    for_each("next_extent", live_next_extent);
    watch();
    say("readdir", doorvervain_readdir(&fs, "/d", 2, out, sizeof out, &got));
    watch();
    say("snapshot_name", doorvervain_snapshot_name(&fs, 0, out, sizeof out, &got));
    watch();
    say("freeze", doorvervain_freeze(&fs, &other_tree));
    watch();
    say("open_snapshot", doorvervain_open_snapshot(&fs, "s", 1, &other_tree));
    watch();
    say("fork", doorvervain_fork(&fs, &fork_of_it));
    watch();
    say("delta", doorvervain_delta(&fs, "s", 1, "", 0, out, sizeof out, &got));
    watch();
    say("changed_paths", doorvervain_changed_paths(&fs, "s", 1, "", 0, out, sizeof out, &got));
    watch();
    say("edits_begin", doorvervain_edits_begin(&edits, &fs, "s", 1, "", 0));
    watch();
    say("edits_next, which prints", doorvervain_edits_next(&edits, out, 9, &got));
}

int main(void) {
    struct sigaction traps = {.sa_sigaction = write_traps, .sa_flags = SA_SIGINFO};
    struct sigaction is_done = {.sa_sigaction = instruction_is_done, .sa_flags = SA_SIGINFO};
    sigaction(SIGSEGV, &traps, NULL);
    sigaction(SIGTRAP, &is_done, NULL);
    setvbuf(stdout, NULL, _IONBF, 0);
    printf("fill: %d\n", fill());
    of_the_frozen_tree();
    of_the_volume();
    watch();
    say("create, which changes the volume", doorvervain_create(&fs, "/x", 2, 4));
    return 0;
}
