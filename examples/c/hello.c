// A program in C over the library. It prints what each call returns; examples/run compares that with
// hello.expected.
//
// Two volumes are open all the time, so that a result from the other one shows. Guard bytes follow each
// buffer. Built with -DREFUSE (examples/run does so), it also has each allocation of a call fail in turn.
#include "doorvervain.h"
#include <stdio.h>
#include <stdlib.h>
#include <string.h>

enum { CAPACITY = 64, GUARD = 0xa5 };

// A buffer with guard bytes after the capacity that a call gets.
static uint8_t buffer[2 * CAPACITY];

// Prints what a call returned.
static void say(const char *what, uint8_t number) { printf("%s: %d\n", what, number); }

static uint8_t make(struct doorvervain *fs, const char *path) {
    return doorvervain_create(fs, path, strlen(path), 0);
}

static uint8_t put(struct doorvervain *fs, const char *path, uint64_t offset, const char *text) {
    return doorvervain_write(fs, path, strlen(path), offset, text, strlen(text), 0);
}

// Whether all bytes of the buffer from here on are guards.
static int guarded(size_t from) {
    while (from < sizeof buffer && buffer[from] == GUARD)
        from++;
    return from == sizeof buffer;
}

// Prints what was written into the buffer, a byte 0 as a space, and whether all after it is unchanged.
static void say_bytes(const char *what, uint8_t number, size_t count, size_t written) {
    printf("%s: %d, %zu bytes '", what, number, count);
    for (size_t i = 0; i < written; i++)
        putchar(buffer[i] ? buffer[i] : ' ');
    printf("'%s\n", guarded(written) ? "" : ", and more was written");
}

static void say_read(const char *what, struct doorvervain *fs, const char *path, uint64_t offset, size_t capacity) {
    size_t got = 99;
    memset(buffer, GUARD, sizeof buffer);
    uint8_t number = doorvervain_read(fs, path, strlen(path), offset, buffer, capacity, &got);
    say_bytes(what, number, got, got);
}

static void say_frozen_read(const char *what, struct doorvervain_frozen *tree, const char *path) {
    size_t got = 99;
    memset(buffer, GUARD, sizeof buffer);
    uint8_t number = doorvervain_frozen_read(tree, path, strlen(path), 0, buffer, CAPACITY, &got);
    say_bytes(what, number, got, got);
}

static void say_entries(const char *what, struct doorvervain *fs, const char *path, size_t capacity) {
    size_t size = 99;
    memset(buffer, GUARD, sizeof buffer);
    uint8_t number = doorvervain_readdir(fs, path, strlen(path), buffer, capacity, &size);
    say_bytes(what, number, size, size <= capacity ? size : 0);
}

static void say_stat(const char *what, struct doorvervain *fs, const char *path) {
    uint8_t kind = 99;
    uint64_t size = 99, modified = 99;
    uint8_t number = doorvervain_stat(fs, path, strlen(path), &kind, &size, &modified);
    printf("%s: %d, kind %d, %llu bytes, mtime %llu\n", what, number, kind, (unsigned long long)size,
        (unsigned long long)modified);
}

// The eleven calls, on one volume while the other stays empty.
static void calls(struct doorvervain *one, struct doorvervain *other) {
    say("mkdir /d", doorvervain_mkdir(one, "/d", 2, 0));
    say("mkdir /d again", doorvervain_mkdir(one, "/d", 2, 0));
    say("create /d/x", make(one, "/d/x"));
    say("write /d/x", put(one, "/d/x", 0, "hello, world"));
    say_stat("stat /d/x", one, "/d/x");
    say_stat("stat /d/x of the other", other, "/d/x");
    say_entries("readdir / of the other", other, "/", CAPACITY);
    say("rename /d/x /y", doorvervain_rename(one, "/d/x", 4, "/y", 2, 7));
    say("truncate /y", doorvervain_truncate(one, "/y", 2, 5, 9));
    say_read("read /y", one, "/y", 0, CAPACITY);
    say("unlink /d", doorvervain_unlink(one, "/d", 2, 0));
    say("unlink /y", doorvervain_unlink(one, "/y", 2, 0));
    say("rmdir /d", doorvervain_rmdir(one, "/d", 2, 0));
    say("rmtree /d", doorvervain_rmtree(one, "/d", 2, 0));
    say_entries("readdir /", one, "/", CAPACITY);
}

// What a read or a listing writes, and that it writes no more.
static void buffers(struct doorvervain *one, struct doorvervain *other) {
    say("create /long in both", make(one, "/long") + make(other, "/long"));
    say("write one", put(one, "/long", 0, "the first volume has these bytes"));
    say("write the other", put(other, "/long", 0, "and the other has those"));
    say_read("read 9 of one", one, "/long", 4, 9);
    say_read("read 9 of the other", other, "/long", 4, 9);
    say_read("read past the end", one, "/long", 32, CAPACITY);
    say_read("read over the end", one, "/long", 27, CAPACITY);
    say_read("read into no capacity", one, "/long", 0, 0);
    say_entries("readdir into too little capacity", one, "/", 5);
    say_entries("readdir with capacity", one, "/", 6);
}

// What calls return for null pointers, closed volumes, and texts that are not paths.
static void refusals(struct doorvervain *one) {
    struct doorvervain closed = {0};
    struct doorvervain_frozen closed_tree = {0};
    size_t got = 99;
    say("a null path", doorvervain_mkdir(one, NULL, 3, 0));
    say("a null path of no bytes", doorvervain_mkdir(one, NULL, 0, 0));
    say("a null buffer", doorvervain_read(one, "/long", 5, 0, NULL, 9, &got));
    say("a null buffer without capacity", doorvervain_read(one, "/long", 5, 0, NULL, 0, &got));
    say("a null count", doorvervain_read(one, "/long", 5, 0, buffer, 9, NULL));
    say("no volume", doorvervain_mkdir(NULL, "/d", 2, 0));
    say("a closed volume", doorvervain_mkdir(&closed, "/d", 2, 0));
    say("a closed tree", doorvervain_frozen_read(&closed_tree, "/long", 5, 0, buffer, 9, &got));
    say("no path", doorvervain_mkdir(one, "d", 1, 0));
    say("no name", doorvervain_snapshot(one, "a/b", 3));
    say("no shape", doorvervain_open(&closed, 1, DOORVERVAIN_PENDING, DOORVERVAIN_LEAF));
    say("as errno", (uint8_t)(doorvervain_errno(DOORVERVAIN_NULL) == EFAULT && doorvervain_errno(11) == ENOMEM));
    doorvervain_close(&closed);
    doorvervain_frozen_close(&closed_tree);
}

// A snapshot and a frozen tree stay as they were while the volume goes on.
static void moments(struct doorvervain *one, struct doorvervain *other) {
    struct doorvervain_frozen live = {0}, kept = {0};
    say("snapshot s", doorvervain_snapshot(one, "s", 1));
    say("snapshot s again", doorvervain_snapshot(one, "s", 1));
    say("write", put(one, "/long", 0, "THE FIRST"));
    say("freeze", doorvervain_freeze(one, &live));
    say("unlink", doorvervain_unlink(one, "/long", 5, 0));
    say("frozen s", doorvervain_open_snapshot(one, "s", 1, &kept));
    say("frozen s of the other", doorvervain_open_snapshot(other, "s", 1, &(struct doorvervain_frozen){0}));
    say_frozen_read("read of s", &kept, "/long");
    say_frozen_read("read of what was frozen", &live, "/long");
    say_stat("stat", one, "/long");
    say("restore s", doorvervain_restore(one, "s", 1));
    say_read("read", one, "/long", 0, CAPACITY);
    say("drop s", doorvervain_drop_snapshot(one, "s", 1));
    say("restore s again", doorvervain_restore(one, "s", 1));
    say_frozen_read("read of s that was dropped", &kept, "/long");
    doorvervain_frozen_close(&kept);
    doorvervain_frozen_close(&live);
}

// The mtime of a file, of a directory and of the root is set, and nothing else changes. A path that does not exist is refused.
static void mtimes(struct doorvervain *fs) {
    static const char *const paths[] = {"/long", "/d", "/"};
    say("mkdir /d", doorvervain_mkdir(fs, "/d", 2, 0));
    for (uint64_t i = 0; i < sizeof paths / sizeof *paths; i++) {
        say(paths[i], doorvervain_set_mtime(fs, paths[i], strlen(paths[i]), 70 + i));
        say_stat("stat", fs, paths[i]);
    }
    say("no entry", doorvervain_set_mtime(fs, "/none", 5, 70));
    say("below a file", doorvervain_set_mtime(fs, "/long/x", 7, 70));
    say("no path", doorvervain_set_mtime(fs, "long", 4, 70));
    say_entries("entries", fs, "/", CAPACITY);
}

// Many files, so that trees grow and are freed; steps of compaction between the calls change no result.
static void many(struct doorvervain *one) {
    char path[16];
    int refused = 0, found = 0;
    for (int i = 0; i < 2000; i++) {
        refused += make(one, (snprintf(path, sizeof path, "/f%d", i), path)) != 0;
        refused += put(one, path, 0, path) != 0;
        if (i % 10 == 0) doorvervain_compact(one, 4);
    }
    for (int i = 0; i < 2000; i++) {
        size_t got = 0, length = (size_t)snprintf(path, sizeof path, "/f%d", i);
        uint8_t number = doorvervain_read(one, path, length, 0, buffer, CAPACITY, &got);
        found += !number && got == length && !memcmp(buffer, path, length);
    }
    printf("many: %d refused, %d found\n", refused, found);
    while (doorvervain_compact(one, 100) == 100)
        continue;
    printf("compacted: %u\n", doorvervain_compact(one, 1));
}

#ifdef REFUSE
#include "refused_memory.h"

// Makes each allocation of a call that sets an mtime fail in turn: it returns ENOMEM, and the file keeps its mtime.
static void refused_mtime(struct doorvervain *one) {
    int refusals = 0, changed = 0;
    uint8_t number = DOORVERVAIN_ENOMEM, kind;
    uint64_t size, before = 0, after = 0;
    changed += doorvervain_stat(one, "/long", 5, &kind, &size, &before) != 0;
    for (long request = 1; number == DOORVERVAIN_ENOMEM; request++) {
        refused_request = request;
        number = doorvervain_set_mtime(one, "/long", 5, before + 1);
        refused_request = 0;
        changed += doorvervain_stat(one, "/long", 5, &kind, &size, &after) != 0;
        if (number == DOORVERVAIN_ENOMEM) refusals++, changed += after != before;
    }
    printf("an mtime without memory: %s, %d changed, then %d and %s\n", refusals ? "refused" : "not refused", changed, number,
        after == before + 1 ? "set" : "not set");
}

// Makes each allocation of a write fail in turn: it returns ENOMEM, and the volume is open and unchanged.
static void refused_memory(struct doorvervain *one) {
    int refusals = 0, changed = 0;
    uint8_t number = DOORVERVAIN_ENOMEM;
    for (long request = 1; number == DOORVERVAIN_ENOMEM; request++) {
        size_t got = 0;
        refused_request = request;
        number = put(one, "/long", 0, "WITHOUT MEMORY");
        refused_request = 0;
        uint8_t read = doorvervain_read(one, "/long", 5, 0, buffer, CAPACITY, &got);
        if (number == DOORVERVAIN_ENOMEM)
            refusals++, changed += read || got != 32 || memcmp(buffer, "the first", 9);
    }
    printf(
        "a write without memory: %s, %d changed, then %d\n", refusals ? "refused" : "not refused", changed, number);
    say_read("read", one, "/long", 0, 14);
    refused_mtime(one);
}
#else
static void refused_memory(struct doorvervain *one) {
    printf("a write without memory: not tried\n");
    say_read("read", one, "/long", 0, 14);
    printf("an mtime without memory: not tried\n");
}
#endif

static uint8_t load(struct doorvervain *fs, const void *text, size_t length, uint64_t *line) {
    return doorvervain_load(fs, DOORVERVAIN_FANOUT, DOORVERVAIN_PENDING, DOORVERVAIN_LEAF, text, length, line);
}

// An image is loaded, and the volume then has that image. For a text that is not an image its first bad line is returned.
static void images(void) {
    static const char text[] = "D / 5\nD /a 9\nF /a/f 3 7\nb 0 616263\n";
    struct doorvervain fs = {0};
    struct doorvervain_frozen tree = {0};
    uint64_t line = 0;
    size_t size = 0;
    say("load", load(&fs, text, strlen(text), &line));
    say_read("read", &fs, "/a/f", 0, CAPACITY);
    say("freeze", doorvervain_freeze(&fs, &tree));
    uint8_t number = doorvervain_image(&tree, buffer, CAPACITY, &size);
    int is_same = size == strlen(text) && memcmp(buffer, text, size) == 0;
    printf("image: %d, %s\n", number, is_same ? "the same" : "another one");
    doorvervain_frozen_close(&tree);
    doorvervain_close(&fs);
    say("load of no image", load(&fs, "d /\nx\n", 6, &line));
    printf("at line %d\n", (int)line);
}

int main(void) {
    struct doorvervain one = {0}, other = {0};
    say("open one", doorvervain_open(&one, DOORVERVAIN_FANOUT, DOORVERVAIN_PENDING, DOORVERVAIN_LEAF));
    say("open the other", doorvervain_open(&other, 4, 16, 4));
    calls(&one, &other);
    buffers(&one, &other);
    refusals(&one);
    moments(&one, &other);
    mtimes(&one);
    refused_memory(&one);
    images();
    many(&other);
    doorvervain_close(&one);
    say_read("read of the other, alone", &other, "/long", 0, CAPACITY);
    say("mkdir in one that is closed", doorvervain_mkdir(&one, "/d", 2, 0));
    doorvervain_close(&other);
    doorvervain_close(&other);
    return 0;
}
