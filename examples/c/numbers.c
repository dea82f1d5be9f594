// Compares each number of the header with the archive, and prints what a call that fails leaves in its other results. It prints what
// it finds; examples/run compares that with numbers.expected, and the numbers there with those of the header.
//
// It calls the symbols of the archive where it can: the functions of the header set most results before they call. It is
// linked with --wrap=malloc and --wrap=realloc, so that it can make allocations fail.
#include "doorvervain.h"
#include "refused_memory.h"
#include <stdbool.h>
#include <stdio.h>
#include <string.h>

enum { CAPACITY = 64, SNAPSHOTS = 64, LONGEST_NAME = 255, OLD = 99, GUARD = 0xA5 };

// The greatest length of a file.
static const uint64_t GREATEST = (uint64_t)1 << 40;

// Lets allocations succeed again, and returns its argument.
static uint8_t without_memory(uint8_t answer) {
    refused_request = 0;
    return answer;
}

static const uint8_t *bytes_of(const char *text) { return (const uint8_t *)text; }

static uint8_t make_directory(struct doorvervain *fs, const char *path) {
    return doorvervain_raw_mkdir(fs, bytes_of(path), strlen(path), 3);
}

static uint8_t make_file(struct doorvervain *fs, const char *path) {
    return doorvervain_raw_create(fs, bytes_of(path), strlen(path), 5);
}

static uint8_t remove_directory(struct doorvervain *fs, const char *path) {
    return doorvervain_raw_rmdir(fs, bytes_of(path), strlen(path), 7);
}

static uint8_t cut(struct doorvervain *fs, const char *path, uint64_t size) {
    return doorvervain_raw_truncate(fs, bytes_of(path), strlen(path), size, 9);
}

// The kind of the entry at a path, DOORVERVAIN_DIRECTORY or DOORVERVAIN_FILE.
static uint8_t kind_of(struct doorvervain *fs, const char *path) {
    uint8_t kind = OLD;
    uint64_t size, modified;
    (void)doorvervain_raw_stat(fs, bytes_of(path), strlen(path), &kind, &size, &modified);
    return kind;
}

// A name of one byte too many, as a path.
static const char *too_long(void) {
    static char path[LONGEST_NAME + 3] = "/";
    memset(path + 1, 'n', LONGEST_NAME + 1);
    return path;
}

// Takes snapshots until all names are taken, and prints how many: returns what one more returned.
static uint8_t one_snapshot_more(struct doorvervain *fs) {
    char name[8];
    int taken = 0;
    uint8_t number = DOORVERVAIN_DONE;
    while (!number && taken <= SNAPSHOTS) {
        size_t length = (size_t)snprintf(name, sizeof name, "s%d", taken);
        number = doorvervain_raw_snapshot(fs, bytes_of(name), length);
        taken += !number;
    }
    printf("snapshots: %d\n", taken);
    return number;
}

// A listing of the root into a buffer of one byte.
static uint8_t list_into_a_byte(struct doorvervain *fs) {
    uint8_t byte;
    size_t size;
    return doorvervain_raw_readdir(fs, bytes_of("/"), 1, &byte, sizeof byte, &size);
}

// A volume of the usual shape.
static uint8_t open_usual(struct doorvervain *fs) {
    return doorvervain_open(fs, DOORVERVAIN_FANOUT, DOORVERVAIN_PENDING, DOORVERVAIN_LEAF);
}

// ---- the numbers of the header

// Prints a number of the header, and whether it is the one that the archive returns.
static void read_number(const char *name, uint8_t header, uint8_t answer) {
    printf("DOORVERVAIN_%s = %d", name, header);
    if (answer != header) printf(", and %d was answered", answer);
    printf("\n");
}

// Prints the number of an outcome in the same way, and whether the system's number is the one of that name.
static void read_outcome(const char *name, uint8_t header, int system, uint8_t answer) {
    if (doorvervain_errno(header) != system) printf("not the system's: ");
    read_number(name, header, answer);
}

#define READ_REFUSAL(name, answer) read_outcome(#name, DOORVERVAIN_##name, name, answer)

static void read_numbers(struct doorvervain *fs) {
    struct doorvervain closed = {0};
    read_outcome("DONE", DOORVERVAIN_DONE, 0, make_directory(fs, "/d") + make_file(fs, "/d/f"));
    READ_REFUSAL(ENOENT, make_directory(fs, "/none/d"));
    READ_REFUSAL(ENOTDIR, make_directory(fs, "/d/f/d"));
    READ_REFUSAL(EISDIR, cut(fs, "/d", 0));
    READ_REFUSAL(EEXIST, make_directory(fs, "/d"));
    READ_REFUSAL(ENOTEMPTY, remove_directory(fs, "/d"));
    READ_REFUSAL(EPERM, doorvervain_raw_unlink(fs, bytes_of("/d"), 2, 0));
    READ_REFUSAL(EINVAL, make_directory(fs, "d"));
    READ_REFUSAL(ENAMETOOLONG, make_directory(fs, too_long()));
    READ_REFUSAL(EFBIG, cut(fs, "/d/f", GREATEST + 1));
    READ_REFUSAL(EBUSY, remove_directory(fs, "/"));
    refused_request = ALL_REQUESTS;
    READ_REFUSAL(ENOMEM, without_memory(make_directory(fs, "/e")));
    READ_REFUSAL(ENOSPC, one_snapshot_more(fs));
    READ_REFUSAL(ERANGE, list_into_a_byte(fs));
    read_outcome("NULL", DOORVERVAIN_NULL, EFAULT, doorvervain_mkdir(fs, NULL, 3, 0));
    read_outcome("CLOSED", DOORVERVAIN_CLOSED, EBADF, doorvervain_mkdir(&closed, "/e", 2, 0));
    read_number("DIRECTORY", DOORVERVAIN_DIRECTORY, kind_of(fs, "/d"));
    read_number("FILE", DOORVERVAIN_FILE, kind_of(fs, "/d/f"));
}

// The usual shape: a volume of it was opened. examples/run compares its numbers with the crate's.
static void say_shape(void) {
    printf("DOORVERVAIN_FANOUT = %d\n", DOORVERVAIN_FANOUT);
    printf("DOORVERVAIN_PENDING = %d\n", DOORVERVAIN_PENDING);
    printf("DOORVERVAIN_LEAF = %d\n", DOORVERVAIN_LEAF);
}

// ---- what read-only calls leave in their results

static void say_stat(const char *what, struct doorvervain *fs, struct doorvervain_frozen *tree, const char *path) {
    uint8_t kind = OLD;
    uint64_t size = OLD, modified = OLD;
    size_t length = strlen(path);
    uint8_t number = tree ? doorvervain_raw_frozen_stat(tree, bytes_of(path), length, &kind, &size, &modified)
                          : doorvervain_raw_stat(fs, bytes_of(path), length, &kind, &size, &modified);
    printf("%s: %d, kind %d, %llu bytes, mtime %llu\n", what, number, kind, (unsigned long long)size,
        (unsigned long long)modified);
}

static void say_count(const char *what, uint8_t number, size_t count) { printf("%s: %d, %zu bytes\n", what, number, count); }

static void look(struct doorvervain *fs, struct doorvervain_frozen *tree) {
    uint8_t buffer[CAPACITY];
    size_t count = OLD;
    say_stat("stat of a directory", fs, NULL, "/d");
    say_stat("stat of a file", fs, NULL, "/d/f");
    say_stat("stat of nothing", fs, NULL, "/none");
    say_stat("frozen stat of a directory", fs, tree, "/d");
    say_stat("frozen stat of nothing", fs, tree, "/none");
    uint8_t number = doorvervain_raw_read(fs, bytes_of("/d"), 2, 0, buffer, CAPACITY, &count);
    say_count("read of a directory", number, count);
    count = OLD;
    number = doorvervain_raw_frozen_read(tree, bytes_of("/d"), 2, 0, buffer, CAPACITY, &count);
    say_count("frozen read of a directory", number, count);
    count = OLD;
    number = doorvervain_raw_readdir(fs, bytes_of("/d/f"), 4, buffer, CAPACITY, &count);
    say_count("readdir of a file", number, count);
    count = OLD;
    number = doorvervain_raw_frozen_readdir(tree, bytes_of("/d/f"), 4, buffer, CAPACITY, &count);
    say_count("frozen readdir of a file", number, count);
    count = OLD;
    refused_request = ALL_REQUESTS;
    number = without_memory(doorvervain_raw_image(tree, buffer, CAPACITY, &count));
    say_count("image without memory", number, count);
}

// ---- texts that go into a buffer with enough capacity, with too little, and with none

// A call that returns a text: a listing, an image, or the name of a snapshot.
struct asked {
    const char *what;
    uint8_t (*call)(void *at, uint8_t *out, size_t capacity, size_t *size);
    void *at;
};

static uint8_t list_root(void *at, uint8_t *out, size_t capacity, size_t *size) {
    return doorvervain_raw_readdir(at, bytes_of("/"), 1, out, capacity, size);
}

static uint8_t list_frozen_root(void *at, uint8_t *out, size_t capacity, size_t *size) {
    return doorvervain_raw_frozen_readdir(at, bytes_of("/"), 1, out, capacity, size);
}

static uint8_t print(void *at, uint8_t *out, size_t capacity, size_t *size) {
    return doorvervain_raw_image(at, out, capacity, size);
}

static uint8_t name_first(void *at, uint8_t *out, size_t capacity, size_t *size) {
    return doorvervain_raw_snapshot_name(at, 0, out, capacity, size);
}

// How many bytes at the front of a buffer are no longer its guards.
static size_t changed_in(const uint8_t *buffer) {
    size_t count = CAPACITY;
    while (count && buffer[count - 1] == GUARD) count--;
    return count;
}

static void say_capacity(struct asked asked, const char *which, size_t capacity) {
    uint8_t buffer[CAPACITY];
    size_t size = OLD;
    memset(buffer, GUARD, sizeof buffer);
    uint8_t number = asked.call(asked.at, buffer, capacity, &size);
    printf("%s with %s: %d, %zu bytes, %zu written\n", asked.what, which, number, size, changed_in(buffer));
}

static void say_rooms(struct asked asked) {
    size_t size = OLD;
    (void)asked.call(asked.at, (uint8_t *)&size, 0, &size);
    say_capacity(asked, "no capacity", 0);
    say_capacity(asked, "a byte too little", size - 1);
    say_capacity(asked, "just enough capacity", size);
    say_capacity(asked, "more capacity", CAPACITY);
}

static void fill_buffers(struct doorvervain *fs, struct doorvervain_frozen *tree) {
    say_rooms((struct asked){"listing", list_root, fs});
    say_rooms((struct asked){"frozen listing", list_frozen_root, tree});
    say_rooms((struct asked){"image", print, tree});
    say_rooms((struct asked){"name of a snapshot", name_first, fs});
}

// The first names of the snapshots in order, and what is returned past the last.
static void say_names(struct doorvervain *fs) {
    uint8_t name[CAPACITY];
    size_t count = 0, size = OLD;
    printf("names:");
    while (!doorvervain_snapshot_name(fs, count, name, sizeof name, &size)) {
        if (count < 4) printf(" %.*s", (int)size, (const char *)name);
        count++;
    }
    size = OLD;
    uint8_t number = doorvervain_raw_snapshot_name(fs, count, name, sizeof name, &size);
    printf(" ..\nname %zu: %d, %zu bytes\n", count, number, size);
    size = OLD;
    number = doorvervain_raw_snapshot_name(fs, SIZE_MAX, name, sizeof name, &size);
    printf("last number: %d, %zu bytes\n", number, size);
}

// ---- what calls that create a volume or a tree leave in their out-parameters

static const char *state_of(const void *at) { return at ? "open" : "closed"; }

static void say_open(const char *what, uint16_t fanout, uint16_t pending, uint16_t leaf, bool no_memory) {
    struct doorvervain fs = {.ptr = &fs};
    refused_request = no_memory ? ALL_REQUESTS : 0;
    uint8_t number = without_memory(doorvervain_raw_open(fanout, pending, leaf, &fs));
    printf("%s: %d, %s\n", what, number, state_of(fs.ptr));
    if (!number) doorvervain_close(&fs);
}

static void say_load(const char *what, const char *text, uint16_t fanout, uint16_t pending, uint16_t leaf, bool no_memory) {
    struct doorvervain fs = {.ptr = &fs};
    uint64_t line = OLD;
    refused_request = no_memory ? ALL_REQUESTS : 0;
    uint8_t number = without_memory(doorvervain_raw_load(fanout, pending, leaf, bytes_of(text), strlen(text), &line, &fs));
    printf("%s: %d at line %llu, %s\n", what, number, (unsigned long long)line, state_of(fs.ptr));
    if (!number) doorvervain_close(&fs);
}

static void make(void) {
    static const char image[] = "D / 5\nD /a 9\nF /a/f 3 7\nb 0 616263\n";
    say_open("open of the least shape", 4, 4, 4, false);
    say_open("open of the greatest shape", 64, 1024, 1024, false);
    say_open("open of too few children", 3, 256, 256, false);
    say_open("open of too few messages", 16, 15, 256, false);
    say_open("open of too few entries", 16, 256, 3, false);
    say_open("open without memory", 16, 256, 256, true);
    say_load("load", image, 16, 256, 256, false);
    say_load("load of too few children", image, 3, 256, 256, false);
    say_load("load of too few messages", image, 16, 15, 256, false);
    say_load("load of too few entries", image, 16, 256, 3, false);
    say_load("load of a bad shape without memory", image, 3, 256, 256, true);
    say_load("load of no image", "", 16, 256, 256, false);
    say_load("load of a bad third line", "D / 5\nD /a 9\nd /b\n", 16, 256, 256, false);
    say_load("load without memory", image, 16, 256, 256, true);
}

// ---- images in several buffers

static void say_begin(const char *what, uint16_t fanout, uint16_t pending, uint16_t leaf, bool no_memory) {
    struct doorvervain_loader loading = {&loading};
    refused_request = no_memory ? ALL_REQUESTS : 0;
    uint8_t number = without_memory(doorvervain_raw_load_begin(fanout, pending, leaf, &loading));
    printf("%s: %d, %s\n", what, number, state_of(loading.ptr));
    if (!number) doorvervain_load_abort(&loading);
}

static void say_piece(const char *what, struct doorvervain_loader *loading, const char *text) {
    uint64_t line = OLD;
    uint8_t number = doorvervain_raw_load_feed(loading, bytes_of(text), strlen(text), &line);
    printf("%s: %d at line %llu\n", what, number, (unsigned long long)line);
}

static void say_end(const char *what, struct doorvervain_loader loading, bool no_memory) {
    struct doorvervain fs = {.ptr = &fs};
    uint64_t line = OLD;
    refused_request = no_memory ? ALL_REQUESTS : 0;
    uint8_t number = without_memory(doorvervain_raw_load_finish(loading, &line, &fs));
    printf("%s: %d at line %llu, %s\n", what, number, (unsigned long long)line, state_of(fs.ptr));
    if (!number) doorvervain_close(&fs);
}

static void load_pieces(void) {
    struct doorvervain_loader loading = {0};
    say_begin("begin of a load", 16, 256, 256, false);
    say_begin("begin with too few children", 3, 256, 256, false);
    say_begin("begin with too few messages", 16, 15, 256, false);
    say_begin("begin with too few entries", 16, 256, 3, true);
    say_begin("begin without memory", 16, 256, 256, true);
    (void)doorvervain_load_begin(&loading, 16, 256, 256);
    say_piece("a piece", &loading, "D / 5\nD");
    say_piece("a bad one", &loading, " /a\n");
    say_piece("one behind it", &loading, "");
    say_end("the end", loading, false);
    (void)doorvervain_load_begin(&loading, 16, 256, 256);
    say_end("the end of no text", loading, false);
    (void)doorvervain_load_begin(&loading, 16, 256, 256);
    say_piece("an image", &loading, "D / 5\n");
    say_end("its end without memory", loading, true);
}

static void print_pieces(struct doorvervain *fs) {
    struct doorvervain_frozen tree = {0};
    struct doorvervain_printer printing = {&printing};
    uint8_t buffer[CAPACITY];
    size_t size = OLD;
    (void)doorvervain_freeze(fs, &tree);
    refused_request = ALL_REQUESTS;
    uint8_t number = without_memory(doorvervain_raw_print_begin(tree, &printing));
    printf("begin of a print without memory: %d, %s\n", number, state_of(printing.ptr));
    (void)doorvervain_freeze(fs, &tree);
    number = doorvervain_raw_print_begin(tree, &printing);
    printf("begin of a print: %d, %s\n", number, state_of(printing.ptr));
    number = doorvervain_raw_print_next(&printing, buffer, 0, &size);
    say_count("piece without capacity", number, size);
    number = doorvervain_raw_print_next(&printing, buffer, CAPACITY, &size);
    printf("first piece: %d, begins as %.4s\n", number, (const char *)buffer);
    size = OLD;
    refused_request = ALL_REQUESTS;
    number = without_memory(doorvervain_raw_print_next(&printing, buffer, CAPACITY, &size));
    say_count("piece without memory", number, size);
    number = doorvervain_raw_print_next(&printing, buffer, 3, &size);
    say_count("the same with memory", number, size);
    doorvervain_print_end(&printing);
}

static void freeze(struct doorvervain *fs) {
    struct doorvervain_frozen tree = {&tree};
    uint8_t number = doorvervain_raw_open_snapshot(fs, bytes_of("none"), 4, &tree);
    printf("frozen of no snapshot: %d, %s\n", number, state_of(tree.ptr));
    tree.ptr = &tree;
    refused_request = ALL_REQUESTS;
    number = without_memory(doorvervain_raw_freeze(fs, &tree));
    printf("freeze without memory: %d, %s\n", number, state_of(tree.ptr));
    number = doorvervain_raw_open_snapshot(fs, bytes_of("s0"), 2, &tree);
    printf("frozen of a snapshot: %d, %s\n", number, state_of(tree.ptr));
    doorvervain_frozen_close(&tree);
}

// ---- what the functions of the header leave in their results if another one is null

static void leave_out(struct doorvervain *fs) {
    struct doorvervain loaded = {&loaded, &loaded};
    uint8_t kind = OLD;
    uint64_t size = OLD, line = OLD;
    uint8_t number = doorvervain_stat(fs, "/d", 2, &kind, &size, NULL);
    printf("stat without a mtime: %d, kind %d, %llu bytes\n", number, kind, (unsigned long long)size);
    number = doorvervain_load(&loaded, 16, 256, 256, NULL, 9, &line);
    printf("load of a null text: %d at line %llu, %s\n", number, (unsigned long long)line, state_of(loaded.ptr));
    loaded.ptr = &loaded;
    number = doorvervain_load(&loaded, 16, 256, 256, "D / 5\n", 6, NULL);
    printf("load without a line: %d, %s\n", number, state_of(loaded.ptr));
}

// What is returned for a null volume or tree, and for a closed one.
static void lack(void) {
    struct doorvervain closed = {0};
    struct doorvervain_frozen closed_tree = {0};
    uint8_t buffer[CAPACITY];
    size_t size = OLD;
    printf("no volume: %d and %u steps, and a closed one: %d and %u steps\n", doorvervain_snapshot(NULL, "x", 1),
        doorvervain_compact(NULL, 1), doorvervain_snapshot(&closed, "x", 1), doorvervain_compact(&closed, 1));
    printf("no tree: %d, and a closed one: %d\n", doorvervain_image(NULL, buffer, CAPACITY, &size),
        doorvervain_image(&closed_tree, buffer, CAPACITY, &size));
    printf("name in a closed volume: %d, %zu bytes\n", doorvervain_snapshot_name(&closed, 0, buffer, CAPACITY, &size), size);
    printf("name without a size: %d\n", doorvervain_snapshot_name(&closed, 0, buffer, CAPACITY, NULL));
}

int main(void) {
    struct doorvervain fs = {0};
    struct doorvervain_frozen tree = {0};
    if (open_usual(&fs)) return 1;
    read_numbers(&fs);
    say_shape();
    if (doorvervain_freeze(&fs, &tree)) return 1;
    look(&fs, &tree);
    fill_buffers(&fs, &tree);
    say_names(&fs);
    make();
    load_pieces();
    print_pieces(&fs);
    freeze(&fs);
    leave_out(&fs);
    lack();
    doorvervain_frozen_close(&tree);
    doorvervain_close(&fs);
    return 0;
}
