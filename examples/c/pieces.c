// Writes and reads images in several buffers. It prints what it finds; examples/run compares that with pieces.expected, which was written by hand.
//
// Built with -DREFUSE (examples/run does so), it also has each allocation of a print and of a load fail in turn.
#include "doorvervain.h"
#include <stdio.h>
#include <stdlib.h>
#include <string.h>

enum { CAPACITY = 200000, BLOCK = 4096, LONG = 20 * BLOCK, OLD = 99, STOPPED = 5 };

// A text that a callback writes to or reads from, and how many bytes it moves before it stops.
struct text {
    uint8_t bytes[CAPACITY];
    size_t length, at, most;
};

static int put(void *context, const uint8_t *bytes, size_t count) {
    struct text *text = context;
    if (text->length + count > text->most) return STOPPED;
    memcpy(text->bytes + text->length, bytes, count);
    text->length += count;
    return 0;
}

static int get(void *context, uint8_t *out, size_t capacity, size_t *got) {
    struct text *text = context;
    if (text->at >= text->most) return STOPPED;
    *got = text->length - text->at < capacity ? text->length - text->at : capacity;
    memcpy(out, text->bytes + text->at, *got);
    text->at += *got;
    return 0;
}

// A directory, a file of 20 full blocks, and one after it.
static uint8_t fill(struct doorvervain *fs) {
    static uint8_t bytes[LONG];
    memset(bytes, 'x', sizeof bytes);
    uint8_t number = doorvervain_mkdir(fs, "/a", 2, 1);
    if (!number) number = doorvervain_create(fs, "/a/f", 4, 2);
    if (!number) number = doorvervain_write(fs, "/a/f", 4, 0, bytes, sizeof bytes, 3);
    return number ? number : doorvervain_create(fs, "/z", 2, 4);
}

// The image of the live tree in pieces of the given number of bytes.
static uint8_t image_by(struct doorvervain *fs, size_t capacity, struct text *text, int *failed) {
    static uint8_t buffer[CAPACITY];
    struct doorvervain_frozen tree = {0};
    text->length = text->at = 0;
    uint8_t number = doorvervain_freeze(fs, &tree);
    if (!number) number = doorvervain_image_write(&tree, buffer, capacity, put, text, failed);
    return tree.ptr ? OLD : number;
}

static uint8_t load_by(struct doorvervain *fs, size_t capacity, struct text *text, int *failed, uint64_t *line) {
    static uint8_t buffer[CAPACITY];
    text->at = 0;
    return doorvervain_load_read(fs, 16, 256, 256, buffer, capacity, get, text, failed, line);
}

// The image at once, the image in pieces, and the image of what is loaded from such pieces.
static void goes(struct doorvervain *fs, size_t capacity) {
    static struct text whole, pieces, again;
    struct doorvervain_frozen tree = {0};
    struct doorvervain loaded = {0};
    int failed = OLD;
    uint64_t line = OLD;
    whole.most = pieces.most = again.most = CAPACITY;
    uint8_t number = doorvervain_freeze(fs, &tree);
    if (!number) number = doorvervain_image(&tree, whole.bytes, CAPACITY, &whole.length);
    doorvervain_frozen_close(&tree);
    printf("in pieces of %zu: %d", capacity, number);
    printf(", printed %d", image_by(fs, capacity, &pieces, &failed));
    printf(", %s", pieces.length == whole.length && !memcmp(pieces.bytes, whole.bytes, whole.length) ? "the same" : "another one");
    printf(", loaded %d", load_by(&loaded, capacity, &pieces, &failed, &line));
    printf(" at line %llu", (unsigned long long)line);
    printf(", printed %d", image_by(&loaded, CAPACITY, &again, &failed));
    printf(", %s\n", again.length == whole.length && !memcmp(again.bytes, whole.bytes, whole.length) ? "the same" : "another one");
    doorvervain_close(&loaded);
}

// Callbacks that stop.
static void stops(struct doorvervain *fs) {
    static struct text text;
    struct doorvervain loaded = {&loaded, &loaded};
    int failed = OLD;
    uint64_t line = OLD;
    text.most = 100;
    uint8_t number = image_by(fs, 64, &text, &failed);
    printf("stopped print: %d, stopped by %d behind %zu bytes\n", number, failed, text.length);
    text.most = CAPACITY;
    (void)image_by(fs, 64, &text, &failed);
    text.most = 100;
    number = load_by(&loaded, 64, &text, &failed, &line);
    printf("stopped load: %d, stopped by %d, line %llu, %s\n", number, failed, (unsigned long long)line,
        loaded.ptr ? "open" : "closed");
    number = image_by(fs, 0, &text, &failed);
    printf("no capacity: %d, %d\n", number, load_by(&loaded, 0, &text, &failed, &line));
}

// A text that is not an image, piece by piece.
static void refusals(void) {
    struct doorvervain fs = {&fs, &fs};
    struct doorvervain_loader loading = {0};
    uint64_t line = OLD;
    uint8_t number = doorvervain_load_begin(&loading, 3, 256, 256);
    printf("a bad shape: %d, %s\n", number, loading.ptr ? "open" : "closed");
    printf("begin: %d", doorvervain_load_begin(&loading, 16, 256, 256));
    number = doorvervain_load_feed(&loading, "D / 0\nD /", 9, &line);
    printf(", a piece: %d at line %llu", number, (unsigned long long)line);
    number = doorvervain_load_feed(&loading, "a 0\nx\nD", 7, &line);
    printf(", a bad one: %d at line %llu", number, (unsigned long long)line);
    number = doorvervain_load_feed(&loading, "D / 0\n", 6, &line);
    printf(", one behind it: %d at line %llu", number, (unsigned long long)line);
    number = doorvervain_load_finish(&fs, &loading, &line);
    printf(", the end: %d at line %llu, %s, %s\n", number, (unsigned long long)line, fs.ptr ? "open" : "closed",
        loading.ptr ? "open" : "closed");
    (void)doorvervain_load_begin(&loading, 16, 256, 256);
    (void)doorvervain_load_feed(&loading, "D / 0\nD /a", 10, &line);
    number = doorvervain_load_finish(&fs, &loading, &line);
    printf("a line that is cut: %d at line %llu\n", number, (unsigned long long)line);
    (void)doorvervain_load_begin(&loading, 16, 256, 256);
    doorvervain_load_abort(&loading);
    printf("dropped: %s\n", loading.ptr ? "open" : "closed");
}

// What is returned if something is null or closed.
static void lacks(void) {
    struct doorvervain fs = {0};
    struct doorvervain_frozen closed_tree = {0};
    struct doorvervain_printer printing = {0};
    struct doorvervain_loader loading = {0};
    uint8_t buffer[1];
    size_t size = OLD;
    uint64_t line = OLD;
    printf("null: %d, %d, %d, %d\n", doorvervain_print_begin(NULL, &closed_tree), doorvervain_print_next(NULL, buffer, 1, &size),
        doorvervain_load_feed(NULL, buffer, 1, &line), doorvervain_load_finish(NULL, &loading, &line));
    printf("closed: %d, %d, %d, %d\n", doorvervain_print_begin(&printing, &closed_tree),
        doorvervain_print_next(&printing, buffer, 1, &size), doorvervain_load_feed(&loading, buffer, 1, &line),
        doorvervain_load_finish(&fs, &loading, &line));
    doorvervain_print_end(&printing);
    doorvervain_load_abort(&loading);
}

#ifdef REFUSE
#include "refused_memory.h"

// Makes each allocation of a print fail in turn. A call that failed is repeated: the image is the same.
static void print_without_memory(struct doorvervain *fs) {
    static struct text whole, pieces;
    static uint8_t buffer[CAPACITY];
    int failed, refusals = 0, others = 0;
    whole.most = pieces.most = CAPACITY;
    (void)image_by(fs, CAPACITY, &whole, &failed);
    for (long request = 1; request <= 400; request++) {
        struct doorvervain_frozen tree = {0};
        struct doorvervain_printer printing = {0};
        size_t count = OLD;
        pieces.length = 0;
        (void)doorvervain_freeze(fs, &tree);
        refused_request = request;
        uint8_t number = doorvervain_print_begin(&printing, &tree);
        if (number) {
            refusals++;
            refused_request = 0;
            others += number != DOORVERVAIN_ENOMEM || printing.ptr || tree.ptr;
            continue;
        }
        while (count) {
            number = doorvervain_print_next(&printing, buffer, BLOCK, &count);
            refusals += number != 0;
            others += number && (number != DOORVERVAIN_ENOMEM || count);
            if (number) count = OLD;
            else (void)put(&pieces, buffer, count);
        }
        refused_request = 0;
        doorvervain_print_end(&printing);
        others += pieces.length != whole.length || memcmp(pieces.bytes, whole.bytes, whole.length);
    }
    printf("a print without memory: %s, %d others\n", refusals ? "refused" : "not refused", others);
}

// Makes each allocation of a load fail in turn: it returns ENOMEM, and there is no volume.
static void load_without_memory(struct doorvervain *fs) {
    static struct text text;
    struct doorvervain loaded = {0};
    uint8_t number = DOORVERVAIN_ENOMEM;
    int failed, refusals = 0, others = 0;
    uint64_t line = OLD;
    text.most = CAPACITY;
    (void)image_by(fs, CAPACITY, &text, &failed);
    for (long request = 1; number == DOORVERVAIN_ENOMEM; request++) {
        refused_request = request;
        number = load_by(&loaded, BLOCK, &text, &failed, &line);
        refused_request = 0;
        refusals += number != 0;
        others += number && (loaded.ptr || line || failed);
    }
    printf("a load without memory: %s, %d others, then %d\n", refusals ? "refused" : "not refused", others, number);
    doorvervain_close(&loaded);
}

static void refused_memory(struct doorvervain *fs) {
    print_without_memory(fs);
    load_without_memory(fs);
}
#else
static void refused_memory(struct doorvervain *fs) { (void)fs; }
#endif

int main(void) {
    struct doorvervain fs = {0};
    printf("open: %d\n", doorvervain_open(&fs, 16, 256, 256));
    goes(&fs, 1);
    printf("fill: %d\n", fill(&fs));
    goes(&fs, 1);
    goes(&fs, 7);
    goes(&fs, BLOCK);
    goes(&fs, CAPACITY);
    stops(&fs);
    refusals();
    lacks();
    refused_memory(&fs);
    doorvervain_close(&fs);
    return EXIT_SUCCESS;
}
