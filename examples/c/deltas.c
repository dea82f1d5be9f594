// Lists the paths at which trees of a volume differ, prints deltas and edits between them, and applies them. It prints what it finds;
// examples/run compares that with deltas.expected, which was written by hand.
//
// Built with -DREFUSE (examples/run does so), it also has each allocation of a call fail in turn.
#include "doorvervain.h"
#include <stdio.h>
#include <stdlib.h>
#include <string.h>

enum { CAPACITY = 4096, OLD = 99 };

static uint8_t text[CAPACITY];

static const uint8_t *bytes_of(const char *words) { return (const uint8_t *)words; }

static uint8_t load(struct doorvervain *fs, const char *image) {
    uint64_t line = OLD;
    return doorvervain_load(
        fs, DOORVERVAIN_FANOUT, DOORVERVAIN_PENDING, DOORVERVAIN_LEAF, image, strlen(image), &line);
}

static uint8_t delta(struct doorvervain *fs, const char *from, const char *to, size_t capacity, size_t *size) {
    return doorvervain_delta(fs, from, strlen(from), to, strlen(to), text, capacity, size);
}

static uint8_t apply(struct doorvervain *fs, const char *words, uint64_t *line) {
    return doorvervain_apply_delta(fs, words, strlen(words), line);
}

static void say_delta(struct doorvervain *fs, const char *from, const char *to) {
    size_t size = OLD;
    uint8_t number = delta(fs, from, to, CAPACITY, &size);
    printf("from '%s' to '%s': %d\n%.*s", from, to, number, (int)size, (const char *)text);
}

static uint8_t changed(struct doorvervain *fs, const char *from, const char *to, size_t capacity, size_t *size) {
    return doorvervain_changed_paths(fs, from, strlen(from), to, strlen(to), text, capacity, size);
}

static void say_changed(struct doorvervain *fs, const char *from, const char *to) {
    size_t size = OLD;
    uint8_t number = changed(fs, from, to, CAPACITY, &size);
    printf("changed from '%s' to '%s': %d", from, to, number);
    for (const char *path = (const char *)text; path < (const char *)text + size; path += strlen(path) + 1)
        printf(" %s", path);
    printf("\n");
}

static uint8_t image_of(struct doorvervain *fs, uint8_t *image, size_t *size) {
    struct doorvervain_frozen tree = {0};
    uint8_t number = doorvervain_freeze(fs, &tree);
    if (!number) number = doorvervain_image(&tree, image, CAPACITY, size);
    doorvervain_frozen_close(&tree);
    return number;
}

static void say_image(struct doorvervain *fs) {
    static uint8_t image[CAPACITY];
    size_t size = 0;
    uint8_t number = image_of(fs, image, &size);
    printf("image: %d\n%.*s", number, (int)size, (const char *)image);
}

// A snapshot, a change after it, and the delta between them.
static void differences(struct doorvervain *fs) {
    printf("load: %d\n", load(fs, "D / 5\nF /a 3 7\nb 0 616263\nD /d 8\nF /d/x 1 9\nb 0 31\nF /z 0 3\n"));
    printf("snapshot: %d\n", doorvervain_snapshot(fs, "s", 1));
    printf("write: %d\n", doorvervain_write(fs, "/a", 2, 2, "d", 1, 9));
    say_delta(fs, "s", "s");
    say_delta(fs, "", "s");
    say_delta(fs, "s", "");
    say_changed(fs, "s", "s");
    say_changed(fs, "s", "");
    printf("rmtree: %d\n", doorvervain_rmtree(fs, "/d", 2, 10));
    say_changed(fs, "", "s");
    printf("restore: %d\n", doorvervain_restore(fs, "s", 1));
    say_changed(fs, "s", "");
    printf("write: %d\n", doorvervain_write(fs, "/a", 2, 2, "d", 1, 9));
}

// The text is written if it fits, and its size is returned.
static void rooms(struct doorvervain *fs) {
    size_t size = OLD;
    uint8_t none = delta(fs, "s", "", 0, &size);
    printf("no capacity: %d, size %zu\n", none, size);
    memset(text, 'x', CAPACITY);
    printf("a byte too little: %d", delta(fs, "s", "", size - 1, &size));
    printf(", size %zu, %s\n", size, text[0] == 'x' ? "nothing written" : "written");
    uint8_t enough = delta(fs, "s", "", size, &size);
    printf("just enough: %d, size %zu, %s\n", enough, size, text[size] == 'x' ? "nothing behind" : "written behind");
    memset(text, 'x', CAPACITY);
    printf("paths, a byte too little: %d", changed(fs, "s", "", 2, &size));
    printf(", size %zu, %s\n", size, text[0] == 'x' ? "nothing written" : "written");
    enough = changed(fs, "s", "", size, &size);
    printf("paths, just enough: %d, size %zu, %s\n", enough, size, text[size] == 'x' ? "nothing behind" : "written behind");
}

// Applied to a volume with the first tree, the delta makes the second, without snapshots. With another tree it fails.
static void applied(struct doorvervain *fs) {
    size_t size = OLD;
    uint64_t line = OLD;
    uint8_t number = delta(fs, "s", "", CAPACITY, &size);
    printf("delta: %d\n", number);
    number = doorvervain_apply_delta(fs, text, size, &line);
    printf("to the tree that it makes: %d, line %llu\n", number, (unsigned long long)line);
    printf("restore: %d\n", doorvervain_restore(fs, "s", 1));
    number = doorvervain_apply_delta(fs, text, size, &line);
    printf("to the tree that it is of: %d, line %llu\n", number, (unsigned long long)line);
    say_image(fs);
    printf("restore: %d\n", doorvervain_restore(fs, "s", 1));
}

static void say_refusal(struct doorvervain *fs, const char *what, const char *words) {
    uint64_t line = OLD;
    uint8_t number = doorvervain_raw_apply_delta(fs, bytes_of(words), strlen(words), &line);
    printf("%s: %d, line %llu\n", what, number, (unsigned long long)line);
}

// The first line of a delta from the tree of FIRST.
#define FIRST "delta 1 e00440c4873f9dacaf51b6b07e14b86dec6351ba50cc8f6e10515de683a2b4c1\n"

static void refusals(struct doorvervain *fs) {
    struct doorvervain closed = {0};
    size_t size = OLD;
    uint64_t line = OLD;
    printf("load: %d\n", load(fs, "D / 5\nF /a 3 7\nb 0 616263\nD /d 8\nF /d/x 1 9\nb 0 31\nF /z 0 3\n"));
    say_refusal(fs, "no text", "");
    say_refusal(fs, "no command", FIRST "= 7\n* 1\nend\n");
    say_refusal(fs, "no end", FIRST "= 7\n");
    say_refusal(fs, "too few lines", FIRST "= 6\nend\n");
    say_refusal(fs, "no root", FIRST "- 7\nend\n");
    say_refusal(fs, "all stays", FIRST "= 7\nend\n");
    uint8_t number = doorvervain_raw_delta(fs, bytes_of("no"), 2, text, 0, text, CAPACITY, &size);
    printf("no snapshot: %d, size %zu\n", number, size);
    printf("no snapshot for paths: %d", changed(fs, "no", "a/b", CAPACITY, &size));
    printf(", size %zu\n", size);
    printf("no volume for paths: %d, %d\n", changed(NULL, "", "", CAPACITY, &size), changed(&closed, "", "", CAPACITY, &size));
    printf("null for paths: %d, %d\n", doorvervain_changed_paths(fs, NULL, 1, NULL, 0, text, CAPACITY, &size),
        doorvervain_changed_paths(fs, NULL, 0, NULL, 0, text, CAPACITY, NULL));
    printf("no name: %d", delta(fs, "", "a/b", CAPACITY, &size));
    printf(", size %zu\n", size);
    printf("two bad names: %d", delta(fs, "a/b", "no", CAPACITY, &size));
    printf(", %d\n", delta(fs, "no", "a/b", CAPACITY, &size));
    printf("no volume: %d, %d\n", delta(NULL, "", "", CAPACITY, &size), apply(NULL, "", &line));
    printf("a closed volume: %d, %d\n", delta(&closed, "", "", CAPACITY, &size), apply(&closed, "", &line));
    printf("a null name: %d, %d\n", doorvervain_delta(fs, NULL, 1, NULL, 0, text, CAPACITY, &size),
        doorvervain_delta(fs, NULL, 0, NULL, 1, text, CAPACITY, &size));
    printf("a null text: %d, %d\n", doorvervain_delta(fs, NULL, 0, NULL, 0, NULL, 1, &size),
        doorvervain_apply_delta(fs, NULL, 1, &line));
    printf("a null result: %d, %d\n", doorvervain_delta(fs, NULL, 0, NULL, 0, text, CAPACITY, NULL), apply(fs, "", NULL));
}

// ---- edits

#define BEFORE "D / 5\nF /a 3 7\nb 0 616263\nD /d 8\nF /d/x 1 9\nb 0 31\nF /z 0 3\n"

static uint8_t begin(struct doorvervain *fs, const char *from, const char *to, struct doorvervain_edits *edits) {
    return doorvervain_edits_begin(edits, fs, from, strlen(from), to, strlen(to));
}

// Prints the rest of the edits in pieces of so many bytes.
static uint8_t take(struct doorvervain_edits *edits, size_t piece, size_t *size) {
    size_t got = OLD;
    uint8_t number = DOORVERVAIN_DONE;
    for (*size = 0; !number && got; *size += got)
        number = doorvervain_edits_next(edits, text + *size, piece, &got);
    return number;
}

static uint8_t edits_of(struct doorvervain *fs, const char *from, const char *to, size_t *size) {
    struct doorvervain_edits edits = {0};
    *size = 0;
    uint8_t number = begin(fs, from, to, &edits);
    if (!number) number = take(&edits, 9, size);
    doorvervain_edits_end(&edits);
    return number;
}

static void say_edits(struct doorvervain *fs, const char *from, const char *to) {
    size_t size;
    uint8_t number = edits_of(fs, from, to, &size);
    printf("edits from '%s' to '%s': %d\n%.*s", from, to, number, (int)size, (const char *)text);
}

static uint8_t fork_of_snapshot(struct doorvervain *fs, struct doorvervain *fork) {
    struct doorvervain_frozen tree = {0};
    uint8_t number = doorvervain_open_snapshot(fs, "s", 1, &tree);
    if (!number) number = doorvervain_frozen_fork(&tree, fork);
    doorvervain_frozen_close(&tree);
    return number;
}

static int same_images(struct doorvervain *one, struct doorvervain *other) {
    static uint8_t images[2][CAPACITY];
    size_t sizes[2] = {0, 0};
    if (image_of(one, images[0], &sizes[0]) || image_of(other, images[1], &sizes[1])) return 0;
    return sizes[0] == sizes[1] && !memcmp(images[0], images[1], sizes[0]);
}

static void say_applied(struct doorvervain *fs, const char *what, const void *words, size_t size) {
    uint64_t line = OLD;
    uint8_t number = doorvervain_apply_edits(fs, words, size, &line);
    printf("%s: %d, line %llu\n", what, number, (unsigned long long)line);
}

// The edits since a snapshot, applied to a fork of it, make the live tree. The fork's snapshots stay.
static void edited(struct doorvervain *fs) {
    struct doorvervain fork = {0};
    size_t size;
    printf("load: %d\n", load(fs, BEFORE));
    printf("snapshot: %d\n", doorvervain_snapshot(fs, "s", 1));
    say_edits(fs, "s", "");
    printf("write: %d\n", doorvervain_write(fs, "/a", 2, 2, "d", 1, 9));
    printf("rmtree: %d\n", doorvervain_rmtree(fs, "/d", 2, 10));
    printf("create: %d\n", doorvervain_create(fs, "/n", 2, 11));
    say_edits(fs, "", "s");
    say_edits(fs, "s", "");
    printf("fork: %d\n", fork_of_snapshot(fs, &fork));
    printf("snapshot: %d\n", doorvervain_snapshot(&fork, "kept", 4));
    uint8_t number = edits_of(fs, "s", "", &size);
    printf("edits: %d\n", number);
    say_applied(&fork, "to a fork of the snapshot", text, size);
    printf("the same image: %s\n", same_images(fs, &fork) ? "yes" : "no");
    say_applied(&fork, "once more", text, size);
    printf("the same image: %s\n", same_images(fs, &fork) ? "yes" : "no");
    say_changed(&fork, "kept", "");
    doorvervain_close(&fork);
}

// The trees are those of the begin: the volume changes and is closed meanwhile.
static void taken(struct doorvervain *fs) {
    struct doorvervain_edits edits = {0};
    size_t size, got = OLD;
    uint8_t number = begin(fs, "s", "", &edits);
    printf("begin: %d, %s\n", number, edits.ptr ? "open" : "closed");
    number = doorvervain_edits_next(&edits, text, 0, &got);
    printf("no capacity: %d, size %zu\n", number, got);
    printf("unlink: %d\n", doorvervain_unlink(fs, "/a", 2, 12));
    doorvervain_close(fs);
    number = take(&edits, CAPACITY, &size);
    printf("next: %d\n%.*s", number, (int)size, (const char *)text);
    number = doorvervain_edits_next(&edits, text, CAPACITY, &got);
    printf("behind the end: %d, size %zu\n", number, got);
    doorvervain_edits_end(&edits);
    printf("end: %s\n", edits.ptr ? "open" : "closed");
    doorvervain_edits_end(&edits);
}

static void say_bad_edits(struct doorvervain *fs, const char *what, const char *words) {
    say_applied(fs, what, words, strlen(words));
}

static void refused_edits(struct doorvervain *fs) {
    struct doorvervain closed = {0};
    struct doorvervain_edits edits = {0};
    size_t size = OLD;
    uint64_t line = OLD;
    printf("load: %d\n", load(fs, BEFORE));
    say_bad_edits(fs, "no text", "");
    say_bad_edits(fs, "another heading", "delta 1\nend\n");
    say_bad_edits(fs, "no edit", "delta 2\n- F /z 0 3\n* /z\nend\n");
    say_bad_edits(fs, "no end", "delta 2\n- F /z 0 3\n");
    say_bad_edits(fs, "lines behind the end", "delta 2\nend\nend\n");
    say_bad_edits(fs, "no such file", "delta 2\n- F /z 0 3\n- F /y 0 3\nend\n");
    say_bad_edits(fs, "another moment", "delta 2\n- F /z 0 4\nend\n");
    say_bad_edits(fs, "other bytes",
        "delta 2\nb /a 0 af51dba5e19e51149035ded7579f1bf2f6f7f1a400b7c0b2f16a28f946f9607c 616264\nend\n");
    say_image(fs);
    say_bad_edits(fs, "none", "delta 2\nend\n");
    printf("no snapshot: %d", begin(fs, "no", "a/b", &edits));
    printf(", %s\n", edits.ptr ? "open" : "closed");
    printf("no name: %d\n", begin(fs, "", "a/b", &edits));
    printf("no volume: %d, %d\n", begin(NULL, "", "", &edits), doorvervain_apply_edits(NULL, "", 0, &line));
    printf("a closed volume: %d, %d\n", begin(&closed, "", "", &edits), doorvervain_apply_edits(&closed, "", 0, &line));
    printf("null: %d, %d, %d\n", begin(fs, "", "", NULL), doorvervain_edits_begin(&edits, fs, NULL, 1, NULL, 0),
        doorvervain_apply_edits(fs, NULL, 1, &line));
    printf("a null result: %d, %d\n", doorvervain_edits_next(&edits, text, 1, NULL), doorvervain_apply_edits(fs, "", 0, NULL));
    printf("a closed printer: %d, %d", doorvervain_edits_next(&edits, text, 1, &size), doorvervain_edits_next(NULL, text, 1, &size));
    printf(", size %zu\n", size);
}

#ifdef REFUSE
#include "refused_memory.h"

static int has(struct doorvervain *fs, uint64_t length) {
    uint8_t kind;
    uint64_t size = 0, modified;
    return !doorvervain_stat(fs, "/a", 2, &kind, &size, &modified) && size == length;
}

// Makes each allocation of a list of paths fail in turn: it returns ENOMEM and a size of 0.
static void refused_list(struct doorvervain *fs) {
    size_t size = OLD;
    int right = 1;
    long count = 0;
    uint8_t number = DOORVERVAIN_ENOMEM;
    while (number == DOORVERVAIN_ENOMEM && right) {
        refused_request = ++count;
        number = changed(fs, "s", "", CAPACITY, &size);
        refused_request = 0;
        right = number == DOORVERVAIN_DONE ? size == 3 : number == DOORVERVAIN_ENOMEM && !size;
    }
    printf("paths with each request refused: %d, %s\n", number, right && count > 3 ? "as it should be" : "not so");
}

// Makes each allocation of both calls fail in turn: they return ENOMEM, and the volume is unchanged.
static void refused_memory(struct doorvervain *fs) {
    size_t size = OLD;
    uint64_t line = OLD;
    int right = 1;
    long count = 0;
    uint8_t number = DOORVERVAIN_ENOMEM;
    printf("load: %d\n", load(fs, "D / 5\nF /a 3 7\nb 0 616263\n"));
    printf("snapshot: %d\n", doorvervain_snapshot(fs, "s", 1));
    printf("truncate: %d\n", doorvervain_truncate(fs, "/a", 2, 1, 9));
    refused_list(fs);
    while (number == DOORVERVAIN_ENOMEM && right) {
        refused_request = ++count;
        number = delta(fs, "s", "", CAPACITY, &size);
        refused_request = 0;
        right = number == DOORVERVAIN_DONE || (number == DOORVERVAIN_ENOMEM && !size);
    }
    printf("a difference with each request refused: %d, %s\n", number, right && count > 9 ? "as it should be" : "not so");
    printf("restore: %d\n", doorvervain_restore(fs, "s", 1));
    number = DOORVERVAIN_ENOMEM;
    for (count = 0; number == DOORVERVAIN_ENOMEM && right;) {
        refused_request = ++count;
        number = doorvervain_apply_delta(fs, text, size, &line);
        refused_request = 0;
        right = !line && (number == DOORVERVAIN_DONE ? has(fs, 1) : number == DOORVERVAIN_ENOMEM && has(fs, 3));
    }
    printf("applied with each request refused: %d, %s\n", number, right && count > 9 ? "as it should be" : "not so");
}

// Makes each allocation of the edits fail in turn: a begin that returns ENOMEM leaves the printer closed, and a next the text as it was.
static int edits_refused(struct doorvervain *fs, long *count, size_t *size) {
    struct doorvervain_edits edits = {0};
    uint8_t number = DOORVERVAIN_ENOMEM;
    for (*count = 0; number == DOORVERVAIN_ENOMEM;) {
        refused_request = ++*count;
        number = begin(fs, "s", "", &edits);
        refused_request = 0;
        if (number && edits.ptr) return 0;
    }
    for (number = DOORVERVAIN_ENOMEM; number == DOORVERVAIN_ENOMEM;) {
        refused_request = ++*count;
        number = doorvervain_edits_next(&edits, text, CAPACITY, size);
        refused_request = 0;
        if (number && *size) return 0;
    }
    doorvervain_edits_end(&edits);
    return !number;
}

// The same of their application, behind which the volume is unchanged.
static void refused_memory_of_edits(struct doorvervain *fs) {
    size_t size = OLD;
    uint64_t line = OLD;
    long count = 0;
    printf("load: %d\n", load(fs, "D / 5\nF /a 3 7\nb 0 616263\n"));
    printf("snapshot: %d\n", doorvervain_snapshot(fs, "s", 1));
    printf("truncate: %d\n", doorvervain_truncate(fs, "/a", 2, 1, 9));
    int right = edits_refused(fs, &count, &size);
    printf("edits with each request refused: %s\n", right && count > 9 ? "as it should be" : "not so");
    printf("restore: %d\n", doorvervain_restore(fs, "s", 1));
    uint8_t number = DOORVERVAIN_ENOMEM;
    for (count = 0; number == DOORVERVAIN_ENOMEM && right;) {
        refused_request = ++count;
        number = doorvervain_apply_edits(fs, text, size, &line);
        refused_request = 0;
        right = !line && (number == DOORVERVAIN_DONE ? has(fs, 1) : number == DOORVERVAIN_ENOMEM && has(fs, 3));
    }
    printf("applied with each request refused: %d, %s\n", number, right && count > 9 ? "as it should be" : "not so");
}
#else
static void refused_memory(struct doorvervain *fs) { (void)fs; }
static void refused_memory_of_edits(struct doorvervain *fs) { (void)fs; }
#endif

int main(void) {
    struct doorvervain fs = {0};
    differences(&fs);
    rooms(&fs);
    applied(&fs);
    doorvervain_close(&fs);
    refusals(&fs);
    doorvervain_close(&fs);
    refused_memory(&fs);
    doorvervain_close(&fs);
    edited(&fs);
    taken(&fs);
    refused_edits(&fs);
    doorvervain_close(&fs);
    refused_memory_of_edits(&fs);
    doorvervain_close(&fs);
    return 0;
}
