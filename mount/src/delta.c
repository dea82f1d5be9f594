// Prints deltas of format 2, and applies those of either format, by calls of the library ("Delta" in docs/FORMATS.md).
//
// Invariant: a backend applies edits alone, so its snapshots stay, and its trees share what a text leaves. A text of
// format 1 makes a tree of its own beside the live one, and the edits between both are applied.
#include "delta.h"
#include <errno.h>
#include <string.h>

enum { PIECE = 1 << 18 };

// In a fork, which has no other snapshot, the tree that it was one of.
#define FORMER "former"

int delta_print(struct doorvervain_edits *edits, struct bytes *out) {
    size_t size = 1;
    int err = 0;
    while (!err && size) {
        err = bytes_reserve(out, PIECE);
        if (!err) err = doorvervain_errno(doorvervain_edits_next(edits, out->at + out->length, PIECE, &size));
        if (!err) out->length += size;
    }
    if (!err) bytes_fit(out);
    return err;
}

// ---- a text of format 1

static bool is_of_format_1(const struct bytes *text) {
    static const char heading[] = "delta 1 ";
    return text->length >= sizeof heading - 1 && !memcmp(text->at, heading, sizeof heading - 1);
}

// The tree that a text of format 1 makes of the live one. In its first line is the digest of the tree that it is of.
static int make_tree(const struct doorvervain *tree, const struct bytes *text, struct doorvervain_frozen *out,
                     uint64_t *line) {
    struct doorvervain fork = {NULL};
    uint8_t number = doorvervain_fork(tree, &fork);
    if (!number) number = doorvervain_apply_delta(&fork, text->at, text->length, line);
    if (number == DOORVERVAIN_ENOENT) *line = 1;
    if (!number) number = doorvervain_freeze(&fork, out);
    doorvervain_close(&fork);
    return doorvervain_errno(number);
}

// Puts another tree into the place of that of a fork, and prints the edits between them.
static int print_edits_to(const struct doorvervain_frozen *other, struct doorvervain *fork, struct bytes *out) {
    struct doorvervain_edits edits = {NULL};
    uint8_t number = doorvervain_snapshot(fork, FORMER, strlen(FORMER));
    if (!number) number = doorvervain_restore_frozen(fork, other);
    if (!number) number = doorvervain_edits_begin(&edits, fork, FORMER, strlen(FORMER), NULL, 0);
    int err = number ? doorvervain_errno(number) : delta_print(&edits, out);
    doorvervain_edits_end(&edits);
    return err;
}

// The edits that a text of format 1 is of.
static int find_edits(const struct doorvervain *tree, const struct bytes *text, struct bytes *out, uint64_t *line) {
    struct doorvervain_frozen made = {NULL};
    struct doorvervain fork = {NULL};
    int err = make_tree(tree, text, &made, line);
    if (!err) err = doorvervain_errno(doorvervain_fork(tree, &fork));
    if (!err) err = print_edits_to(&made, &fork, out);
    doorvervain_frozen_close(&made);
    doorvervain_close(&fork);
    return err;
}

int delta_apply(const struct backend *backend, const struct bytes *text, uint64_t *line) {
    struct bytes edits = {NULL};
    *line = 0;
    if (!is_of_format_1(text)) return backend->ops->apply_edits(backend->self, text, line);
    int err = find_edits(backend->tree, text, &edits, line);
    if (!err) err = backend->ops->apply_edits(backend->self, &edits, line);
    bytes_free(&edits);
    return err;
}
