// Prints deltas of format 2, and applies those of either format ("Delta" in docs/FORMATS.md).
#ifndef DELTA_H
#define DELTA_H
#include "backend.h"

// Puts the text of edits, which were begun, after what `out` has. No lock is needed. 0 or ENOMEM.
int delta_print(struct doorvervain_edits *edits, struct bytes *out);
// Applies a text to the live tree of a backend, whole or not at all. EINVAL: line `*line` is bad, or it is 0, and what a
// text of format 1 makes is no tree. ENOENT: line `*line` does not fit the tree.
int delta_apply(const struct backend *backend, const struct bytes *text, uint64_t *line);
#endif
