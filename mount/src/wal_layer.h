// The layer that a store and a replica share: it encodes a call that changes something as an entry of the log, and
// passes it to the inner backend. A call that fails leaves no entry.
#ifndef WAL_LAYER_H
#define WAL_LAYER_H
#include "backend.h"

// The first member of who notes, and so the `self` of these functions.
struct wal_layer {
    struct backend inner;
    // Begins a call, and says after which bytes its note goes, and in `err` why it is refused, which is 0 before.
    // Null: the call does nothing, and is answered as done.
    struct bytes *(*begins)(void *self, int *err);
    // Called when the note is there, before the inner backend's call: why that is refused. Null: it is not.
    int (*noted)(void *self);
    // Ends a call that began: what it is answered with. Null: with its fault as it is.
    int (*ends)(void *self, int err);
};

int wal_layer_change(void *self, enum path_call what, const char *path, uint64_t at);
int wal_layer_rename(void *self, const char *from, const char *to, uint64_t at);
int wal_layer_truncate(void *self, const char *path, uint64_t length, uint64_t at);
// The inner backend writes all or nothing.
int wal_layer_write(void *self, const char *path, uint64_t offset, const char *bytes, size_t count, uint64_t at,
                    size_t *done);
int wal_layer_punch(void *self, const char *path, uint64_t offset, uint64_t count, uint64_t at);
int wal_layer_copy_range(void *self, const struct copy_range *range, uint64_t at, uint64_t *copied);
int wal_layer_apply_edits(void *self, const struct bytes *text, uint64_t *line);
#endif
