// A backend of the file system: the library, or a layer over another backend.
//
// Every function returns 0 or an errno, and a call that fails changes nothing. One call runs at a time: the caller
// holds a lock.
#ifndef BACKEND_H
#define BACKEND_H
#include "bytes.h"
#include "doorvervain.h"
#include <stdbool.h>
#include <stdint.h>

enum {
    LARGEST_READ = 1 << 20, // bytes of one read
    LONGEST_PATH = 1023,
    LONGEST_NAME = 255,
    LONGEST_SNAPSHOT = 64,
};

// Calls that have a path and a timestamp alone, and are done or refused.
enum path_call { CALL_MKDIR, CALL_CREATE, CALL_UNLINK, CALL_RMDIR, CALL_RMTREE, CALL_SET_MTIME };

// What becomes of the snapshot of a name.
enum snapshot_call { TAKE_SNAPSHOT, DROP_SNAPSHOT, RESTORE_SNAPSHOT };

struct backend;
struct image; // of image.h

// A path of the live tree, or of a snapshot's.
struct path_ref {
    const char *snapshot; // null: the live tree
    const char *path;
};

// What is at a path.
struct node_stat {
    bool is_directory;
    uint64_t length;   // of a file, in bytes
    uint64_t mtime_ns; // its mtime
};

// A run of bytes of a file that are stored; empty, and at the file's end, where no more are.
struct extent {
    uint64_t from, to;
};

// Bytes of a file, and where they go: to another file, or elsewhere in the same one.
struct copy_range {
    const char *from, *to;
    uint64_t offset, target, count;
};

// The operations of a backend. A null read, stat, readdir, next_extent, compact, compaction_debt, fork or adopt is that
// of its inner backend, which is then the first member of `self`; these eight are called by the functions below. What
// changes the tree is done at the timestamp `at`, in nanoseconds since 1970.
struct backend_ops {
    int (*change)(void *self, enum path_call what, const char *path, uint64_t at);
    int (*rename)(void *self, const char *from, const char *to, uint64_t at);
    int (*truncate)(void *self, const char *path, uint64_t length, uint64_t at);
    // All is written, or the first `done` bytes are and the rest was refused.
    int (*write)(void *self, const char *path, uint64_t offset, const char *bytes, size_t count, uint64_t at,
                 size_t *done);
    // At most LARGEST_READ bytes, and fewer at the end of the file.
    int (*read)(void *self, struct path_ref ref, uint64_t offset, char *out, size_t capacity, size_t *got);
    int (*stat)(void *self, struct path_ref ref, struct node_stat *out);
    // Each name as `d` or `f`, the name and a byte 0, after what `out` has.
    int (*readdir)(void *self, struct path_ref ref, struct bytes *out);
    int (*snapshot)(void *self, enum snapshot_call what, const char *snapshot);
    // So many bytes from `offset` on become zeros that take no room; the file keeps its length.
    int (*punch)(void *self, const char *path, uint64_t offset, uint64_t count, uint64_t at);
    // Copies these bytes, all that the file has of them or none: how many. If both places are where a block begins, whole
    // blocks are shared. EOPNOTSUPP: they have to be read and written.
    int (*copy_range)(void *self, const struct copy_range *range, uint64_t at, uint64_t *copied);
    // The next run of bytes that are stored, at or after `offset`. Those before it read as zeros.
    int (*next_extent)(void *self, struct path_ref ref, uint64_t offset, struct extent *out);
    // Does at most so many steps that move pending changes down: how many.
    unsigned (*compact)(void *self, unsigned steps);
    // How many such steps are due after the changes that were made.
    unsigned (*compaction_debt)(void *self);
    // Another backend that has a fork of the live tree, without its snapshots, and no log: used and closed by any thread,
    // with no lock. EOPNOTSUPP: there is to be none.
    int (*fork)(void *self, struct backend *out);
    // Applies a text of edits to the live tree of the library or of a branch, all of them or none ("Format 2" in
    // docs/FORMATS.md). EINVAL: line `*line` is bad; ENOENT: it does not fit.
    int (*apply_edits)(void *self, const struct bytes *text, uint64_t *line);
    // The live tree becomes that of such a fork, by its `self`, where no call has changed the live one since: else EAGAIN.
    // A log takes `calls`, which made that tree of this one, as entries.
    int (*adopt)(void *self, void *fork, struct bytes *calls);
    // Ends the file system and frees `self`. Where an image is wanted, that of the live tree is put there first; it is
    // whole where the answer is 0.
    int (*close)(void *self, struct image *image);
};

// A file system that is mounted.
struct backend {
    const struct backend_ops *ops;
    void *self;
    struct doorvervain *tree; // that of the library, to look at; null: with --replica
};

static inline int backend_read(const struct backend *backend, struct path_ref ref, uint64_t offset, char *out,
                               size_t capacity, size_t *got) {
    while (!backend->ops->read) backend = backend->self;
    return backend->ops->read(backend->self, ref, offset, out, capacity, got);
}

static inline int backend_stat(const struct backend *backend, struct path_ref ref, struct node_stat *out) {
    while (!backend->ops->stat) backend = backend->self;
    return backend->ops->stat(backend->self, ref, out);
}

static inline int backend_readdir(const struct backend *backend, struct path_ref ref, struct bytes *out) {
    while (!backend->ops->readdir) backend = backend->self;
    return backend->ops->readdir(backend->self, ref, out);
}

static inline int backend_next_extent(const struct backend *backend, struct path_ref ref, uint64_t offset,
                                      struct extent *out) {
    while (!backend->ops->next_extent) backend = backend->self;
    return backend->ops->next_extent(backend->self, ref, offset, out);
}

static inline unsigned backend_compact(const struct backend *backend, unsigned steps) {
    while (!backend->ops->compact) backend = backend->self;
    return backend->ops->compact(backend->self, steps);
}

static inline unsigned backend_compaction_debt(const struct backend *backend) {
    while (!backend->ops->compaction_debt) backend = backend->self;
    return backend->ops->compaction_debt(backend->self);
}

static inline int backend_fork(const struct backend *backend, struct backend *out) {
    while (!backend->ops->fork) backend = backend->self;
    return backend->ops->fork(backend->self, out);
}

static inline int backend_adopt(const struct backend *backend, void *fork, struct bytes *calls) {
    while (!backend->ops->adopt) backend = backend->self;
    return backend->ops->adopt(backend->self, fork, calls);
}

// Where the log of a replica is, and what its members are told and believed by.
struct etcd_options {
    const char *members; // null: there is none
    const char *prefix;
    const char *cacert, *cert, *key;  // files; null: none
    const char *user, *password_file; // the second a file; null: none
};

// What a file system is made with.
struct open_options {
    const char *image;         // a file with the tree to begin with; null: the empty tree
    const _Atomic bool *stops; // where it becomes true, that is not read on: ECANCELED; null: nothing stops it
    const char *store;         // the directory that keeps it; null: none does
    bool syncs_each;           // a store is synced at each change
    uint64_t log_size;         // bytes of its log that make another image worth its while
    const char *trace;         // the name in front of `.in` and `.out`, where all calls and replies go; null: nowhere
    unsigned steps;            // tree steps after each call that changes something
    struct etcd_options replica;
};

// Each says on standard error what failed.
int open_library(const struct open_options *options, struct backend *out);
// Puts a log between a backend and its caller.
int open_trace(const struct open_options *options, struct backend *backend);
#endif
