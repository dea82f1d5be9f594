// The file system as a C library: volumes in memory, by calls of bytes.
//
// Link what `pkg-config --libs doorvervain` names. In a clone that is not installed, link
// crates/doorvervain/out/libdoorvervain.a and the toolchain's liblibc_c.a, which asks malloc for memory.
//
// A path is a pointer to characters and a length in bytes, as "/a/b" and 4. It begins with a slash, and no byte 0 has to follow it.
// The name of a snapshot is a pointer and a length too. No call keeps a pointer of its caller.
//
// Most calls return a number. DOORVERVAIN_DONE (0) means success. Any other number is an error: the call changed no
// volume, and wrote nothing into a buffer. Two calls that make many changes, doorvervain_wal_apply and
// doorvervain_wal_replay, keep the changes before the one that fails, and return how many they are. A call that closes its
// argument even when it fails says so. A read-only call that fails sets its other results to 0; if the buffer is too
// short, it returns the size, so that the caller can call again. Only a read of more than 1,048,576 bytes may have written a
// part of its buffer when it fails.
//
// A call that returns a text of any size (a listing, an image, the name of a snapshot) takes a buffer and its capacity.
// `*size` is the length of the text in bytes. The text is written if the capacity is enough for all of it. With a capacity
// of 0 the call returns the size alone, and DOORVERVAIN_DONE; with any other capacity that is too small it returns
// DOORVERVAIN_ERANGE. Both leave the buffer unchanged.
//
// With a null pointer a call returns DOORVERVAIN_NULL, also if it is one to a volume, a frozen tree, a printer (of an image or of edits),
// a loader or a list. Only a pointer whose length is 0 may be null. If one of these is closed, the call returns DOORVERVAIN_CLOSED. A
// call writes no more bytes into a buffer than its capacity.
//
// Caller obligations, which no check can see:
//   - Set all members to null before the first use (`struct doorvervain fs = {0};`, in C++ `{}`), and do not change them.
//   - A copy of a struct is the same volume. Do not use a copy after a close: that is a use of freed memory. Begin, end and close
//     through one struct: a copy does not know that a transaction was begun since, nor that one was ended.
//   - A call that changes a volume is alone in it. Calls that take a `const struct doorvervain *` only look: any number of
//     them may be in one volume at once while no other call is. So a read-write lock around the calls of a volume is enough.
//   - Any number of threads may be in one frozen tree at once, without a lock, by calls that take a
//     `const struct doorvervain_frozen *`. All others close it, and need it alone.
//   - Different volumes and frozen trees may be called by different threads at once without a lock, also a volume, its forks
//     and the trees that were frozen from it while it changes: a node that two of them have is never changed, but copied.
//     doorvervain_restore_frozen changes its volume, and only looks at its frozen tree.
//   - A printer, a loader or a list is for one thread at a time.
//   - A pointer with a length points to at least that many bytes. Bytes that a call writes overlap no bytes that it
//     reads, and no other result.
//   - Make no call from a signal handler, nor in the forked child of a process with threads.
#ifndef DOORVERVAIN_H
#define DOORVERVAIN_H

#include <errno.h>
#include <stddef.h>
#include <stdint.h>
#include <stdlib.h>
#include <string.h>

#ifdef __cplusplus
extern "C" {
#endif

// A volume: a tree of directories and files, with snapshots. It is closed if `ptr` is null. `before` is the tree with which an
// open transaction began, or null.
struct doorvervain {
    void *ptr;
    void *before;
};

// A volume as the archive takes it by value.
struct doorvervain_handle {
    void *ptr;
};

// A frozen tree: later changes of the volume do not affect it. It is closed if `ptr` is null.
struct doorvervain_frozen {
    void *ptr;
};

// Prints the image of a frozen tree, one buffer at a time. It is closed if `ptr` is null.
struct doorvervain_printer {
    void *ptr;
};

// Loads a volume from an image, one buffer at a time. It is closed if `ptr` is null.
struct doorvervain_loader {
    void *ptr;
};

// Prints the edits between two trees, one buffer at a time. It is closed if `ptr` is null.
struct doorvervain_edits {
    void *ptr;
};

// The entries of a directory, one after the other. It is closed if `ptr` is null.
struct doorvervain_list {
    void *ptr;
    size_t size, next;
};

// An entry of a directory.
struct doorvervain_entry {
    const char *name; // with a byte 0 after it
    size_t length;    // of the name, in bytes
    uint8_t kind;     // DOORVERVAIN_DIRECTORY or DOORVERVAIN_FILE
};

// What a call returns. The numbers are this library's own; doorvervain_errno returns those of <errno.h>.
enum {
    DOORVERVAIN_DONE = 0,
    DOORVERVAIN_ENOENT = 1,       // no such file, directory or snapshot
    DOORVERVAIN_ENOTDIR = 2,      // not a directory
    DOORVERVAIN_EISDIR = 3,       // a directory
    DOORVERVAIN_EEXIST = 4,       // the path or snapshot exists already
    DOORVERVAIN_ENOTEMPTY = 5,    // the directory is not empty
    DOORVERVAIN_EPERM = 6,        // not permitted: to unlink a directory
    DOORVERVAIN_EINVAL = 7,       // no path, name or shape; a rename below itself; a text that is malformed; no transaction is open
    DOORVERVAIN_ENAMETOOLONG = 8, // a name or path too long
    DOORVERVAIN_EFBIG = 9,        // a file too large
    DOORVERVAIN_EBUSY = 10,       // the root, which stays; a transaction is open
    DOORVERVAIN_ENOMEM = 11,      // allocation failure
    DOORVERVAIN_ENOSPC = 12,      // there are already 64 snapshots
    DOORVERVAIN_ERANGE = 13,      // the buffer is too short, and nothing was written
    DOORVERVAIN_NULL = 254,       // a pointer is null
    DOORVERVAIN_CLOSED = 255      // the volume, frozen tree, printer, loader or list is closed
};

// The kind of an entry.
enum { DOORVERVAIN_DIRECTORY = 1, DOORVERVAIN_FILE = 2 };

// The default shape of a volume's trees: how many children an inner node may have, how many messages may be pending
// in it, and how many entries a leaf may have.
enum { DOORVERVAIN_FANOUT = 16, DOORVERVAIN_PENDING = 256, DOORVERVAIN_LEAF = 256 };

// ---- attribute records: what an entry has besides its bytes

// The name in the root directory below which attribute records are stored. No entry of a user has it.
#define DOORVERVAIN_RESERVED ".doorvervain"

// The kinds of an entry besides DOORVERVAIN_DIRECTORY and DOORVERVAIN_FILE.
enum {
    DOORVERVAIN_SYMBOLIC_LINK = 3,    // its bytes are the target
    DOORVERVAIN_FIFO = 4,             // a pipe with a name
    DOORVERVAIN_SOCKET = 5,           // a socket
    DOORVERVAIN_CHARACTER_DEVICE = 6, // a character device
    DOORVERVAIN_BLOCK_DEVICE = 7,     // a block device
    DOORVERVAIN_OTHER_NAME = 8        // one of several names of a file
};

// The content of an attribute record, except for extended attributes.
struct doorvervain_attributes {
    uint32_t mode;        // permissions, set-user, set-group and sticky: twelve bits
    uint32_t user;        // the owner
    uint32_t group;       // the owner's group
    uint8_t kind;         // DOORVERVAIN_DIRECTORY to DOORVERVAIN_OTHER_NAME
    uint64_t names;       // how many names it has
    uint64_t link;        // DOORVERVAIN_OTHER_NAME: the number of the file
    uint64_t device;      // a device: its number
    uint64_t modified;    // the mtime that was set explicitly (utimensat), in nanoseconds since 1970
    uint64_t held;        // the mtime in the tree up to which `modified` is valid
    uint8_t has_modified; // 1 if an mtime was set explicitly
};

// ---- the symbols of the archive. They take no null pointer: call the functions below instead. However a call ends, it sets its
// other results as those functions say, whatever they were before.

uint8_t doorvervain_raw_open(uint16_t fanout, uint16_t pending, uint16_t leaf, struct doorvervain *out);
void doorvervain_raw_close(struct doorvervain_handle fs);
uint8_t doorvervain_raw_mkdir(struct doorvervain *fs, const uint8_t *path, size_t length, uint64_t at);
uint8_t doorvervain_raw_create(struct doorvervain *fs, const uint8_t *path, size_t length, uint64_t at);
uint8_t doorvervain_raw_unlink(struct doorvervain *fs, const uint8_t *path, size_t length, uint64_t at);
uint8_t doorvervain_raw_rmdir(struct doorvervain *fs, const uint8_t *path, size_t length, uint64_t at);
uint8_t doorvervain_raw_rmtree(struct doorvervain *fs, const uint8_t *path, size_t length, uint64_t at);
uint8_t doorvervain_raw_rename(
    struct doorvervain *fs, const uint8_t *from, size_t from_length, const uint8_t *to, size_t to_length, uint64_t at);
uint8_t doorvervain_raw_truncate(
    struct doorvervain *fs, const uint8_t *path, size_t length, uint64_t size, uint64_t at);
uint8_t doorvervain_raw_write(struct doorvervain *fs, const uint8_t *path, size_t length, uint64_t offset,
    const uint8_t *bytes, size_t count, uint64_t at);
uint8_t doorvervain_raw_set_mtime(struct doorvervain *fs, const uint8_t *path, size_t length, uint64_t at);
uint8_t doorvervain_raw_copy_range(struct doorvervain *fs, const uint8_t *from, size_t from_length, uint64_t offset,
    const uint8_t *to, size_t to_length, uint64_t target, uint64_t count, uint64_t at, uint64_t *copied);
uint8_t doorvervain_raw_read(struct doorvervain *fs, const uint8_t *path, size_t length, uint64_t offset,
    uint8_t *out, size_t capacity, size_t *got);
uint8_t doorvervain_raw_stat(
    struct doorvervain *fs, const uint8_t *path, size_t length, uint8_t *kind, uint64_t *size,
    uint64_t *modified);
uint8_t doorvervain_raw_readdir(
    struct doorvervain *fs, const uint8_t *path, size_t length, uint8_t *out, size_t capacity, size_t *size);
uint8_t doorvervain_raw_snapshot(struct doorvervain *fs, const uint8_t *name, size_t length);
uint8_t doorvervain_raw_drop_snapshot(struct doorvervain *fs, const uint8_t *name, size_t length);
uint8_t doorvervain_raw_restore(struct doorvervain *fs, const uint8_t *name, size_t length);
uint8_t doorvervain_raw_snapshot_name(
    struct doorvervain *fs, size_t index, uint8_t *out, size_t capacity, size_t *size);
uint8_t doorvervain_raw_freeze(struct doorvervain *fs, struct doorvervain_frozen *out);
uint8_t doorvervain_raw_fork(struct doorvervain *fs, struct doorvervain *out);
uint8_t doorvervain_raw_frozen_fork(struct doorvervain_frozen *tree, struct doorvervain *out);
void doorvervain_raw_make_sharable(struct doorvervain *fs);
void doorvervain_raw_condense(struct doorvervain *fs);
uint8_t doorvervain_raw_restore_frozen(struct doorvervain *fs, struct doorvervain_frozen *tree);
uint8_t doorvervain_raw_open_snapshot(
    struct doorvervain *fs, const uint8_t *name, size_t length, struct doorvervain_frozen *out);
uint8_t doorvervain_raw_frozen_read(struct doorvervain_frozen *tree, const uint8_t *path, size_t length,
    uint64_t offset, uint8_t *out, size_t capacity, size_t *got);
uint8_t doorvervain_raw_frozen_stat(
    struct doorvervain_frozen *tree, const uint8_t *path, size_t length, uint8_t *kind, uint64_t *size,
    uint64_t *modified);
uint8_t doorvervain_raw_load(uint16_t fanout, uint16_t pending, uint16_t leaf, const uint8_t *text, size_t length,
    uint64_t *line, struct doorvervain *out);
uint8_t doorvervain_raw_image(struct doorvervain_frozen *tree, uint8_t *out, size_t capacity, size_t *size);
uint8_t doorvervain_raw_delta(struct doorvervain *fs, const uint8_t *from, size_t from_length, const uint8_t *to,
    size_t to_length, uint8_t *out, size_t capacity, size_t *size);
uint8_t doorvervain_raw_changed_paths(struct doorvervain *fs, const uint8_t *from, size_t from_length, const uint8_t *to,
    size_t to_length, uint8_t *out, size_t capacity, size_t *size);
uint8_t doorvervain_raw_apply_delta(struct doorvervain *fs, const uint8_t *text, size_t length, uint64_t *line);
uint8_t doorvervain_raw_edits_begin(struct doorvervain *fs, const uint8_t *from, size_t from_length, const uint8_t *to,
    size_t to_length, struct doorvervain_edits *out);
uint8_t doorvervain_raw_edits_next(struct doorvervain_edits *edits, uint8_t *out, size_t capacity, size_t *size);
void doorvervain_raw_edits_end(struct doorvervain_edits edits);
uint8_t doorvervain_raw_apply_edits(struct doorvervain *fs, const uint8_t *text, size_t length, uint64_t *line);
uint8_t doorvervain_raw_print_begin(struct doorvervain_frozen tree, struct doorvervain_printer *out);
uint8_t doorvervain_raw_print_next(
    struct doorvervain_printer *printer, uint8_t *out, size_t capacity, size_t *size);
void doorvervain_raw_print_end(struct doorvervain_printer printer);
uint8_t doorvervain_raw_load_begin(
    uint16_t fanout, uint16_t pending, uint16_t leaf, struct doorvervain_loader *out);
uint8_t doorvervain_raw_load_feed(
    struct doorvervain_loader *loader, const uint8_t *text, size_t length, uint64_t *line);
uint8_t doorvervain_raw_load_finish(
    struct doorvervain_loader loader, uint64_t *line, struct doorvervain *out);
void doorvervain_raw_load_abort(struct doorvervain_loader loader);
uint8_t doorvervain_raw_frozen_readdir(
    struct doorvervain_frozen *tree, const uint8_t *path, size_t length, uint8_t *out, size_t capacity, size_t *size);
void doorvervain_raw_frozen_close(struct doorvervain_frozen tree);
uint32_t doorvervain_raw_compact(struct doorvervain *fs, uint32_t steps);
uint8_t doorvervain_raw_attr_dir(const uint8_t *path, size_t length, uint8_t *out, size_t capacity, size_t *size);
uint8_t doorvervain_raw_attr_path(const uint8_t *path, size_t length, uint8_t *out, size_t capacity, size_t *size);
uint8_t doorvervain_raw_attr_encode(const struct doorvervain_attributes *attributes, const uint8_t *extended,
    size_t extended_length, uint8_t *out, size_t capacity, size_t *size);
uint8_t doorvervain_raw_attr_decode(const uint8_t *text, size_t length, struct doorvervain_attributes *attributes,
    uint8_t *extended, size_t capacity, size_t *size);
uint8_t doorvervain_raw_punch(struct doorvervain *fs, const uint8_t *path, size_t length, uint64_t offset,
    uint64_t count, uint64_t at);
uint8_t doorvervain_raw_next_extent(struct doorvervain *fs, const uint8_t *path, size_t length, uint64_t offset,
    uint64_t *from, uint64_t *to);
uint8_t doorvervain_raw_frozen_next_extent(struct doorvervain_frozen *tree, const uint8_t *path, size_t length,
    uint64_t offset, uint64_t *from, uint64_t *to);
uint8_t doorvervain_raw_wal_mkdir(
    const uint8_t *path, size_t length, uint64_t at, uint8_t *out, size_t capacity, size_t *size);
uint8_t doorvervain_raw_wal_create(
    const uint8_t *path, size_t length, uint64_t at, uint8_t *out, size_t capacity, size_t *size);
uint8_t doorvervain_raw_wal_unlink(
    const uint8_t *path, size_t length, uint64_t at, uint8_t *out, size_t capacity, size_t *size);
uint8_t doorvervain_raw_wal_rmdir(
    const uint8_t *path, size_t length, uint64_t at, uint8_t *out, size_t capacity, size_t *size);
uint8_t doorvervain_raw_wal_rmtree(
    const uint8_t *path, size_t length, uint64_t at, uint8_t *out, size_t capacity, size_t *size);
uint8_t doorvervain_raw_wal_rename(const uint8_t *from, size_t from_length, const uint8_t *to, size_t to_length,
    uint64_t at, uint8_t *out, size_t capacity, size_t *size);
uint8_t doorvervain_raw_wal_truncate(const uint8_t *path, size_t length, uint64_t bytes, uint64_t at, uint8_t *out,
    size_t capacity, size_t *size);
uint8_t doorvervain_raw_wal_write(const uint8_t *path, size_t length, uint64_t offset, const uint8_t *bytes,
    size_t count, uint64_t at, uint8_t *out, size_t capacity, size_t *size);
uint8_t doorvervain_raw_wal_punch(const uint8_t *path, size_t length, uint64_t offset, uint64_t count, uint64_t at,
    uint8_t *out, size_t capacity, size_t *size);
uint8_t doorvervain_raw_wal_set_mtime(
    const uint8_t *path, size_t length, uint64_t at, uint8_t *out, size_t capacity, size_t *size);
uint8_t doorvervain_raw_wal_copy_range(const uint8_t *from, size_t from_length, uint64_t offset, const uint8_t *to,
    size_t to_length, uint64_t target, uint64_t count, uint64_t at, uint8_t *out, size_t capacity, size_t *size);
uint8_t doorvervain_raw_wal_snapshot(const uint8_t *name, size_t length, uint8_t *out, size_t capacity, size_t *size);
uint8_t doorvervain_raw_wal_drop(const uint8_t *name, size_t length, uint8_t *out, size_t capacity, size_t *size);
uint8_t doorvervain_raw_wal_restore(const uint8_t *name, size_t length, uint8_t *out, size_t capacity, size_t *size);
uint8_t doorvervain_raw_wal_edits(const uint8_t *text, size_t length, uint8_t *out, size_t capacity, size_t *size);
uint8_t doorvervain_raw_wal_dump(const uint8_t *body, size_t length, uint8_t *out, size_t capacity, size_t *size);
uint8_t doorvervain_raw_wal_apply(struct doorvervain *fs, const uint8_t *body, size_t length, size_t *done);
uint8_t doorvervain_raw_wal_salted_frame(const uint8_t *salt, size_t salt_length, uint64_t number, const uint8_t *body,
    size_t length, uint8_t *out, size_t capacity, size_t *size);
uint8_t doorvervain_raw_wal_salted_next(
    const uint8_t *log, size_t length, const uint8_t *salt, size_t salt_length, uint64_t number, size_t *size);
uint8_t doorvervain_raw_wal_salted_replay(struct doorvervain *fs, const uint8_t *log, size_t length, const uint8_t *salt,
    size_t salt_length, uint64_t number, size_t *records, size_t *done, size_t *size);

// ---- errors

// Returns the error for a volume or a pointer to bytes that is null, or for a volume that is closed; else 0.
static inline uint8_t doorvervain_bad_args(const struct doorvervain *fs, const void *bytes, size_t length) {
    if (!fs) return DOORVERVAIN_NULL;
    if (!fs->ptr) return DOORVERVAIN_CLOSED;
    return !bytes && length ? DOORVERVAIN_NULL : DOORVERVAIN_DONE;
}

// The same, and DOORVERVAIN_EBUSY while a transaction is open.
static inline uint8_t doorvervain_busy_args(const struct doorvervain *fs, const void *bytes, size_t length) {
    uint8_t err = doorvervain_bad_args(fs, bytes, length);
    if (err) return err;
    return fs->before ? DOORVERVAIN_EBUSY : DOORVERVAIN_DONE;
}

// Closes a struct, whatever it holds.
static inline void doorvervain_set_closed(struct doorvervain *fs) {
    fs->ptr = NULL;
    fs->before = NULL;
}

// Returns the error for a frozen tree or a pointer to bytes that is null, or for a tree that is closed; else 0.
static inline uint8_t doorvervain_frozen_bad_args(
    const struct doorvervain_frozen *tree, const void *bytes, size_t length) {
    if (!tree) return DOORVERVAIN_NULL;
    if (!tree->ptr) return DOORVERVAIN_CLOSED;
    return !bytes && length ? DOORVERVAIN_NULL : DOORVERVAIN_DONE;
}

// A pointer that is not null, also for no bytes.
static inline const uint8_t *doorvervain_in(const void *bytes) { return (const uint8_t *)(bytes ? bytes : ""); }

// A pointer that is not null, also for a buffer of the capacity 0.
static inline uint8_t *doorvervain_out(void *out) {
    static uint8_t spare;
    return out ? (uint8_t *)out : &spare;
}

// Returns the number of <errno.h> for the number that a call returned, and 0 for DOORVERVAIN_DONE.
static inline int doorvervain_errno(uint8_t number) {
    switch (number) {
    case DOORVERVAIN_DONE: return 0;
    case DOORVERVAIN_ENOENT: return ENOENT;
    case DOORVERVAIN_ENOTDIR: return ENOTDIR;
    case DOORVERVAIN_EISDIR: return EISDIR;
    case DOORVERVAIN_EEXIST: return EEXIST;
    case DOORVERVAIN_ENOTEMPTY: return ENOTEMPTY;
    case DOORVERVAIN_EPERM: return EPERM;
    case DOORVERVAIN_ENAMETOOLONG: return ENAMETOOLONG;
    case DOORVERVAIN_EFBIG: return EFBIG;
    case DOORVERVAIN_EBUSY: return EBUSY;
    case DOORVERVAIN_ENOMEM: return ENOMEM;
    case DOORVERVAIN_ENOSPC: return ENOSPC;
    case DOORVERVAIN_ERANGE: return ERANGE;
    case DOORVERVAIN_NULL: return EFAULT;
    case DOORVERVAIN_CLOSED: return EBADF;
    default: return EINVAL;
    }
}

// ---- volumes

// Creates a volume with an empty root directory and no snapshots. `fanout` is the largest number of children of an inner node,
// from 4 to 64; `pending` the largest number of messages that may be pending in it, from `fanout` to 1,024; `leaf` the largest
// number of entries of a leaf, from 4 to 1,024. The shape changes no result, only time. The defaults are DOORVERVAIN_FANOUT,
// DOORVERVAIN_PENDING and DOORVERVAIN_LEAF. What `fs` held before is not freed. Fails with EINVAL if no tree has the shape, and
// with ENOMEM; the volume is closed then.
static inline uint8_t doorvervain_open(struct doorvervain *fs, uint16_t fanout, uint16_t pending, uint16_t leaf) {
    if (!fs) return DOORVERVAIN_NULL;
    doorvervain_set_closed(fs);
    return doorvervain_raw_open(fanout, pending, leaf, fs);
}

// Loads a volume from an image: text that doorvervain_image or `betr --image` wrote. An image of version 1, which has no
// timestamps, is accepted too: each mtime is 0 then. The shape is as in doorvervain_open. What `fs` held before is not freed.
// Fails with EINVAL if no tree has the shape, and `*line` is 0; with EINVAL if the text is not an image, and `*line` is the
// number of its first bad line, counted from 1; and with ENOMEM. The volume is closed then. `*line` is 0 in every other case.
static inline uint8_t doorvervain_load(struct doorvervain *fs, uint16_t fanout, uint16_t pending, uint16_t leaf,
    const void *text, size_t length, uint64_t *line) {
    if (fs) doorvervain_set_closed(fs);
    if (line) *line = 0;
    if (!fs || !line || (!text && length)) return DOORVERVAIN_NULL;
    return doorvervain_raw_load(fanout, pending, leaf, doorvervain_in(text), length, line, fs);
}

// Frees a volume with its snapshots, and closes it. Frozen trees stay valid. A closed volume is left unchanged.
static inline void doorvervain_close(struct doorvervain *fs) {
    if (!fs || !fs->ptr) return;
    const struct doorvervain_handle handle = {fs->ptr};
    const struct doorvervain_frozen before = {fs->before};
    doorvervain_raw_close(handle);
    if (before.ptr) doorvervain_raw_frozen_close(before);
    doorvervain_set_closed(fs);
}

// ---- calls that change a volume. Each fails with ENOMEM if an allocation fails, and then nothing has changed.
// Each takes the timestamp `at`, a number that need not increase. It becomes the mtime of a new entry, of a file that is
// written or truncated (a write of no bytes is no change), and of each directory to which an entry is added or from which
// one is removed. A text that is not a path is rejected before anything else: with ENOENT if it is empty, else with EINVAL or
// ENAMETOOLONG. ENOENT also means that the path, or its parent directory, does not exist; ENOTDIR that a file stands where the
// path needs a directory.

// Creates an empty directory. Fails with ENOENT or ENOTDIR if the parent is not a directory, and with EEXIST if the path exists
// already.
static inline uint8_t doorvervain_mkdir(struct doorvervain *fs, const char *path, size_t length, uint64_t at) {
    uint8_t err = doorvervain_bad_args(fs, path, length);
    return err ? err : doorvervain_raw_mkdir(fs, doorvervain_in(path), length, at);
}

// Creates an empty file. Fails with ENOENT or ENOTDIR if the parent is not a directory, and with EEXIST if the path exists
// already.
static inline uint8_t doorvervain_create(struct doorvervain *fs, const char *path, size_t length, uint64_t at) {
    uint8_t err = doorvervain_bad_args(fs, path, length);
    return err ? err : doorvervain_raw_create(fs, doorvervain_in(path), length, at);
}

// Removes a file. Fails with ENOENT or ENOTDIR if the path does not exist, and with EPERM if it is a directory.
static inline uint8_t doorvervain_unlink(struct doorvervain *fs, const char *path, size_t length, uint64_t at) {
    uint8_t err = doorvervain_bad_args(fs, path, length);
    return err ? err : doorvervain_raw_unlink(fs, doorvervain_in(path), length, at);
}

// Removes an empty directory. Fails with ENOENT if the path does not exist, with ENOTDIR if it is a file, with ENOTEMPTY if the
// directory has entries, and with EBUSY if it is the root.
static inline uint8_t doorvervain_rmdir(struct doorvervain *fs, const char *path, size_t length, uint64_t at) {
    uint8_t err = doorvervain_bad_args(fs, path, length);
    return err ? err : doorvervain_raw_rmdir(fs, doorvervain_in(path), length, at);
}

// Removes a file, or a directory with everything below it. Fails with ENOENT or ENOTDIR if the path does not exist, and with
// EBUSY if it is the root.
static inline uint8_t doorvervain_rmtree(struct doorvervain *fs, const char *path, size_t length, uint64_t at) {
    uint8_t err = doorvervain_bad_args(fs, path, length);
    return err ? err : doorvervain_raw_rmtree(fs, doorvervain_in(path), length, at);
}

// Renames a file, or a directory with everything below it, from the path `from` to the path `to`. A file may replace a file, and
// a directory an empty directory; renaming a path to itself changes nothing. Fails with ENOENT or ENOTDIR if the old path or the
// parent of the new one does not exist, with EISDIR if a file would replace a directory, with ENOTDIR if a directory would
// replace a file, with ENOTEMPTY if the directory at the new path has entries, with EINVAL if the new path is below the old one,
// with EBUSY if the old path is the root, and with ENAMETOOLONG if a path at or below the new one would have more than 1,023
// bytes.
static inline uint8_t doorvervain_rename(
    struct doorvervain *fs, const char *from, size_t from_length, const char *to, size_t to_length, uint64_t at) {
    uint8_t err = doorvervain_bad_args(fs, from, from_length);
    if (!err) err = doorvervain_bad_args(fs, to, to_length);
    return err ? err
                 : doorvervain_raw_rename(
                       fs, doorvervain_in(from), from_length, doorvervain_in(to), to_length, at);
}

// Truncates a file to `size` bytes, or extends it to them with zeros. Fails with ENOENT or ENOTDIR if the path does not exist,
// with EISDIR if it is a directory, and with EFBIG if `size` is more than 2^40.
static inline uint8_t doorvervain_truncate(
    struct doorvervain *fs, const char *path, size_t length, uint64_t size, uint64_t at) {
    uint8_t err = doorvervain_bad_args(fs, path, length);
    return err ? err : doorvervain_raw_truncate(fs, doorvervain_in(path), length, size, at);
}

// Sets the mtime of a file or directory, or of the root, to `at`, and changes nothing else (POSIX.1-2017, utimensat). Fails with ENOENT
// or ENOTDIR if the path does not exist.
static inline uint8_t doorvervain_set_mtime(struct doorvervain *fs, const char *path, size_t length, uint64_t at) {
    uint8_t err = doorvervain_bad_args(fs, path, length);
    return err ? err : doorvervain_raw_set_mtime(fs, doorvervain_in(path), length, at);
}

// Writes `count` bytes to a file from `offset` on, and extends the file with zeros to `offset` first if it is shorter. The write is
// atomic; one of no bytes changes nothing. Fails with ENOENT or ENOTDIR if the path does not exist, with EISDIR if it is a
// directory, and with EFBIG if the write reaches past 2^40 bytes.
static inline uint8_t doorvervain_write(struct doorvervain *fs, const char *path, size_t length, uint64_t offset,
    const void *bytes, size_t count, uint64_t at) {
    uint8_t err = doorvervain_bad_args(fs, path, length);
    if (!err) err = doorvervain_bad_args(fs, bytes, count);
    return err
               ? err
               : doorvervain_raw_write(
                     fs, doorvervain_in(path), length, offset, doorvervain_in(bytes), count, at);
}

// ---- read-only calls. Each fails with ENOMEM if an allocation fails.

// How many bytes to ask the archive for if `left` are left to read: it reads at most 1,048,576 at a time.
static inline size_t doorvervain_piece(size_t left) {
    const size_t most = 1048576;
    return left < most ? left : most;
}

// Reads at most `capacity` bytes of a file from `offset` on into `out`, and none past the file's end. `*got` is the number of bytes
// that it wrote, less than `capacity` only at the end of the file; the rest of `out` is unchanged. Fails with ENOENT or ENOTDIR if
// the path does not exist, and with EISDIR if it is a directory.
static inline uint8_t doorvervain_read(const struct doorvervain *fs, const char *path, size_t length, uint64_t offset,
    void *out, size_t capacity, size_t *got) {
    if (!got) return DOORVERVAIN_NULL;
    *got = 0;
    uint8_t err = doorvervain_bad_args(fs, path, length);
    if (!err) err = doorvervain_bad_args(fs, out, capacity);
    if (err) return err;
    struct doorvervain same = *fs;
    size_t asked, piece;
    do {
        asked = doorvervain_piece(capacity - *got);
        err = doorvervain_raw_read(
            &same, doorvervain_in(path), length, offset + *got, doorvervain_out(out) + *got, asked, &piece);
        *got = err ? 0 : *got + piece;
    } while (!err && asked && piece == asked);
    return err;
}

// Returns the kind of the entry at a path, DOORVERVAIN_DIRECTORY or DOORVERVAIN_FILE, its size in bytes (0 for a directory), and its
// mtime. Fails with ENOENT or ENOTDIR if the path does not exist.
static inline uint8_t doorvervain_stat(
    const struct doorvervain *fs, const char *path, size_t length, uint8_t *kind, uint64_t *size,
    uint64_t *modified) {
    if (kind) *kind = 0;
    if (size) *size = 0;
    if (modified) *modified = 0;
    if (!kind || !size || !modified) return DOORVERVAIN_NULL;
    uint8_t err = doorvervain_bad_args(fs, path, length);
    if (err) return err;
    struct doorvervain same = *fs;
    return doorvervain_raw_stat(&same, doorvervain_in(path), length, kind, size, modified);
}

// Lists a directory, in byte order of the names: for each entry `d` or `f`, its name and a byte 0. `*size` is the length of the
// listing in bytes, also with ERANGE: the buffer is too short. doorvervain_list_begin reads a listing without a buffer of the caller.
// Fails with ENOENT if the path does not exist, and with ENOTDIR if it is a file.
static inline uint8_t doorvervain_readdir(
    const struct doorvervain *fs, const char *path, size_t length, void *out, size_t capacity, size_t *size) {
    if (!size) return DOORVERVAIN_NULL;
    *size = 0;
    uint8_t err = doorvervain_bad_args(fs, path, length);
    if (!err) err = doorvervain_bad_args(fs, out, capacity);
    if (err) return err;
    struct doorvervain same = *fs;
    return doorvervain_raw_readdir(&same, doorvervain_in(path), length, doorvervain_out(out), capacity, size);
}

// ---- snapshots. A name has 1 to 64 bytes of ASCII letters, digits, `.`, `_` and `-`. Each call fails with EINVAL for a
// text that is not a name.

// Takes a snapshot of the tree under a name, in constant time. Fails with EEXIST if a snapshot has the name, with ENOSPC if the
// volume has 64 snapshots, with EBUSY if a transaction is open, and with ENOMEM.
static inline uint8_t doorvervain_snapshot(struct doorvervain *fs, const char *name, size_t length) {
    uint8_t err = doorvervain_busy_args(fs, name, length);
    if (err) return err;
    doorvervain_raw_make_sharable(fs);
    return doorvervain_raw_snapshot(fs, doorvervain_in(name), length);
}

// Drops the snapshot of that name. Fails with ENOENT if there is none, and with EBUSY if a transaction is open.
static inline uint8_t doorvervain_drop_snapshot(struct doorvervain *fs, const char *name, size_t length) {
    uint8_t err = doorvervain_busy_args(fs, name, length);
    return err ? err : doorvervain_raw_drop_snapshot(fs, doorvervain_in(name), length);
}

// Restores the volume's tree from the snapshot of that name, which is kept. Fails with ENOENT if there is none, with EBUSY if a
// transaction is open, and with ENOMEM.
static inline uint8_t doorvervain_restore(struct doorvervain *fs, const char *name, size_t length) {
    uint8_t err = doorvervain_busy_args(fs, name, length);
    return err ? err : doorvervain_raw_restore(fs, doorvervain_in(name), length);
}

// Returns the name of the snapshot at an index, counted from 0, in byte order of the names. `*size` is its length in bytes, also with
// ERANGE: the buffer is too short. 64 bytes are enough for any name, and no byte 0 follows it. Fails with ENOENT if the volume has no
// more snapshots: so counting up from 0 to the first ENOENT finds all names.
static inline uint8_t doorvervain_snapshot_name(
    const struct doorvervain *fs, size_t index, void *out, size_t capacity, size_t *size) {
    if (!size) return DOORVERVAIN_NULL;
    *size = 0;
    uint8_t err = doorvervain_bad_args(fs, out, capacity);
    if (err) return err;
    struct doorvervain same = *fs;
    return doorvervain_raw_snapshot_name(&same, index, doorvervain_out(out), capacity, size);
}

// ---- frozen trees

// Freezes the current tree, in constant time. What `out` held before is not freed. Fails with ENOMEM, and `out` is closed then.
static inline uint8_t doorvervain_freeze(const struct doorvervain *fs, struct doorvervain_frozen *out) {
    if (!out) return DOORVERVAIN_NULL;
    out->ptr = NULL;
    uint8_t err = doorvervain_bad_args(fs, NULL, 0);
    if (err) return err;
    struct doorvervain same = *fs;
    return doorvervain_raw_freeze(&same, out);
}

// Opens the snapshot of that name for reading, as a frozen tree. What `out` held before is not freed. Fails with ENOENT if there is no
// such snapshot, with EINVAL if the text is not a name, and with ENOMEM; `out` is closed then.
static inline uint8_t doorvervain_open_snapshot(
    const struct doorvervain *fs, const char *name, size_t length, struct doorvervain_frozen *out) {
    if (!out) return DOORVERVAIN_NULL;
    out->ptr = NULL;
    uint8_t err = doorvervain_bad_args(fs, name, length);
    if (err) return err;
    struct doorvervain same = *fs;
    return doorvervain_raw_open_snapshot(&same, doorvervain_in(name), length, out);
}

// Forks a volume, in constant time: `out` gets a volume of its own with the current tree and the same shape, without snapshots. Later
// changes of one do not affect the other. What `out` held before is not freed. Fails with ENOMEM, and `out` is closed then.
static inline uint8_t doorvervain_fork(const struct doorvervain *fs, struct doorvervain *out) {
    if (!out) return DOORVERVAIN_NULL;
    doorvervain_set_closed(out);
    uint8_t err = doorvervain_bad_args(fs, NULL, 0);
    if (err) return err;
    struct doorvervain same = *fs;
    return doorvervain_raw_fork(&same, out);
}

// Forks a frozen tree, as doorvervain_fork does for a volume. The tree stays as it is.
static inline uint8_t doorvervain_frozen_fork(const struct doorvervain_frozen *tree, struct doorvervain *out) {
    if (!out) return DOORVERVAIN_NULL;
    doorvervain_set_closed(out);
    uint8_t err = doorvervain_frozen_bad_args(tree, NULL, 0);
    if (err) return err;
    struct doorvervain_frozen same = *tree;
    return doorvervain_raw_frozen_fork(&same, out);
}

// Restores the volume's tree from a frozen one, also of another volume, whose shape the volume then has. The frozen tree stays as it is,
// and so do the volume's snapshots. Fails with EBUSY if a transaction is open, and with ENOMEM.
static inline uint8_t doorvervain_restore_frozen(struct doorvervain *fs, const struct doorvervain_frozen *tree) {
    uint8_t err = doorvervain_bad_args(fs, NULL, 0);
    if (!err) err = doorvervain_frozen_bad_args(tree, NULL, 0);
    if (!err) err = doorvervain_busy_args(fs, NULL, 0);
    if (err) return err;
    struct doorvervain_frozen same = *tree;
    return doorvervain_raw_restore_frozen(fs, &same);
}

// Reads a file of a frozen tree, as doorvervain_read does for a volume.
static inline uint8_t doorvervain_frozen_read(const struct doorvervain_frozen *tree, const char *path, size_t length,
    uint64_t offset, void *out, size_t capacity, size_t *got) {
    if (!got) return DOORVERVAIN_NULL;
    *got = 0;
    uint8_t err = doorvervain_frozen_bad_args(tree, path, length);
    if (!err) err = doorvervain_frozen_bad_args(tree, out, capacity);
    if (err) return err;
    struct doorvervain_frozen same = *tree;
    size_t asked, piece;
    do {
        asked = doorvervain_piece(capacity - *got);
        err = doorvervain_raw_frozen_read(
            &same, doorvervain_in(path), length, offset + *got, doorvervain_out(out) + *got, asked, &piece);
        *got = err ? 0 : *got + piece;
    } while (!err && asked && piece == asked);
    return err;
}

// Returns kind, size and mtime of an entry of a frozen tree, as doorvervain_stat does for a volume.
static inline uint8_t doorvervain_frozen_stat(
    const struct doorvervain_frozen *tree, const char *path, size_t length, uint8_t *kind, uint64_t *size,
    uint64_t *modified) {
    if (kind) *kind = 0;
    if (size) *size = 0;
    if (modified) *modified = 0;
    if (!kind || !size || !modified) return DOORVERVAIN_NULL;
    uint8_t err = doorvervain_frozen_bad_args(tree, path, length);
    if (err) return err;
    struct doorvervain_frozen same = *tree;
    return doorvervain_raw_frozen_stat(&same, doorvervain_in(path), length, kind, size, modified);
}

// Lists a directory of a frozen tree, as doorvervain_readdir does for a volume.
static inline uint8_t doorvervain_frozen_readdir(
    const struct doorvervain_frozen *tree, const char *path, size_t length, void *out, size_t capacity, size_t *size) {
    if (!size) return DOORVERVAIN_NULL;
    *size = 0;
    uint8_t err = doorvervain_frozen_bad_args(tree, path, length);
    if (!err) err = doorvervain_frozen_bad_args(tree, out, capacity);
    if (err) return err;
    struct doorvervain_frozen same = *tree;
    return doorvervain_raw_frozen_readdir(&same, doorvervain_in(path), length, doorvervain_out(out), capacity, size);
}

// Writes the image of a frozen tree into a buffer: text that doorvervain_load accepts. `*size` is its length in bytes, also with
// ERANGE: the buffer is too short. A call for the size alone makes the image too, and drops it. Fails with ENOMEM.
static inline uint8_t doorvervain_image(const struct doorvervain_frozen *tree, void *out, size_t capacity, size_t *size) {
    if (!size) return DOORVERVAIN_NULL;
    *size = 0;
    uint8_t err = doorvervain_frozen_bad_args(tree, out, capacity);
    if (err) return err;
    struct doorvervain_frozen same = *tree;
    return doorvervain_raw_image(&same, doorvervain_out(out), capacity, size);
}

// Frees a frozen tree, and closes it. A closed tree is left unchanged.
static inline void doorvervain_frozen_close(struct doorvervain_frozen *tree) {
    if (!tree || !tree->ptr) return;
    doorvervain_raw_frozen_close(*tree);
    tree->ptr = NULL;
}

// ---- transactions: several calls that are done whole or not at all

// Begins a transaction, in constant time. Calls change the volume as before, and later ones see their changes, until doorvervain_commit
// or doorvervain_rollback ends the transaction. While it is open, calls that take, drop or restore a snapshot, restore a frozen tree, or
// apply a delta or a log fail with EBUSY, and doorvervain_compact does nothing. A fork or a frozen tree that is made meanwhile has the
// changes so far, and no transaction. Its changes copy parts of the tree, as those after a snapshot do. Fails with EBUSY if a
// transaction is open, and with ENOMEM.
static inline uint8_t doorvervain_begin(struct doorvervain *fs) {
    uint8_t err = doorvervain_busy_args(fs, NULL, 0);
    struct doorvervain_frozen before = {NULL};
    if (err) return err;
    doorvervain_raw_make_sharable(fs);
    err = doorvervain_raw_freeze(fs, &before);
    if (!err) fs->before = before.ptr;
    return err;
}

// Ends a transaction, and keeps its changes. It does not fail for lack of memory. Fails with EINVAL if none is open.
static inline uint8_t doorvervain_commit(struct doorvervain *fs) {
    uint8_t err = doorvervain_bad_args(fs, NULL, 0);
    if (err) return err;
    if (!fs->before) return DOORVERVAIN_EINVAL;
    const struct doorvervain_frozen before = {fs->before};
    doorvervain_raw_frozen_close(before);
    fs->before = NULL;
    doorvervain_raw_condense(fs);
    return DOORVERVAIN_DONE;
}

// Ends a transaction, and undoes its changes: the tree is again as it was at the beginning. It does not fail for lack of memory.
// Fails with EINVAL if none is open. It could fail with ENOMEM, and the transaction stay open, only if the tree had 2^64 - 1 references.
static inline uint8_t doorvervain_rollback(struct doorvervain *fs) {
    uint8_t err = doorvervain_bad_args(fs, NULL, 0);
    if (err) return err;
    if (!fs->before) return DOORVERVAIN_EINVAL;
    struct doorvervain_frozen before = {fs->before};
    err = doorvervain_raw_restore_frozen(fs, &before);
    return err ? err : doorvervain_commit(fs);
}

// ---- listings, entry by entry
// A list is a snapshot of a directory: begin reads all entries into memory of `malloc`, which the list owns until end frees it. Later
// changes of the volume, also its close, do not affect the list.

// Frees a list with the names that it returned, and closes it. A closed list is left unchanged.
static inline void doorvervain_list_end(struct doorvervain_list *list) {
    if (!list || !list->ptr) return;
    free(list->ptr);
    list->ptr = NULL;
}

// Replaces the memory of a list by room for a listing of `size` bytes.
static inline uint8_t doorvervain_list_room(struct doorvervain_list *list, size_t size) {
    free(list->ptr);
    list->ptr = malloc(size);
    list->size = list->ptr ? size : 0;
    return list->ptr ? DOORVERVAIN_DONE : DOORVERVAIN_ENOMEM;
}

// Begins to list a directory of a volume, in byte order of the names. What `list` held before is not freed. Fails with ENOENT if the
// path does not exist, with ENOTDIR if it is a file, and with ENOMEM; the list is closed then.
static inline uint8_t doorvervain_list_begin(
    struct doorvervain_list *list, const struct doorvervain *fs, const char *path, size_t length) {
    if (!list) return DOORVERVAIN_NULL;
    list->ptr = NULL;
    list->size = list->next = 0;
    size_t size = 4096;
    uint8_t err;
    do {
        err = doorvervain_list_room(list, size);
        if (!err) err = doorvervain_readdir(fs, path, length, list->ptr, list->size, &size);
    } while (err == DOORVERVAIN_ERANGE);
    list->size = size;
    if (err) doorvervain_list_end(list);
    return err;
}

// Begins to list a directory of a frozen tree, as doorvervain_list_begin does for a volume.
static inline uint8_t doorvervain_frozen_list_begin(
    struct doorvervain_list *list, const struct doorvervain_frozen *tree, const char *path, size_t length) {
    if (!list) return DOORVERVAIN_NULL;
    list->ptr = NULL;
    list->size = list->next = 0;
    size_t size = 4096;
    uint8_t err;
    do {
        err = doorvervain_list_room(list, size);
        if (!err) err = doorvervain_frozen_readdir(tree, path, length, list->ptr, list->size, &size);
    } while (err == DOORVERVAIN_ERANGE);
    list->size = size;
    if (err) doorvervain_list_end(list);
    return err;
}

// Returns the next entry of a list. Its name ends with a byte 0, and belongs to the list: it is valid until doorvervain_list_end. Fails
// with ENOENT after the last entry; each field of the entry is 0 then.
static inline uint8_t doorvervain_list_next(struct doorvervain_list *list, struct doorvervain_entry *entry) {
    if (entry) entry->name = NULL, entry->length = 0, entry->kind = 0;
    if (!list || !entry) return DOORVERVAIN_NULL;
    if (!list->ptr) return DOORVERVAIN_CLOSED;
    if (list->next >= list->size) return DOORVERVAIN_ENOENT;
    const char *at = (const char *)list->ptr + list->next;
    entry->kind = *at == 'd' ? DOORVERVAIN_DIRECTORY : DOORVERVAIN_FILE;
    entry->name = at + 1;
    entry->length = strlen(entry->name);
    list->next += entry->length + 2;
    return DOORVERVAIN_DONE;
}

// ---- images in several buffers, so that no image has to fit into memory

// Begins to print the image of a frozen tree. The call closes the tree, whatever it returns but DOORVERVAIN_NULL: freeze once more if
// you need the tree besides, which copies nothing. Fails with ENOMEM, and the printer is closed then.
static inline uint8_t doorvervain_print_begin(
    struct doorvervain_printer *printer, struct doorvervain_frozen *tree) {
    if (printer) printer->ptr = NULL;
    if (!printer || !tree) return DOORVERVAIN_NULL;
    if (!tree->ptr) return DOORVERVAIN_CLOSED;
    struct doorvervain_frozen taken = *tree;
    tree->ptr = NULL;
    return doorvervain_raw_print_begin(taken, printer);
}

// Writes the next bytes of the image into the buffer. `*size` is their number, 0 only at the end of the image or if `capacity` is 0. It
// may be less than `capacity`. Fails with ENOMEM; nothing was written then, and the call may be repeated.
static inline uint8_t doorvervain_print_next(
    struct doorvervain_printer *printer, void *out, size_t capacity, size_t *size) {
    if (!size) return DOORVERVAIN_NULL;
    *size = 0;
    if (!printer || (!out && capacity)) return DOORVERVAIN_NULL;
    if (!printer->ptr) return DOORVERVAIN_CLOSED;
    return doorvervain_raw_print_next(printer, doorvervain_out(out), capacity, size);
}

// Frees a printer with its tree, at any point of the image, and closes it. A closed printer is left unchanged.
static inline void doorvervain_print_end(struct doorvervain_printer *printer) {
    if (!printer || !printer->ptr) return;
    doorvervain_raw_print_end(*printer);
    printer->ptr = NULL;
}

// Begins to load an image. The shape is as in doorvervain_open. What `loader` held before is not freed. Fails with EINVAL if no tree has
// the shape, and with ENOMEM; the loader is closed then.
static inline uint8_t doorvervain_load_begin(
    struct doorvervain_loader *loader, uint16_t fanout, uint16_t pending, uint16_t leaf) {
    if (!loader) return DOORVERVAIN_NULL;
    loader->ptr = NULL;
    return doorvervain_raw_load_begin(fanout, pending, leaf, loader);
}

// Feeds the next bytes of the text, which may be split anywhere. Fails with EINVAL if the text is not an image, whatever follows, and
// `*line` is the number of its first bad line; and with ENOMEM. `*line` is 0 in every other case. After an error each later call
// returns the same error.
static inline uint8_t doorvervain_load_feed(
    struct doorvervain_loader *loader, const void *text, size_t length, uint64_t *line) {
    if (line) *line = 0;
    if (!loader || !line || (!text && length)) return DOORVERVAIN_NULL;
    if (!loader->ptr) return DOORVERVAIN_CLOSED;
    return doorvervain_raw_load_feed(loader, doorvervain_in(text), length, line);
}

// Ends the text, and creates the volume from it. The call closes the loader, whatever it returns but DOORVERVAIN_NULL. What `fs` held
// before is not freed. Fails with EINVAL if the text is not an image, and `*line` is the number of its first bad line; and with ENOMEM.
// The volume is closed then. `*line` is 0 in every other case.
static inline uint8_t doorvervain_load_finish(
    struct doorvervain *fs, struct doorvervain_loader *loader, uint64_t *line) {
    if (fs) doorvervain_set_closed(fs);
    if (line) *line = 0;
    if (!fs || !loader || !line) return DOORVERVAIN_NULL;
    if (!loader->ptr) return DOORVERVAIN_CLOSED;
    struct doorvervain_loader taken = *loader;
    loader->ptr = NULL;
    return doorvervain_raw_load_finish(taken, line, fs);
}

// Frees a loader with what it loaded, and closes it. A closed loader is left unchanged.
static inline void doorvervain_load_abort(struct doorvervain_loader *loader) {
    if (!loader || !loader->ptr) return;
    doorvervain_raw_load_abort(*loader);
    loader->ptr = NULL;
}

// Writes the image of a frozen tree through a callback, which consumes all bytes that it gets and returns 0. If it returns another
// number, nothing more is written, and `*failed` is that number; else `*failed` is 0. The bytes pass through the buffer. The call closes
// the tree, whatever it returns but DOORVERVAIN_NULL. Fails with EINVAL if `capacity` is 0, and with ENOMEM; the image may have been
// written in part then.
static inline uint8_t doorvervain_image_write(struct doorvervain_frozen *tree, void *buffer, size_t capacity,
    int (*put)(void *context, const uint8_t *bytes, size_t count), void *context, int *failed) {
    struct doorvervain_printer printer;
    size_t count = 0;
    if (failed) *failed = 0;
    if (!tree || !buffer || !put || !failed) return DOORVERVAIN_NULL;
    uint8_t number = doorvervain_print_begin(&printer, tree);
    if (!number && !capacity) number = DOORVERVAIN_EINVAL;
    while (!number && !*failed) {
        number = doorvervain_print_next(&printer, buffer, capacity, &count);
        if (!count) break;
        *failed = put(context, (const uint8_t *)buffer, count);
    }
    doorvervain_print_end(&printer);
    return number;
}

// Loads a volume from an image that a callback reads: it writes at most `capacity` bytes into the buffer, sets `*got` to their number, 0
// at the end of the text, and returns 0. If it returns another number, `*failed` is that number, the call returns DOORVERVAIN_DONE, and
// the volume is closed; else `*failed` is 0. What `fs` held before is not freed. Fails as doorvervain_load does, and with EINVAL and a
// `*line` of 0 if `capacity` is 0.
static inline uint8_t doorvervain_load_read(struct doorvervain *fs, uint16_t fanout, uint16_t pending, uint16_t leaf,
    void *buffer, size_t capacity, int (*get)(void *context, uint8_t *buffer, size_t capacity, size_t *got), void *context,
    int *failed, uint64_t *line) {
    struct doorvervain_loader loader;
    if (fs) doorvervain_set_closed(fs);
    if (failed) *failed = 0;
    if (line) *line = 0;
    if (!fs || !buffer || !get || !failed || !line) return DOORVERVAIN_NULL;
    if (!capacity) return DOORVERVAIN_EINVAL;
    uint8_t number = doorvervain_load_begin(&loader, fanout, pending, leaf);
    while (!number) {
        size_t got = 0;
        *failed = get(context, (uint8_t *)buffer, capacity, &got);
        if (*failed || !got) break;
        number = doorvervain_load_feed(&loader, buffer, got < capacity ? got : capacity, line);
    }
    if (!number && !*failed) return doorvervain_load_finish(fs, &loader, line);
    doorvervain_load_abort(&loader);
    return number;
}

// ---- what differs between two trees, and deltas, which say so as text (docs/FORMATS.md has its lines)

// Lists the paths at which two trees of the volume differ: each as text with a byte 0 behind it, a directory before what is below it. Each
// tree is the snapshot of that name, or the live tree if the name's length is 0. A path is listed if its entry came or went, or has another
// kind, mtime or length, or other bytes. The keys that calls touch after a snapshot are noted, so the time depends on what they changed, not
// on the size of the tree. Once 4 MiB of keys were noted, a frozen tree was restored or a transaction was rolled back, both trees are read
// instead. `*size` is the length of the list in bytes, also with ERANGE: the buffer is too short; a call for the size alone makes the list
// too. Fails as doorvervain_delta does.
static inline uint8_t doorvervain_changed_paths(const struct doorvervain *fs, const char *from, size_t from_length,
    const char *to, size_t to_length, void *out, size_t capacity, size_t *size) {
    if (!size) return DOORVERVAIN_NULL;
    *size = 0;
    uint8_t err = doorvervain_bad_args(fs, from, from_length);
    if (!err) err = doorvervain_bad_args(fs, to, to_length);
    if (!err) err = doorvervain_bad_args(fs, out, capacity);
    if (err) return err;
    struct doorvervain same = *fs;
    return doorvervain_raw_changed_paths(&same, doorvervain_in(from), from_length, doorvervain_in(to), to_length,
        doorvervain_out(out), capacity, size);
}

// Writes the delta from one tree of the volume to another into a buffer. Each tree is the snapshot of that name, or the live tree if the
// name's length is 0. `*size` is the delta's length in bytes, also with ERANGE: the buffer is too short. A call for the size alone makes
// the delta too, and drops it. Fails with ENOENT if there is no such snapshot, with EINVAL if a text is not a name, and with ENOMEM; if
// both names fail, with the error of `from`.
static inline uint8_t doorvervain_delta(const struct doorvervain *fs, const char *from, size_t from_length,
    const char *to, size_t to_length, void *out, size_t capacity, size_t *size) {
    if (!size) return DOORVERVAIN_NULL;
    *size = 0;
    uint8_t err = doorvervain_bad_args(fs, from, from_length);
    if (!err) err = doorvervain_bad_args(fs, to, to_length);
    if (!err) err = doorvervain_bad_args(fs, out, capacity);
    if (err) return err;
    struct doorvervain same = *fs;
    return doorvervain_raw_delta(&same, doorvervain_in(from), from_length, doorvervain_in(to), to_length,
        doorvervain_out(out), capacity, size);
}

// Applies a delta to the live tree. Afterwards the volume is like one that was just loaded: its snapshots are dropped. Fails with ENOENT
// if the live tree is not the tree from which the delta was made; with EINVAL if the text is not a delta, and `*line` is the number of its
// first bad line; with EINVAL and a `*line` of 0 if the result would not be a tree; with EBUSY if a transaction is open; and with
// ENOMEM. `*line` is 0 in every other case.
static inline uint8_t doorvervain_apply_delta(struct doorvervain *fs, const void *text, size_t length, uint64_t *line) {
    if (!line) return DOORVERVAIN_NULL;
    *line = 0;
    uint8_t err = doorvervain_busy_args(fs, text, length);
    return err ? err : doorvervain_raw_apply_delta(fs, doorvervain_in(text), length, line);
}

// ---- edits: deltas of format 2, which say what changed path by path (docs/FORMATS.md has their lines)

// Begins to print the edits from one tree of the volume to another. Each tree is the snapshot of that name, or the live tree if the name's
// length is 0. Both trees are taken by this call: doorvervain_edits_next needs no lock of the volume, which may change or be closed
// meanwhile. The time of printing depends on what changed since the older of the two trees, not on the size of the trees, unless the
// change log does not know it; then both trees are read (see doorvervain_changed_paths). What `edits` held before is not freed. Fails with
// ENOENT if there is no such snapshot, with EINVAL if a text is not a name, and with ENOMEM; if both names fail, with the error of `from`.
// The printer is closed then.
static inline uint8_t doorvervain_edits_begin(struct doorvervain_edits *edits, const struct doorvervain *fs, const char *from,
    size_t from_length, const char *to, size_t to_length) {
    if (!edits) return DOORVERVAIN_NULL;
    edits->ptr = NULL;
    uint8_t err = doorvervain_bad_args(fs, from, from_length);
    if (!err) err = doorvervain_bad_args(fs, to, to_length);
    if (err) return err;
    struct doorvervain same = *fs;
    return doorvervain_raw_edits_begin(&same, doorvervain_in(from), from_length, doorvervain_in(to), to_length, edits);
}

// Writes the next bytes of the edits into the buffer. The first call prints the whole text into memory. `*size` is the number of bytes that
// were written, 0 only at the end of the text or if `capacity` is 0. It may be less than `capacity`. Fails with ENOMEM; nothing was
// written then, and the call may be repeated.
static inline uint8_t doorvervain_edits_next(struct doorvervain_edits *edits, void *out, size_t capacity, size_t *size) {
    if (!size) return DOORVERVAIN_NULL;
    *size = 0;
    if (!edits || (!out && capacity)) return DOORVERVAIN_NULL;
    if (!edits->ptr) return DOORVERVAIN_CLOSED;
    return doorvervain_raw_edits_next(edits, doorvervain_out(out), capacity, size);
}

// Frees a printer of edits with its trees, at any point of the text, and closes it. A closed printer is left unchanged.
static inline void doorvervain_edits_end(struct doorvervain_edits *edits) {
    if (!edits || !edits->ptr) return;
    doorvervain_raw_edits_end(*edits);
    edits->ptr = NULL;
}

// Applies edits to the live tree, all of them or none. Snapshots stay. Fails with ENOENT if an edit does not fit the tree, since something
// else is at its path than it expects, and `*line` is the number of the first such line; with EINVAL if the text is not one of edits, and
// `*line` is the number of its first bad line; with EBUSY if a transaction is open; and with ENOMEM. Lines are counted from 1, and `*line`
// is 0 in every other case. The first line of the text that fails is the one that counts: the lines behind it are not read.
static inline uint8_t doorvervain_apply_edits(struct doorvervain *fs, const void *text, size_t length, uint64_t *line) {
    if (!line) return DOORVERVAIN_NULL;
    *line = 0;
    uint8_t err = doorvervain_busy_args(fs, text, length);
    return err ? err : doorvervain_raw_apply_edits(fs, doorvervain_in(text), length, line);
}

// ---- compaction

// Compacts the trees: does at most `steps` steps, each of which moves pending changes down from the fullest slot, or makes
// room for that. Returns how many steps it did, fewer than `steps` only if nothing is pending or the next step cannot be
// done: an allocation failed, or no step was found that has room, which can happen at the smallest shapes, and a later
// change may end it. It changes no result of any call. Call it now and then, or never. Returns 0 for a closed volume, a
// null pointer, and while a transaction is open.
static inline uint32_t doorvervain_compact(struct doorvervain *fs, uint32_t steps) {
    return doorvervain_busy_args(fs, NULL, 0) ? 0 : doorvervain_raw_compact(fs, steps);
}

// ---- attribute records. These calls take no volume, and may be made from any thread. docs/FORMATS.md has the text of a record.
// A result is written if `capacity` is enough for all of it; `*size` is its length in bytes. With a smaller capacity the buffer is
// unchanged: DOORVERVAIN_ERANGE, or DOORVERVAIN_DONE if `capacity` is 0, which asks for the size.

// Whether a pointer to bytes, or one to a buffer, is null but must not be.
static inline int doorvervain_has_null(const void *bytes, size_t length, const void *out, size_t capacity) {
    return (!bytes && length) || (!out && capacity);
}

// Returns the directory for the attribute record of a path, below the reserved name: DOORVERVAIN_RESERVED, `tree`, and the names of
// the path; a name that begins with a byte 1 gets one more byte 1 before it. It has at most 1,023 bytes. Fails with ENOENT if the text is
// empty, with EINVAL or ENAMETOOLONG if it is no path, with EINVAL if the path is at or below the reserved name, with ENAMETOOLONG if the
// result would have a name of more than 255 bytes or more than 1,023 bytes, and with ENOMEM.
static inline uint8_t doorvervain_attr_dir(
    const char *path, size_t length, void *out, size_t capacity, size_t *size) {
    if (!size) return DOORVERVAIN_NULL;
    *size = 0;
    if (doorvervain_has_null(path, length, out, capacity)) return DOORVERVAIN_NULL;
    return doorvervain_raw_attr_dir(doorvervain_in(path), length, doorvervain_out(out), capacity, size);
}

// Returns the path of the attribute record of a path: the result of doorvervain_attr_dir, and one more name, the byte 1. Fails as
// doorvervain_attr_dir does, and also with ENAMETOOLONG if the result would have more than 1,023 bytes.
static inline uint8_t doorvervain_attr_path(
    const char *path, size_t length, void *out, size_t capacity, size_t *size) {
    if (!size) return DOORVERVAIN_NULL;
    *size = 0;
    if (doorvervain_has_null(path, length, out, capacity)) return DOORVERVAIN_NULL;
    return doorvervain_raw_attr_path(doorvervain_in(path), length, doorvervain_out(out), capacity, size);
}

// Encodes an attribute record. `extended` has the extended attributes one after the other, in increasing byte order of their names: the
// name of 1 to 255 bytes, a byte 0, the length of the value in four bytes, least significant first, and the value of at most 65,536
// bytes. `link` is used with DOORVERVAIN_OTHER_NAME alone, `device` with devices, `modified` and `held` if `has_modified` is not 0. Fails
// with EINVAL if there is no such kind, the mode has more than twelve bits, or the extended attributes are malformed; and with ENOMEM.
static inline uint8_t doorvervain_attr_encode(const struct doorvervain_attributes *attributes, const void *extended,
    size_t extended_length, void *out, size_t capacity, size_t *size) {
    if (!size) return DOORVERVAIN_NULL;
    *size = 0;
    if (!attributes || doorvervain_has_null(extended, extended_length, out, capacity)) return DOORVERVAIN_NULL;
    return doorvervain_raw_attr_encode(
        attributes, doorvervain_in(extended), extended_length, doorvervain_out(out), capacity, size);
}

// Decodes an attribute record. Fields that its kind does not have are 0. The extended attributes are written one after the other, as
// doorvervain_attr_encode takes them; they have no more bytes than the record. Fails with EINVAL if doorvervain_attr_encode never writes
// the text, and with ENOMEM; each field is 0 then.
static inline uint8_t doorvervain_attr_decode(const void *text, size_t length,
    struct doorvervain_attributes *attributes, void *extended, size_t capacity, size_t *size) {
    static struct doorvervain_attributes none; // each field is 0
    if (attributes) *attributes = none;
    if (size) *size = 0;
    if (!attributes || !size || doorvervain_has_null(text, length, extended, capacity)) return DOORVERVAIN_NULL;
    return doorvervain_raw_attr_decode(doorvervain_in(text), length, attributes, doorvervain_out(extended), capacity, size);
}

// ---- the release

// The release of the library that this header belongs to.
#define DOORVERVAIN_VERSION "0.2.0"

// ---- holes

// Punches a hole: sets `count` bytes of a file from `offset` on to zero, up to the file's end. The tree is the same as after a
// write of zeros there. The file keeps its size. Blocks that are entirely in the hole use no memory afterwards, and the call
// allocates none for them. If no byte of the range is within the file, nothing changes, and the file keeps its mtime. Fails with
// ENOENT or ENOTDIR if the path does not exist, with EISDIR if it is a directory, and with ENOMEM.
static inline uint8_t doorvervain_punch(
    struct doorvervain *fs, const char *path, size_t length, uint64_t offset, uint64_t count, uint64_t at) {
    uint8_t err = doorvervain_bad_args(fs, path, length);
    return err ? err : doorvervain_raw_punch(fs, doorvervain_in(path), length, offset, count, at);
}

// Copies `count` bytes of the file `from` from `offset` on, as far as it has them, to the file `to` from `target` on, which exists
// and may be the same file; the ranges may overlap (copy_file_range(2)). Returns in `*copied` how many bytes were copied. The tree is
// the same as after a write of these bytes. If both offsets are multiples of 4,096, whole blocks are shared, and take no memory until
// one is changed. The copy is atomic; one of no bytes changes nothing. Fails with ENOENT or ENOTDIR if a path does not exist, with
// EISDIR if it is a directory, with EFBIG if the copy reaches past 2^40 bytes, and with ENOMEM; `*copied` is 0 then.
static inline uint8_t doorvervain_copy_range(struct doorvervain *fs, const char *from, size_t from_length, uint64_t offset,
    const char *to, size_t to_length, uint64_t target, uint64_t count, uint64_t at, uint64_t *copied) {
    if (!copied) return DOORVERVAIN_NULL;
    *copied = 0;
    uint8_t err = doorvervain_bad_args(fs, from, from_length);
    if (!err) err = doorvervain_bad_args(fs, to, to_length);
    return err ? err
               : doorvervain_raw_copy_range(fs, doorvervain_in(from), from_length, offset, doorvervain_in(to), to_length,
                     target, count, at, copied);
}

// Returns the next allocated extent of a file at or after `offset`: the bytes from `*from` to `*to`, without the latter, within the
// file and not before `offset`. All bytes from `offset` to `*from` are zeros. If there is no such extent, both are the file's size.
// Fails with ENOENT or ENOTDIR if the path does not exist, with EISDIR if it is a directory, and with ENOMEM.
static inline uint8_t doorvervain_next_extent(const struct doorvervain *fs, const char *path, size_t length, uint64_t offset,
    uint64_t *from, uint64_t *to) {
    if (from) *from = 0;
    if (to) *to = 0;
    if (!from || !to) return DOORVERVAIN_NULL;
    uint8_t err = doorvervain_bad_args(fs, path, length);
    if (err) return err;
    struct doorvervain same = *fs;
    return doorvervain_raw_next_extent(&same, doorvervain_in(path), length, offset, from, to);
}

// Returns the next allocated extent of a file of a frozen tree, as doorvervain_next_extent does for a volume.
static inline uint8_t doorvervain_frozen_next_extent(const struct doorvervain_frozen *tree, const char *path, size_t length,
    uint64_t offset, uint64_t *from, uint64_t *to) {
    if (from) *from = 0;
    if (to) *to = 0;
    if (!from || !to) return DOORVERVAIN_NULL;
    uint8_t err = doorvervain_frozen_bad_args(tree, path, length);
    if (err) return err;
    struct doorvervain_frozen same = *tree;
    return doorvervain_raw_frozen_next_extent(&same, doorvervain_in(path), length, offset, from, to);
}

// ---- the write-ahead log (WAL) of a store

// A log is a sequence of records, whose numbers increase by one. A record is DOORVERVAIN_WAL_HEADER bytes, a body, and
// DOORVERVAIN_WAL_TRAILER bytes. A body is what one request changed: a sequence of entries, one for each change. An entry has
// DOORVERVAIN_WAL_ENTRY bytes and its texts: a path or a name, and after it the second path of a rename, the bytes of a write, or 8
// bytes and the second path of a copy; or a text of edits.
enum { DOORVERVAIN_WAL_HEADER = 24, DOORVERVAIN_WAL_TRAILER = 32, DOORVERVAIN_WAL_ENTRY = 48 };

// The error for a text, a buffer or a size that is null; else 0.
static inline uint8_t doorvervain_wal_bad_args(
    const void *text, size_t length, const void *out, size_t capacity, size_t *size) {
    if (!size) return DOORVERVAIN_NULL;
    *size = 0;
    return doorvervain_has_null(text, length, out, capacity) ? DOORVERVAIN_NULL : DOORVERVAIN_DONE;
}

// Encodes the entry of a mkdir with the timestamp `at`. Fails with ENOENT, EINVAL or ENAMETOOLONG if the text is not a path, and with
// ENOMEM.
static inline uint8_t doorvervain_wal_mkdir(
    const char *path, size_t length, uint64_t at, void *out, size_t capacity, size_t *size) {
    uint8_t err = doorvervain_wal_bad_args(path, length, out, capacity, size);
    return err ? err
                 : doorvervain_raw_wal_mkdir(doorvervain_in(path), length, at, doorvervain_out(out), capacity, size);
}

// Encodes the entry of a create, as doorvervain_wal_mkdir does.
static inline uint8_t doorvervain_wal_create(
    const char *path, size_t length, uint64_t at, void *out, size_t capacity, size_t *size) {
    uint8_t err = doorvervain_wal_bad_args(path, length, out, capacity, size);
    return err ? err
                 : doorvervain_raw_wal_create(doorvervain_in(path), length, at, doorvervain_out(out), capacity, size);
}

// Encodes the entry of an unlink, as doorvervain_wal_mkdir does.
static inline uint8_t doorvervain_wal_unlink(
    const char *path, size_t length, uint64_t at, void *out, size_t capacity, size_t *size) {
    uint8_t err = doorvervain_wal_bad_args(path, length, out, capacity, size);
    return err ? err
                 : doorvervain_raw_wal_unlink(doorvervain_in(path), length, at, doorvervain_out(out), capacity, size);
}

// Encodes the entry of an rmdir, as doorvervain_wal_mkdir does.
static inline uint8_t doorvervain_wal_rmdir(
    const char *path, size_t length, uint64_t at, void *out, size_t capacity, size_t *size) {
    uint8_t err = doorvervain_wal_bad_args(path, length, out, capacity, size);
    return err ? err
                 : doorvervain_raw_wal_rmdir(doorvervain_in(path), length, at, doorvervain_out(out), capacity, size);
}

// Encodes the entry of an rmtree, as doorvervain_wal_mkdir does.
static inline uint8_t doorvervain_wal_rmtree(
    const char *path, size_t length, uint64_t at, void *out, size_t capacity, size_t *size) {
    uint8_t err = doorvervain_wal_bad_args(path, length, out, capacity, size);
    return err ? err
                 : doorvervain_raw_wal_rmtree(doorvervain_in(path), length, at, doorvervain_out(out), capacity, size);
}

// Encodes the entry of a rename from the first path to the second. Fails as doorvervain_wal_mkdir does.
static inline uint8_t doorvervain_wal_rename(const char *from, size_t from_length, const char *to,
    size_t to_length, uint64_t at, void *out, size_t capacity, size_t *size) {
    uint8_t err = doorvervain_wal_bad_args(from, from_length, out, capacity, size);
    if (!err) err = doorvervain_wal_bad_args(to, to_length, out, capacity, size);
    return err ? err
                 : doorvervain_raw_wal_rename(doorvervain_in(from), from_length, doorvervain_in(to), to_length, at,
                       doorvervain_out(out), capacity, size);
}

// Encodes the entry of a truncate to the given number of bytes. Fails as doorvervain_wal_mkdir does.
static inline uint8_t doorvervain_wal_truncate(const char *path, size_t length, uint64_t bytes, uint64_t at,
    void *out, size_t capacity, size_t *size) {
    uint8_t err = doorvervain_wal_bad_args(path, length, out, capacity, size);
    return err
               ? err
               : doorvervain_raw_wal_truncate(doorvervain_in(path), length, bytes, at, doorvervain_out(out), capacity, size);
}

// Encodes the entry of a write of `count` bytes at `offset`. Fails as doorvervain_wal_mkdir does.
static inline uint8_t doorvervain_wal_write(const char *path, size_t length, uint64_t offset, const void *bytes,
    size_t count, uint64_t at, void *out, size_t capacity, size_t *size) {
    uint8_t err = doorvervain_wal_bad_args(path, length, out, capacity, size);
    if (!err) err = doorvervain_wal_bad_args(bytes, count, out, capacity, size);
    return err ? err
                 : doorvervain_raw_wal_write(doorvervain_in(path), length, offset, doorvervain_in(bytes), count, at,
                       doorvervain_out(out), capacity, size);
}

// Encodes the entry of a punch of `count` bytes at `offset`. Fails as doorvervain_wal_mkdir does.
static inline uint8_t doorvervain_wal_punch(const char *path, size_t length, uint64_t offset, uint64_t count,
    uint64_t at, void *out, size_t capacity, size_t *size) {
    uint8_t err = doorvervain_wal_bad_args(path, length, out, capacity, size);
    return err ? err
                 : doorvervain_raw_wal_punch(
                       doorvervain_in(path), length, offset, count, at, doorvervain_out(out), capacity, size);
}

// Encodes the entry of an mtime that is set, as doorvervain_set_mtime does. Fails as doorvervain_wal_mkdir does.
static inline uint8_t doorvervain_wal_set_mtime(
    const char *path, size_t length, uint64_t at, void *out, size_t capacity, size_t *size) {
    uint8_t err = doorvervain_wal_bad_args(path, length, out, capacity, size);
    return err ? err
                 : doorvervain_raw_wal_set_mtime(doorvervain_in(path), length, at, doorvervain_out(out), capacity, size);
}

// Encodes the entry of a copy, as doorvervain_copy_range makes it. Fails as doorvervain_wal_mkdir does.
static inline uint8_t doorvervain_wal_copy_range(const char *from, size_t from_length, uint64_t offset, const char *to,
    size_t to_length, uint64_t target, uint64_t count, uint64_t at, void *out, size_t capacity, size_t *size) {
    uint8_t err = doorvervain_wal_bad_args(from, from_length, out, capacity, size);
    if (!err) err = doorvervain_wal_bad_args(to, to_length, out, capacity, size);
    return err ? err
               : doorvervain_raw_wal_copy_range(doorvervain_in(from), from_length, offset, doorvervain_in(to), to_length,
                     target, count, at, doorvervain_out(out), capacity, size);
}

// Encodes the entry of a snapshot that is taken. Fails with EINVAL if the text is not a name, and with ENOMEM.
static inline uint8_t doorvervain_wal_snapshot(const char *name, size_t length, void *out, size_t capacity, size_t *size) {
    uint8_t err = doorvervain_wal_bad_args(name, length, out, capacity, size);
    return err ? err
                 : doorvervain_raw_wal_snapshot(doorvervain_in(name), length, doorvervain_out(out), capacity, size);
}

// Encodes the entry of a snapshot that is dropped, as doorvervain_wal_snapshot does.
static inline uint8_t doorvervain_wal_drop(const char *name, size_t length, void *out, size_t capacity, size_t *size) {
    uint8_t err = doorvervain_wal_bad_args(name, length, out, capacity, size);
    return err ? err
                 : doorvervain_raw_wal_drop(doorvervain_in(name), length, doorvervain_out(out), capacity, size);
}

// Encodes the entry of a snapshot that is restored, as doorvervain_wal_snapshot does.
static inline uint8_t doorvervain_wal_restore(const char *name, size_t length, void *out, size_t capacity, size_t *size) {
    uint8_t err = doorvervain_wal_bad_args(name, length, out, capacity, size);
    return err ? err
                 : doorvervain_raw_wal_restore(doorvervain_in(name), length, doorvervain_out(out), capacity, size);
}

// Encodes the entry of a text of edits, a delta of format 2. Any bytes are encoded: applying the entry fails, and changes nothing, at the
// first line that is no edit (EINVAL) or does not fit (ENOENT). Fails with ENOMEM.
static inline uint8_t doorvervain_wal_edits(const void *text, size_t length, void *out, size_t capacity, size_t *size) {
    uint8_t err = doorvervain_wal_bad_args(text, length, out, capacity, size);
    return err ? err
                 : doorvervain_raw_wal_edits(doorvervain_in(text), length, doorvervain_out(out), capacity, size);
}

// Encodes the frame of a body in the record of a number: the DOORVERVAIN_WAL_HEADER bytes before the body, and then the
// DOORVERVAIN_WAL_TRAILER bytes after it. Fails with ENOMEM.
static inline uint8_t doorvervain_wal_frame(
    uint64_t number, const void *body, size_t length, void *out, size_t capacity, size_t *size) {
    uint8_t err = doorvervain_wal_bad_args(body, length, out, capacity, size);
    return err ? err
                 : doorvervain_raw_wal_salted_frame(
                       doorvervain_in(NULL), 0, number, doorvervain_in(body), length, doorvervain_out(out), capacity, size);
}

// Returns the length of the body of a log's first record, which must have the given number. Fails with ENOENT if the log does not begin
// with such a record; if it has bytes then, its first record is truncated or corrupt.
static inline uint8_t doorvervain_wal_next(const void *log, size_t length, uint64_t number, size_t *size) {
    uint8_t err = doorvervain_wal_bad_args(log, length, NULL, 0, size);
    return err ? err : doorvervain_raw_wal_salted_next(doorvervain_in(log), length, doorvervain_in(NULL), 0, number, size);
}

// Dumps a body as the lines of a script that makes its changes, in their order and each with its timestamp. A punch, a copy and edits
// are comments without their timestamp, since scripts have no line for them: "# punch PATH OFFSET COUNT", "# copy FROM OFFSET TO
// TARGET COUNT", "# edits LENGTH". Fails with EINVAL if the bytes are not a body, with EFBIG if a write reaches past 2^64, and with ENOMEM.
static inline uint8_t doorvervain_wal_dump(
    const void *body, size_t length, void *out, size_t capacity, size_t *size) {
    uint8_t err = doorvervain_wal_bad_args(body, length, out, capacity, size);
    return err ? err
                 : doorvervain_raw_wal_dump(doorvervain_in(body), length, doorvervain_out(out), capacity, size);
}

// Applies the changes of a body, up to the first that fails: the call returns its error, and `*done` is how many were applied before it.
// `*done` is 0 if none fails. Also fails with EBUSY if a transaction is open, with EINVAL if the bytes are not a body, and with ENOMEM if
// it could not be decoded; `*done` is 0 then, and nothing was applied.
static inline uint8_t doorvervain_wal_apply(
    struct doorvervain *fs, const void *body, size_t length, size_t *done) {
    if (!done) return DOORVERVAIN_NULL;
    *done = 0;
    uint8_t err = doorvervain_busy_args(fs, body, length);
    return err ? err : doorvervain_raw_wal_apply(fs, doorvervain_in(body), length, done);
}

// Replays the valid records of a log, the first of which has the given number. `*records` is how many records were replayed, and
// `*size` how many bytes they have. If a change fails, the call returns its error, and `*done` is how many changes of its record were
// applied. Also fails with EBUSY if a transaction is open, and with EINVAL if the body of a record is not valid, or if a number of the log
// may exceed 2^64.
static inline uint8_t doorvervain_wal_replay(struct doorvervain *fs, const void *log, size_t length,
    uint64_t number, size_t *records, size_t *done, size_t *size) {
    if (records) *records = 0;
    if (done) *done = 0;
    if (size) *size = 0;
    if (!records || !done || !size) return DOORVERVAIN_NULL;
    uint8_t err = doorvervain_busy_args(fs, log, length);
    return err ? err
                 : doorvervain_raw_wal_salted_replay(
                       fs, doorvervain_in(log), length, doorvervain_in(NULL), 0, number, records, done, size);
}

// A log of version 2 has a salt: bytes of its own, which the digest of each record includes, so that a record of another log is not valid
// in it. The functions below are those above for the log of a salt, which must not be empty.

// Encodes the frame of a body in the record of a number, as doorvervain_wal_frame does.
static inline uint8_t doorvervain_wal_salted_frame(const void *salt, size_t salt_length, uint64_t number,
    const void *body, size_t length, void *out, size_t capacity, size_t *size) {
    uint8_t err = doorvervain_wal_bad_args(body, length, out, capacity, size);
    if (!err) err = doorvervain_wal_bad_args(salt, salt_length, out, capacity, size);
    return err ? err
                 : doorvervain_raw_wal_salted_frame(doorvervain_in(salt), salt_length, number, doorvervain_in(body), length,
                       doorvervain_out(out), capacity, size);
}

// Returns the length of the body of a log's first record, as doorvervain_wal_next does.
static inline uint8_t doorvervain_wal_salted_next(
    const void *log, size_t length, const void *salt, size_t salt_length, uint64_t number, size_t *size) {
    uint8_t err = doorvervain_wal_bad_args(log, length, NULL, 0, size);
    if (!err) err = doorvervain_wal_bad_args(salt, salt_length, NULL, 0, size);
    return err ? err
                 : doorvervain_raw_wal_salted_next(
                       doorvervain_in(log), length, doorvervain_in(salt), salt_length, number, size);
}

// Replays the valid records of a log, as doorvervain_wal_replay does.
static inline uint8_t doorvervain_wal_salted_replay(struct doorvervain *fs, const void *log, size_t length,
    const void *salt, size_t salt_length, uint64_t number, size_t *records, size_t *done, size_t *size) {
    if (records) *records = 0;
    if (done) *done = 0;
    if (size) *size = 0;
    if (!records || !done || !size) return DOORVERVAIN_NULL;
    uint8_t err = doorvervain_bad_args(fs, log, length);
    if (!err) err = doorvervain_busy_args(fs, salt, salt_length);
    return err ? err
                 : doorvervain_raw_wal_salted_replay(
                       fs, doorvervain_in(log), length, doorvervain_in(salt), salt_length, number, records, done, size);
}

// The name and the message of the number that a call returned, as "ENOENT: no such file or directory". Never null. The text is
// constant: do not free it.
static inline const char *doorvervain_strerror(uint8_t number) {
    switch (number) {
    case DOORVERVAIN_DONE: return "DONE: the call was done";
    case DOORVERVAIN_ENOENT: return "ENOENT: no such file or directory";
    case DOORVERVAIN_ENOTDIR: return "ENOTDIR: not a directory";
    case DOORVERVAIN_EISDIR: return "EISDIR: is a directory";
    case DOORVERVAIN_EEXIST: return "EEXIST: file exists";
    case DOORVERVAIN_ENOTEMPTY: return "ENOTEMPTY: directory not empty";
    case DOORVERVAIN_EPERM: return "EPERM: operation not permitted";
    case DOORVERVAIN_EINVAL: return "EINVAL: invalid argument";
    case DOORVERVAIN_ENAMETOOLONG: return "ENAMETOOLONG: name or path too long";
    case DOORVERVAIN_EFBIG: return "EFBIG: file too large";
    case DOORVERVAIN_EBUSY: return "EBUSY: the root cannot be moved or removed, or a transaction is open";
    case DOORVERVAIN_ENOMEM: return "ENOMEM: out of memory";
    case DOORVERVAIN_ENOSPC: return "ENOSPC: there are already 64 snapshots";
    case DOORVERVAIN_ERANGE: return "ERANGE: the buffer is too short";
    case DOORVERVAIN_NULL: return "NULL: a pointer is null";
    case DOORVERVAIN_CLOSED: return "CLOSED: the volume or tree is closed";
    default: return "UNKNOWN: no number of this library";
    }
}

// The release that the program was compiled for, as "0.2.0". The text is constant: do not free it.
static inline const char *doorvervain_version(void) { return DOORVERVAIN_VERSION; }

// What the linked library was built from, as "0.2.0, commit 0123456789ab, proved": the release, the commit, and whether the library was
// proved when it was built (`proved` or `unproved`). The text is constant: do not free it. An installed library has this function; the
// archive of a clone, crates/doorvervain/out/libdoorvervain.a, does not.
extern const char *doorvervain_build(void);

#ifdef __cplusplus
}
#endif

#endif
