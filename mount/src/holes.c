// Holes of files: fallocate(2), SEEK_DATA and SEEK_HOLE, and the number of bytes that are stored.
//
// Invariant: the number that an inode caches is right while its `blocks_gen` is the mount's `tree_gen`; a write or a
// truncation either keeps it right or forgets it.
#define _GNU_SOURCE
#include "holes.h"
#include "fs_ops.h"
#include "replica.h"
#include "memlimit.h"
#include <assert.h>
#include <errno.h>
#include <fcntl.h>
#include <unistd.h>

enum { BLOCK = 4096 };

// ---- what is remembered

static void forget(struct inode *inode) { inode->blocks_gen = 0; }

// What the blocks take that have so many bytes from the first block's beginning on.
static uint64_t whole(uint64_t bytes) { return (bytes + BLOCK - 1) / BLOCK * BLOCK; }

static bool is_dense(const struct mount *mount, const struct inode *inode) {
    return inode->blocks_gen == mount->tree_gen && inode->stored == whole(inode->length);
}

void holes_dense(struct mount *mount, struct inode *inode, uint64_t length) {
    inode->blocks_gen = mount->tree_gen;
    inode->length = length;
    inode->stored = whole(length);
}

void holes_written(struct mount *mount, struct inode *inode, uint64_t offset, size_t count) {
    if (!count) return;
    if (!is_dense(mount, inode) || offset > inode->length) forget(inode);
    else if (offset + count > inode->length) holes_dense(mount, inode, offset + count);
}

void holes_copied(struct mount *mount, const struct inode *from, struct inode *to, uint64_t target, uint64_t count) {
    if (count && !is_dense(mount, from)) forget(to);
    else holes_written(mount, to, target, count);
}

void holes_cut(struct mount *mount, struct inode *inode, uint64_t length) {
    if (is_dense(mount, inode) && length <= inode->length) holes_dense(mount, inode, length);
    else forget(inode);
}

static int next_data(struct mount *mount, const struct resolved_path *resolved, uint64_t offset, struct extent *out) {
    struct path_ref ref = {resolved->snapshot, resolved->path};
    return backend_next_extent(&mount->backend, ref, offset, out);
}

static int count_stored(struct mount *mount, struct inode *inode, uint64_t length, uint64_t *out) {
    struct resolved_path resolved;
    struct extent extent = {0, 0};
    int err = inode_path(inode, NULL, &resolved);
    *out = 0;
    for (uint64_t at = 0; !err && at < length; at = extent.to) {
        err = next_data(mount, &resolved, at, &extent);
        if (err || extent.from >= extent.to) break;
        *out += whole(extent.to) - extent.from / BLOCK * BLOCK;
    }
    return err;
}

uint64_t holes_stored(struct mount *mount, struct inode *inode, struct node_stat node_stat) {
    uint64_t stored;
    if (node_stat.is_directory) return 0;
    if (inode->blocks_gen == mount->tree_gen && inode->length == node_stat.length) return inode->stored;
    if (count_stored(mount, inode, node_stat.length, &stored)) return whole(node_stat.length);
    inode->blocks_gen = mount->tree_gen;
    inode->length = node_stat.length;
    inode->stored = stored;
    return stored;
}

// ---- what is asked for

int holes_seek(struct mount *mount, struct inode *inode, uint64_t offset, int whence, uint64_t *out) {
    assert(request_lock_is_held(mount));
    struct resolved_path resolved;
    struct node_stat node_stat;
    struct extent extent = {0, 0};
    if (whence != SEEK_DATA && whence != SEEK_HOLE) return EINVAL;
    int err = inode_path(inode, NULL, &resolved);
    if (!err) err = fs_node_stat(mount, inode, &node_stat);
    if (!err && node_stat.is_directory) return EINVAL;
    if (!err && offset >= node_stat.length) return ENXIO;
    if (!err) err = next_data(mount, &resolved, offset, &extent);
    if (err) return err;
    bool is_in_run = extent.from == offset && extent.from < extent.to;
    if (whence == SEEK_DATA && extent.from == extent.to) return ENXIO;
    *out = whence == SEEK_DATA ? extent.from : is_in_run ? extent.to : offset;
    return 0;
}

static int set_length(struct mount *mount, struct inode *inode, const struct resolved_path *resolved, uint64_t length,
                      uint64_t at) {
    int err = mount->backend.ops->truncate(mount->backend.self, resolved->path, length, at);
    if (!err) holes_cut(mount, inode, length);
    return err;
}

// A hole of a file that has `length` bytes. One that reaches the file's end is made by a cut, which gives a last block
// back also where that is shorter than others. Then the file gets its length again: no size of the mount refuses that.
static int make_hole(struct mount *mount, struct inode *inode, const struct resolved_path *resolved, uint64_t length,
                     struct extent hole, uint64_t at) {
    if (hole.from >= length || hole.to < length) {
        forget(inode);
        return mount->backend.ops->punch(mount->backend.self, resolved->path, hole.from, hole.to - hole.from, at);
    }
    int err = set_length(mount, inode, resolved, hole.from, at);
    if (err) return err;
    memlimit_suspend();
    return set_length(mount, inode, resolved, length, at);
}

// The longer file first: where a hole cannot be made, the file has the length again that it had.
static int allocate_once(struct mount *mount, struct inode *inode, const struct resolved_path *resolved, int mode,
                         struct extent range, uint64_t at) {
    struct node_stat before;
    int err = fs_node_stat(mount, inode, &before);
    bool lengthens = !(mode & FALLOC_FL_KEEP_SIZE) && range.to > before.length;
    if (!err && lengthens) err = set_length(mount, inode, resolved, range.to, at);
    if (err || !(mode & (FALLOC_FL_PUNCH_HOLE | FALLOC_FL_ZERO_RANGE))) return err;
    err = make_hole(mount, inode, resolved, lengthens ? range.to : before.length, range, at);
    if (!err) return 0;
    memlimit_suspend();
    set_length(mount, inode, resolved, before.length, before.mtime_ns);
    return err;
}

static int allocate(const struct request *request, struct inode *inode, const struct resolved_path *resolved, int mode,
                    struct extent range) {
    struct mount *mount = request->mount;
    replica_change_begins(mount);
    return replica_change_ends(mount, allocate_once(mount, inode, resolved, mode, range, request->at));
}

int holes_allocate(struct request *request, struct inode *inode, int mode, uint64_t offset, uint64_t count) {
    assert(request_lock_is_held(request->mount));
    const int known = FALLOC_FL_KEEP_SIZE | FALLOC_FL_PUNCH_HOLE | FALLOC_FL_ZERO_RANGE;
    struct resolved_path resolved;
    if (mode & ~known) return EOPNOTSUPP;
    if (count > UINT64_MAX - offset) return EFBIG;
    struct extent range = {offset, offset + count};
    int err = fs_may_write(inode);
    if (!err) err = inode_path(inode, NULL, &resolved);
    if (err) return err;
    // It gives room back, so that no size of the mount refuses it.
    if (mode & FALLOC_FL_PUNCH_HOLE) return allocate(request, inode, &resolved, mode, range);
    do {
        memlimit_begin(&request->budget);
        err = allocate(request, inode, &resolved, mode, range);
    } while (memlimit_retry(&request->budget, &request->mount->backend, &err));
    return err;
}
