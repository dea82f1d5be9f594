// copy_file_range(2). If both offsets are equally far into a block, whole blocks are shared; otherwise the library
// reads and writes the bytes.
//
// Invariant: a request copies at most 16 MiB, in some 4 ms, so a long copy takes several requests, and each reply says
// how many bytes were copied. If blocks are shared, a request ends at the end of a block or of the range.
#include "copy_range.h"
#include "fs_ops.h"
#include "holes.h"
#include "replica.h"
#include "memlimit.h"
#include <assert.h>
#include <errno.h>

enum { BLOCK = 4096, SHARED_AT_ONCE = 16 << 20 };

static uint64_t least(uint64_t one, uint64_t other) { return one < other ? one : other; }

// Whether both offsets are equally far into a block, so that whole blocks can be shared.
static bool shares(const struct copy_args *args) { return args->offset % BLOCK == args->target % BLOCK; }

// How many bytes a request copies. If blocks are shared, the next request begins at a block's start.
static uint64_t piece_of(const struct copy_args *args) {
    uint64_t most = shares(args) ? SHARED_AT_ONCE - args->offset % BLOCK : LARGEST_READ;
    return least(args->count, most);
}

// How many bytes one call of the library copies. A call shares blocks only if it begins at a block's start, so the
// bytes before the first start are copied by a call of their own.
static uint64_t part_of(const struct copy_range *range, uint64_t count) {
    uint64_t into = range->offset % BLOCK;
    return into && into == range->target % BLOCK ? least(count, BLOCK - into) : count;
}

// Copies by one call or two. If the second fails, what the first copied stays, and the copy succeeds with that.
static int copy_parts(const struct request *request, struct copy_range range, uint64_t *done) {
    const struct backend *backend = &request->mount->backend;
    uint64_t count = range.count;
    int err = 0;
    *done = 0;
    while (!err && *done < count) {
        uint64_t copied = 0;
        range.count = part_of(&range, count - *done);
        err = backend->ops->copy_range(backend->self, &range, request->at, &copied);
        if (!copied) break;
        range.offset += copied;
        range.target += copied;
        *done += copied;
    }
    return *done ? 0 : err;
}

static int copy_piece(struct request *request, const struct copy_range *range, uint64_t *done) {
    struct mount *mount = request->mount;
    int err;
    do {
        memlimit_begin(&request->budget);
        replica_change_begins(mount);
        err = replica_change_ends(mount, copy_parts(request, *range, done));
    } while (memlimit_retry(&request->budget, &mount->backend, &err));
    return err;
}

// Ends the copy at the end of the source. EINVAL if two ranges of one file overlap.
static int limit(struct mount *mount, struct copy_args *args) {
    struct node_stat node_stat;
    int err = fs_node_stat(mount, args->from, &node_stat);
    if (err) return err;
    args->count = args->offset < node_stat.length ? least(args->count, node_stat.length - args->offset) : 0;
    bool overlaps = args->offset < args->target + args->count && args->target < args->offset + args->count;
    return args->from == args->to && overlaps ? EINVAL : 0;
}

int copy_range(struct request *request, const struct copy_args *args, uint64_t *done) {
    assert(request_lock_is_held(request->mount));
    struct resolved_path from, to;
    struct copy_args wanted = *args;
    *done = 0;
    int err = fs_may_write(args->to);
    if (!err) err = inode_path(args->from, NULL, &from);
    if (!err) err = inode_path(args->to, NULL, &to);
    if (!err && from.snapshot) err = EOPNOTSUPP;
    if (!err) err = limit(request->mount, &wanted);
    if (err || !wanted.count) return err;
    struct copy_range range = {from.path, to.path, wanted.offset, wanted.target, piece_of(&wanted)};
    err = copy_piece(request, &range, done);
    holes_copied(request->mount, args->from, args->to, args->target, *done);
    if (err) return err;
    args->from->access = ns_to_timespec(request->at);
    args->from->has_access = true;
    request->accessed = args->from;
    return 0;
}
