// Requests on names: create, remove and rename.
//
// Invariant: called under the request lock. All calls of a request are one transaction, and inodes are moved only after
// it has ended well, so an error leaves the tree and the inodes as they were.
#define _GNU_SOURCE
#include "namei.h"
#include "entry_count.h"
#include "holes.h"
#include "hardlinks.h"
#include "attrs.h"
#include "memlimit.h"
#include "snapshots.h"
#include <assert.h>
#include <errno.h>
#include <stdio.h>
#include <stdlib.h>
#include <string.h>

// ---- what is made

// A directory with the set-group bit hands its group on, and a directory in it gets the bit too.
static int inherit_group(struct mount *mount, struct inode *parent, struct doorvervain_attributes *base) {
    const struct attrs *above;
    int err = attrs_of(mount, parent, &above);
    if (err || !(above->base.mode & S_ISGID)) return err;
    base->group = above->base.group;
    if (base->kind == DOORVERVAIN_DIRECTORY) base->mode |= S_ISGID;
    return 0;
}

static int write_target(struct txn *txn, const char *path, const char *target) {
    const struct backend *backend = &txn->mount->backend;
    size_t done;
    return backend->ops->write(backend->self, path, 0, target, strlen(target), txn->at, &done);
}

static int make_once(struct txn *txn, struct inode *parent, const struct resolved_path *resolved,
                     const struct create_args *args, struct attrs *attrs) {
    struct node_stat before;
    enum path_call what = args->base.kind == DOORVERVAIN_DIRECTORY ? CALL_MKDIR : CALL_CREATE;
    int err = fs_node_stat(txn->mount, parent, &before);
    if (!err) err = txn_create(txn, what, resolved->path, txn->at, before.mtime_ns);
    if (!err) err = attrs_create(txn, parent, resolved->path, attrs, NULL);
    if (!err && args->target) err = write_target(txn, resolved->path, args->target);
    return err;
}

static int make(struct mount *mount, struct inode *parent, const char *name, const struct resolved_path *resolved,
                const struct create_args *args, uint64_t at, struct inode **out) {
    struct txn txn;
    bool is_directory = args->base.kind == DOORVERVAIN_DIRECTORY;
    struct attrs attrs = {.base = args->base};
    struct inode *former = inode_find(parent, name); // of a tree that is not there any more
    *out = inode_add(parent, name, is_directory);
    if (!*out) return ENOMEM;
    txn_begin(&txn, mount, at);
    int err = txn_end(&txn, make_once(&txn, parent, resolved, args, &attrs));
    if (!err) attrs_remember(mount, *out, &attrs);
    if (!err && former) inode_detach(former);
    if (err) inode_detach(*out);
    return err;
}

static int may_make(struct mount *mount, const struct inode *parent, const char *name, struct resolved_path *resolved) {
    int err = fs_may_rename(parent, name);
    if (!err) err = inode_path(parent, name, resolved);
    return err ? err : attrs_can_store(mount, resolved->path);
}

int namei_create(struct request *request, struct inode *parent, const char *name, const struct create_args *args,
                 struct lookup_result *out) {
    assert(request_lock_is_held(request->mount));
    struct mount *mount = request->mount;
    struct resolved_path resolved;
    struct create_args wanted = *args;
    bool is_directory = args->base.kind == DOORVERVAIN_DIRECTORY;
    out->is_other_name = false;
    if (parent->role == SNAPSHOT_FOLDER) return is_directory ? snapshot_take(request, name, out) : EPERM;
    int err = may_make(mount, parent, name, &resolved);
    if (!err) err = inherit_group(mount, parent, &wanted.base);
    if (err) return err;
    attrs_untrust(mount, &wanted.base);
    do {
        memlimit_begin(&request->budget);
        err = make(mount, parent, name, &resolved, &wanted, request->at, &out->inode);
    } while (memlimit_retry(&request->budget, &mount->backend, &err));
    if (err) return err;
    entry_count_add(mount, parent, 1);
    if (is_directory) entry_count_note(mount, out->inode, 0);
    size_t length = args->target ? strlen(args->target) : 0;
    holes_dense(mount, out->inode, length);
    fs_fill_stat(mount, out->inode, (struct node_stat){is_directory, length, request->at}, &out->stat);
    return 0;
}

// ---- what is taken away

// Makes a directory again that was taken away. It and the directory above it have the moments that they had.
static void bring_back(struct txn *txn, const char *path, const struct node_stat *before,
                       const struct node_stat *above) {
    const struct backend *backend = &txn->mount->backend;
    struct private_path parked;
    memlimit_suspend();
    if (private_orphan_path(txn->mount, &parked)) return;
    backend->ops->change(backend->self, CALL_MKDIR, parked.text, before->mtime_ns);
    backend->ops->rename(backend->self, parked.text, path, above->mtime_ns);
}

// The directory first: whether it is empty no other call tells as fast.
static int take_folder(struct txn *txn, struct inode *parent, const struct resolved_path *resolved) {
    const struct backend *backend = &txn->mount->backend;
    struct node_stat before, above;
    int err = backend_stat(backend, (struct path_ref){NULL, resolved->path}, &before);
    if (!err) err = fs_node_stat(txn->mount, parent, &above);
    if (!err) err = backend->ops->change(backend->self, CALL_RMDIR, resolved->path, txn->at);
    if (err) return err;
    err = attrs_drop(txn, parent, resolved->path);
    if (err) bring_back(txn, resolved->path, &before, &above);
    return err;
}

static int remove_folder(struct mount *mount, struct inode *parent, const char *name,
                         const struct resolved_path *resolved, uint64_t at) {
    struct txn txn;
    struct inode *inode = inode_find(parent, name);
    txn_begin(&txn, mount, at);
    int err = txn_end(&txn, take_folder(&txn, parent, resolved));
    if (err) return err;
    entry_count_add(mount, parent, -1);
    if (!inode) return 0;
    inode->change = ns_to_timespec(at);
    inode_detach(inode);
    return 0;
}

static int find_known(struct mount *mount, struct inode *parent, const char *name, struct lookup_result *out) {
    *out = (struct lookup_result){.inode = inode_find(parent, name)};
    bool is_known = out->inode && out->inode->attrs_gen == mount->tree_gen;
    return is_known ? 0 : fs_lookup(mount, parent, name, out);
}

int namei_remove(struct request *request, struct inode *parent, const char *name, bool is_directory) {
    assert(request_lock_is_held(request->mount));
    struct mount *mount = request->mount;
    struct lookup_result result;
    struct resolved_path resolved;
    if (parent->role == SNAPSHOT_FOLDER) return is_directory ? snapshot_drop(mount, name) : EPERM;
    int err = fs_may_rename(parent, name);
    if (!err) err = inode_path(parent, name, &resolved);
    if (err) return err;
    if (is_directory) return remove_folder(mount, parent, name, &resolved, request->at);
    err = find_known(mount, parent, name, &result);
    if (err) return err;
    if (result.inode->is_directory) return EISDIR;
    if (result.is_other_name) err = hardlink_remove(mount, parent, name, result.inode, request->at);
    else err = orphan_unlink(mount, result.inode, request->at);
    if (!err) entry_count_add(mount, parent, -1);
    return err;
}

// ---- what moves

// A rename: what moves, and what it replaces, whose entry is null where nothing is there.
struct move {
    struct inode *parent, *new_parent;
    struct resolved_path from, to;
    struct lookup_result source, target;
    struct orphan orphan; // of a file that is replaced and has no other name
    struct attrs counted; // of one that has others
};

// A file that is replaced becomes an orphan first, so that nobody who has just found its name finds nothing.
static int clear_target(struct txn *txn, struct move *move) {
    struct inode *target = move->target.inode;
    if (!target || target->is_directory) return 0;
    if (move->target.is_other_name) return hardlink_count_down(txn, target, &move->counted);
    return orphan_move(txn, target, &move->orphan);
}

static int move_once(struct txn *txn, struct move *move) {
    const struct backend *backend = &txn->mount->backend;
    int err = clear_target(txn, move);
    if (!err) err = attrs_move(txn, move->parent, move->from.path, move->new_parent, move->to.path);
    return err ? err : backend->ops->rename(backend->self, move->from.path, move->to.path, txn->at);
}

static int move_path(struct request *request, struct move *move) {
    struct txn txn;
    int err;
    do {
        move->orphan.name = NULL;
        memlimit_begin(&request->budget);
        txn_begin(&txn, request->mount, request->at);
        err = txn_end(&txn, move_once(&txn, move));
        if (err) orphan_free(&move->orphan);
    } while (memlimit_retry(&request->budget, &request->mount->backend, &err));
    return err;
}

// The entries follow a rename that was done. A file with several names keeps its entry.
static void follow(struct mount *mount, struct move *move, char *name, uint64_t at) {
    struct inode *source = move->source.inode, *target = move->target.inode;
    entry_count_add(mount, move->parent, -1);
    if (!target) entry_count_add(mount, move->new_parent, 1);
    if (target && target->is_directory) inode_detach(target);
    else if (target && move->target.is_other_name) hardlink_follow(mount, target, &move->counted, at);
    else if (target) orphan_moved(mount, target, &move->orphan, at);
    struct inode *former = inode_find(move->new_parent, name); // of a tree that is not there any more
    if (former) inode_detach(former);
    source->change = ns_to_timespec(at);
    if (move->source.is_other_name) mem_free(name);
    else inode_move(source, move->new_parent, name);
}

// A directory is replaced where it is empty. That is looked at first, since records move before it.
static int may_replace(struct mount *mount, struct inode *source, struct inode *target) {
    struct bytes names = {NULL};
    if (source->is_directory != target->is_directory) return source->is_directory ? ENOTDIR : EISDIR;
    if (!target->is_directory) return 0;
    int err = fs_readdir(mount, target, &names);
    if (!err && names.length) err = ENOTEMPTY;
    bytes_free(&names);
    return err;
}

// What stands under both names: whether the one may take the place of the other.
static int find_both(struct mount *mount, struct move *move, const char *name, const char *new_name, unsigned flags) {
    int err = fs_lookup(mount, move->parent, name, &move->source);
    if (err) return err;
    err = fs_lookup(mount, move->new_parent, new_name, &move->target);
    if (err == ENOENT) move->target = (struct lookup_result){NULL};
    if (err) return err == ENOENT ? 0 : err;
    if (flags & RENAME_NOREPLACE) return EEXIST;
    return may_replace(mount, move->source.inode, move->target.inode);
}

static int may_move(struct mount *mount, struct move *move, const char *name, const char *new_name, unsigned flags) {
    int err = fs_may_rename(move->parent, name);
    if (!err) err = fs_may_rename(move->new_parent, new_name);
    if (!err && flags & ~(unsigned)RENAME_NOREPLACE) err = EINVAL;
    if (!err) err = inode_path(move->parent, name, &move->from);
    if (!err) err = inode_path(move->new_parent, new_name, &move->to);
    if (!err) err = attrs_can_store(mount, move->to.path);
    return err ? err : find_both(mount, move, name, new_name, flags);
}

int namei_rename(struct request *request, struct inode *parent, const char *name, struct inode *new_parent,
                 const char *new_name, unsigned flags) {
    assert(request_lock_is_held(request->mount));
    struct move move = {.parent = parent, .new_parent = new_parent};
    int err = may_move(request->mount, &move, name, new_name, flags);
    if (err || move.source.inode == move.target.inode) return err;
    char *copy = mem_strdup(new_name);
    err = copy ? move_path(request, &move) : ENOMEM;
    if (err) {
        mem_free(copy);
        return err;
    }
    follow(request->mount, &move, copy, request->at);
    return 0;
}
