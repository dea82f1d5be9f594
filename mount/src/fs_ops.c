// What each request on a file or directory does to the tree and to the inodes.
//
// Invariant: called under the request lock; a function that fails has changed nothing. An inode's cached attributes are
// used only while its `attrs_gen` is the mount's `tree_gen`.
#define _GNU_SOURCE
#include "fs_ops.h"
#include "orphan.h"
#include "holes.h"
#include "hardlinks.h"
#include "attrs.h"
#include "replica.h"
#include "memlimit.h"
#include <assert.h>
#include <errno.h>
#include <fcntl.h>
#include <string.h>
#include <unistd.h>

enum { LONGEST_TARGET = 4095 };

bool fs_is_reserved(const struct inode *parent, const char *name) {
    return (parent->role == LIVE_ROOT || parent->role == SNAPSHOT_ROOT) &&
           (!strcmp(name, SNAPSHOTS) || !strcmp(name, RESERVED));
}

int fs_may_write(const struct inode *inode) { return inode->parent && !inode_is_live(inode) ? EROFS : 0; }

int fs_may_rename(const struct inode *parent, const char *name) {
    int err = fs_may_write(parent);
    return err ? err : fs_is_reserved(parent, name) ? EPERM : 0;
}

int fs_start(struct mount *mount) {
    mount->user = getuid();
    mount->group = getgid();
    mount->tree_gen = mount->record_dirs_gen = 1;
    mount->root = inodes_start();
    return mount->root ? private_start(mount) : ENOMEM;
}

// The kernel that knew the entries is told nothing any more.
int fs_end(struct mount *mount) {
    if (mount->deferred) mount->deferred->nlookup = 0;
    int err = orphan_flush_deferred(mount);
    int other = private_end(mount);
    return err ? err : other;
}

// ---- what is told

static int stand(struct mount *mount, const struct resolved_path *resolved, struct node_stat *out) {
    return backend_stat(&mount->backend, (struct path_ref){resolved->snapshot, resolved->path}, out);
}

int fs_node_stat(struct mount *mount, const struct inode *inode, struct node_stat *out) {
    assert(request_lock_is_held(mount));
    struct resolved_path resolved;
    bool is_gone_directory = inode->is_directory && !inode->parent && inode->role != LIVE_ROOT;
    *out = (struct node_stat){.is_directory = inode->is_directory};
    if (inode->role == SNAPSHOT_FOLDER || is_gone_directory) return 0;
    int err = inode_path(inode, NULL, &resolved);
    return err ? err : stand(mount, &resolved, out);
}

static mode_t kind_of(const struct doorvervain_attributes *base) {
    switch (base->kind) {
    case DOORVERVAIN_DIRECTORY: return S_IFDIR;
    case DOORVERVAIN_SYMBOLIC_LINK: return S_IFLNK;
    case DOORVERVAIN_FIFO: return S_IFIFO;
    case DOORVERVAIN_SOCKET: return S_IFSOCK;
    case DOORVERVAIN_CHARACTER_DEVICE: return S_IFCHR;
    case DOORVERVAIN_BLOCK_DEVICE: return S_IFBLK;
    default: return S_IFREG;
    }
}

static struct timespec later(struct timespec one, struct timespec other) {
    bool is_later = other.tv_sec > one.tv_sec || (other.tv_sec == one.tv_sec && other.tv_nsec > one.tv_nsec);
    return is_later ? other : one;
}

// A time that was set by hand is told for as long as the tree has the timestamp at which it was set.
static struct timespec time_of_bytes(const struct doorvervain_attributes *base, uint64_t mtime_ns) {
    bool holds = base->has_modified && base->held == mtime_ns;
    if (holds && !base->modified) return (struct timespec){0};
    return ns_to_timespec(holds ? base->modified : mtime_ns);
}

void fs_fill_stat(struct mount *mount, struct inode *inode, struct node_stat node_stat, struct stat *out) {
    const struct attrs *attrs = &inode->attrs;
    struct timespec modified = time_of_bytes(&attrs->base, node_stat.mtime_ns);
    struct timespec changed = later(ns_to_timespec(node_stat.mtime_ns), inode->change);
    bool is_gone = !inode->parent && inode->role != LIVE_ROOT;
    if (attrs->changed) changed = later(changed, ns_to_timespec(attrs->changed));
    *out = (struct stat){
        .st_ino = inode->ino,
        .st_mode = kind_of(&attrs->base) | attrs->base.mode,
        .st_nlink = is_gone || inode->is_unlinked ? 0 : attrs->base.names,
        .st_uid = attrs->base.user,
        .st_gid = attrs->base.group,
        .st_rdev = attrs->base.device,
        .st_size = (off_t)node_stat.length,
        .st_blksize = 4096,
        .st_blocks = (blkcnt_t)(holes_stored(mount, inode, node_stat) / 512),
        .st_atim = inode->has_access ? inode->access : modified,
        .st_mtim = modified,
        .st_ctim = changed,
    };
}

// An entry of the mount's own, or a snapshot: the volume need not be asked.
static int find_private(struct mount *mount, struct inode *parent, const char *name, struct lookup_result *out) {
    if (!strcmp(name, RESERVED) || parent->role == SNAPSHOT_ROOT) return ENOENT;
    out->inode = inode_find(parent, name);
    if (!out->inode) return ENOENT;
    return fs_getattr(mount, out->inode, &out->stat);
}

// The entry of a name, where it is known. One that stands for another kind is out: the kernel never changes a kind.
static struct inode *known_inode(struct inode *parent, const char *name, const struct doorvervain_attributes *base) {
    struct inode *known = inode_find(parent, name);
    if (!known || !known->attrs_gen || known->attrs.base.kind == base->kind) return known;
    inode_detach(known);
    return NULL;
}

// The entry of what stands under a name, by what its record says.
static int find_inode(struct mount *mount, struct inode *parent, const char *name, const struct resolved_path *resolved,
                      struct node_stat *node_stat, struct lookup_result *out) {
    struct attrs attrs;
    out->inode = inode_find(parent, name);
    if (out->inode && out->inode->attrs_gen == mount->tree_gen) return 0;
    int err = attrs_read_name(mount, parent, resolved, node_stat->is_directory, &attrs);
    if (err) return err;
    if (attrs.base.kind == DOORVERVAIN_OTHER_NAME) {
        err = hardlink_find(mount, parent, resolved, &attrs, node_stat, out);
        if (err || out->is_other_name) return err;
    }
    out->inode = known_inode(parent, name, &attrs.base);
    if (!out->inode) out->inode = inode_add(parent, name, node_stat->is_directory);
    if (!out->inode) return ENOMEM;
    attrs_remember(mount, out->inode, &attrs);
    return 0;
}

int fs_lookup(struct mount *mount, struct inode *parent, const char *name, struct lookup_result *out) {
    assert(request_lock_is_held(mount));
    struct resolved_path resolved;
    struct node_stat node_stat;
    out->is_other_name = false;
    if (parent->role == SNAPSHOT_FOLDER || fs_is_reserved(parent, name)) return find_private(mount, parent, name, out);
    int err = inode_path(parent, name, &resolved);
    if (!err) err = stand(mount, &resolved, &node_stat);
    if (!err) err = find_inode(mount, parent, name, &resolved, &node_stat, out);
    if (!err) fs_fill_stat(mount, out->inode, node_stat, &out->stat);
    return err;
}

int fs_getattr(struct mount *mount, struct inode *inode, struct stat *out) {
    struct node_stat node_stat;
    const struct attrs *attrs;
    int err = fs_node_stat(mount, inode, &node_stat);
    if (!err) err = attrs_of(mount, inode, &attrs);
    if (!err) fs_fill_stat(mount, inode, node_stat, out);
    return err;
}

// ---- what is set

// A file that is cut, or lengthened, at a moment; one that keeps its length gets the mtime alone.
struct truncation {
    bool is_wanted, lengthens;
    uint64_t length, at;
};

// A time that is set to now is the tree's own mtime; any other goes into the record.
static struct truncation find_cut(const struct inode *inode, const struct setattr *setattr,
                                  const struct node_stat *node_stat, uint64_t at) {
    uint64_t length = setattr->length ? *setattr->length : node_stat->length;
    return (struct truncation){.is_wanted = !inode->is_directory && (setattr->length || setattr->modifies_now),
                               .lengthens = length > node_stat->length,
                               .length = length,
                               .at = at};
}

// The moment that an entry has once it is set.
static uint64_t next_mtime(const struct truncation *truncation, const struct node_stat *node_stat) {
    return truncation->is_wanted ? truncation->at : node_stat->mtime_ns;
}

static mode_t set_user_bits(mode_t mode) { return mode & (mode & S_IXGRP ? S_ISUID | S_ISGID : S_ISUID); }

static void apply(const struct setattr *setattr, uint64_t mtime_ns, struct doorvervain_attributes *base) {
    if (setattr->mode) base->mode = *setattr->mode & 07777;
    if (setattr->drops_set_user) base->mode &= ~set_user_bits(base->mode);
    if (setattr->user) base->user = *setattr->user;
    if (setattr->group) base->group = *setattr->group;
    if (!setattr->modify) return;
    base->modified = timespec_to_ns(*setattr->modify);
    base->held = mtime_ns;
    base->has_modified = base->modified != mtime_ns;
}

static bool is_other(const struct attrs *attrs, const struct attrs *before) {
    const struct doorvervain_attributes *one = &attrs->base, *other = &before->base;
    return attrs->has_capability != before->has_capability || one->mode != other->mode || one->user != other->user ||
           one->group != other->group || one->has_modified != other->has_modified ||
           (one->has_modified && one->modified != other->modified);
}

static int cut_file(struct mount *mount, struct inode *inode, const struct truncation *truncation) {
    struct resolved_path resolved;
    int err = inode_path(inode, NULL, &resolved);
    if (!err)
        err = mount->backend.ops->truncate(mount->backend.self, resolved.path, truncation->length, truncation->at);
    if (!err) holes_cut(mount, inode, truncation->length);
    return err;
}

// The record first: what a file loses when it is cut no call brings back.
static int set_once(struct mount *mount, struct inode *inode, const struct truncation *truncation, struct attrs *attrs,
                    bool is_changed, uint64_t at) {
    struct txn txn;
    txn_begin(&txn, mount, at);
    int err = is_changed ? attrs_rewrite(&txn, inode, attrs) : 0;
    if (!err && truncation->is_wanted) err = cut_file(mount, inode, truncation);
    return txn_end(&txn, err);
}

// What is cut gives room back, so that no size of the mount refuses it.
static int set_attributes(struct request *request, struct inode *inode, const struct truncation *truncation,
                          const struct attrs *attrs, bool is_changed) {
    struct mount *mount = request->mount;
    struct attrs wanted;
    int err;
    do {
        wanted = *attrs;
        if (is_changed || truncation->lengthens) memlimit_begin(&request->budget);
        err = set_once(mount, inode, truncation, &wanted, is_changed, request->at);
    } while (memlimit_retry(&request->budget, &mount->backend, &err));
    if (!err) attrs_remember(mount, inode, &wanted);
    return err;
}

// Another owner holds where records are believed.
static int may_set_owner(const struct mount *mount, const struct doorvervain_attributes *base,
                         const struct setattr *setattr) {
    bool changes_user = setattr->user && *setattr->user != base->user;
    bool changes_group = setattr->group && *setattr->group != base->group;
    return (changes_user || changes_group) && !mount->trusts_attributes ? EPERM : 0;
}

int fs_setattr(struct request *request, struct inode *inode, const struct setattr *setattr) {
    assert(request_lock_is_held(request->mount));
    struct mount *mount = request->mount;
    const struct attrs *known;
    struct node_stat node_stat;
    int err = fs_may_write(inode);
    if (!err) err = attrs_of(mount, inode, &known);
    if (!err) err = may_set_owner(mount, &known->base, setattr);
    if (!err) err = fs_node_stat(mount, inode, &node_stat);
    if (err) return err;
    struct truncation truncation = find_cut(inode, setattr, &node_stat, request->at);
    uint64_t mtime_ns = next_mtime(&truncation, &node_stat);
    struct attrs wanted = *known;
    if (wanted.base.held != mtime_ns) wanted.base.has_modified = 0;
    struct attrs before = wanted;
    apply(setattr, mtime_ns, &wanted.base);
    if (setattr->drops_capability) wanted.has_capability = false;
    attrs_untrust(mount, &wanted.base);
    err = set_attributes(request, inode, &truncation, &wanted, is_other(&wanted, &before));
    if (err) return err;
    inode->has_access |= setattr->access != NULL;
    if (setattr->access) inode->access = *setattr->access;
    inode->change = ns_to_timespec(request->at);
    return 0;
}

// ---- bytes

// Mostly there is nothing to take.
int fs_drop_privileges(struct request *request, struct inode *inode, bool drops) {
    assert(request_lock_is_held(request->mount));
    const struct attrs *attrs;
    int err = attrs_of(request->mount, inode, &attrs);
    bool has_bits = drops && set_user_bits(attrs->base.mode);
    if (err || (!has_bits && !attrs->has_capability)) return err;
    if (has_bits) request->stale = inode;
    return fs_setattr(request, inode, &(struct setattr){.drops_set_user = drops, .drops_capability = true});
}

// Both are one change. Where that only waits, the entry has the attributes that it had.
static int cut_open(struct request *request, struct inode *inode, bool drops) {
    struct mount *mount = request->mount;
    struct attrs before = inode->attrs;
    replica_change_begins(mount);
    int err = fs_drop_privileges(request, inode, drops);
    if (!err) err = cut_file(mount, inode, &(struct truncation){.is_wanted = true, .at = request->at});
    err = replica_change_ends(mount, err);
    if (err && mount->replica) inode->attrs = before;
    return err;
}

int fs_open(struct request *request, struct inode *inode, int flags, bool drops) {
    assert(request_lock_is_held(request->mount));
    bool cuts = flags & O_TRUNC;
    bool changes = cuts || (flags & O_ACCMODE) != O_RDONLY;
    int err = changes ? fs_may_write(inode) : 0;
    if (!err && cuts) err = cut_open(request, inode, drops);
    if (!err) inode->open_count++;
    return err;
}

int fs_release(struct request *request, struct inode *inode) {
    assert(request_lock_is_held(request->mount));
    inode->open_count--;
    return orphan_put(request->mount, inode, request->at);
}

int fs_read(const struct request *request, struct inode *inode, uint64_t offset, char *out, size_t capacity,
            size_t *got) {
    assert(request_lock_is_held(request->mount));
    struct resolved_path resolved;
    *got = 0;
    int err = inode_path(inode, NULL, &resolved);
    while (!err && *got < capacity) {
        size_t part = capacity - *got < LARGEST_READ ? capacity - *got : LARGEST_READ, count = 0;
        struct path_ref ref = {resolved.snapshot, resolved.path};
        err = backend_read(&request->mount->backend, ref, offset + *got, out + *got, part, &count);
        *got += count;
        if (count < part) break;
    }
    if (err) return err;
    inode->access = ns_to_timespec(request->at);
    inode->has_access = true;
    return 0;
}

int fs_readlink(const struct request *request, struct inode *inode, struct bytes *out) {
    int err = bytes_reserve(out, LONGEST_TARGET + 1);
    if (!err) err = fs_read(request, inode, 0, out->at, LONGEST_TARGET, &out->length);
    return err ? err : bytes_append(out, "", 1);
}

int files_find_end(struct mount *mount, const struct inode *inode, uint64_t *offset) {
    struct node_stat node_stat;
    if (!mount->replica) return 0;
    int err = fs_node_stat(mount, inode, &node_stat);
    if (!err) *offset = node_stat.length;
    return err;
}

int fs_write(struct request *request, struct inode *inode, uint64_t offset, const char *bytes, size_t count,
             size_t *done) {
    assert(request_lock_is_held(request->mount));
    const struct backend *backend = &request->mount->backend;
    struct resolved_path resolved;
    *done = 0;
    int err = inode_path(inode, NULL, &resolved);
    if (!err && resolved.snapshot) err = EROFS;
    if (err) return err;
    do {
        memlimit_begin(&request->budget);
        err = backend->ops->write(backend->self, resolved.path, offset, bytes, count, request->at, done);
    } while (memlimit_retry(&request->budget, backend, &err));
    holes_written(request->mount, inode, offset, *done);
    return *done ? 0 : err;
}

// ---- listings

static int append_child(struct bytes *out, const struct inode *child) {
    int err = bytes_append(out, "d", 1);
    return err ? err : bytes_append(out, child->name, strlen(child->name) + 1);
}

static int list_snapshots(const struct inode *folder, struct bytes *out) {
    int err = 0;
    for (const struct inode *child = folder->first; child && !err; child = child->after) err = append_child(out, child);
    return err;
}

// Takes a name out of a listing.
static void leave_out(struct bytes *listing, const char *name) {
    for (size_t at = 0; at < listing->length;) {
        size_t size = strlen(listing->at + at) + 1;
        if (strcmp(listing->at + at + 1, name)) {
            at += size;
            continue;
        }
        memmove(listing->at + at, listing->at + at + size, listing->length - at - size);
        listing->length -= size;
        return;
    }
}

void fs_hide_reserved(const struct inode *directory, struct bytes *listing) {
    if (directory->role != LIVE_ROOT && directory->role != SNAPSHOT_ROOT) return;
    leave_out(listing, RESERVED);
    leave_out(listing, SNAPSHOTS);
}

int fs_readdir(struct mount *mount, struct inode *inode, struct bytes *out) {
    assert(request_lock_is_held(mount));
    struct resolved_path resolved;
    if (inode->role == SNAPSHOT_FOLDER) return list_snapshots(inode, out);
    int err = inode_path(inode, NULL, &resolved);
    if (!err) err = backend_readdir(&mount->backend, (struct path_ref){resolved.snapshot, resolved.path}, out);
    if (!err) fs_hide_reserved(inode, out);
    return err;
}
