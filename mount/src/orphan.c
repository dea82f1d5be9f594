// Unlinked files that are still open, or that the kernel still knows.
//
// Invariant: such a file and its record are in the private directory `unlinked` until nobody holds its inode; no
// listing shows it, and no image and no restored tree has it. At most one unlinked file is deferred, that is, still at
// its old path; `orphan_flush_deferred` moves it before any other request that could see it.
#include "orphan.h"
#include "fs_ops.h"
#include "hardlinks.h"
#include "attrs.h"
#include "store.h"
#include "memlimit.h"
#include <assert.h>
#include <errno.h>
#include <stdlib.h>
#include <string.h>

static int move(struct txn *txn, struct inode *inode, const struct resolved_path *resolved,
                const struct private_path *to) {
    struct node_stat parent;
    int err = fs_node_stat(txn->mount, inode->parent, &parent);
    if (!err && inode->attrs.has_record) err = attrs_move_one(txn, resolved->path, to->text);
    return err ? err : txn_rename(txn, resolved->path, to->text, txn->at, parent.mtime_ns);
}

int orphan_move(struct txn *txn, struct inode *inode, struct orphan *out) {
    const struct attrs *attrs;
    struct resolved_path resolved;
    out->name = NULL;
    int err = inode_path(inode, NULL, &resolved);
    if (!err) err = attrs_of(txn->mount, inode, &attrs);
    if (!err) err = private_orphan_path(txn->mount, &out->path);
    if (err) return err;
    out->name = mem_strdup(private_name(&out->path));
    err = out->name ? move(txn, inode, &resolved, &out->path) : ENOMEM;
    if (err) orphan_free(out);
    return err;
}

void orphan_free(struct orphan *orphan) {
    mem_free(orphan->name);
    orphan->name = NULL;
}

void orphan_moved(struct mount *mount, struct inode *inode, struct orphan *orphan, uint64_t at) {
    struct inode *folder = inode_private_dir(mount->root, UNLINKED);
    if (!folder) {
        orphan_free(orphan);
        inode_detach(inode);
        return;
    }
    inode_move(inode, folder, orphan->name);
    inode->is_unlinked = true;
    inode->change = ns_to_timespec(at);
    orphan_put(mount, inode, at);
}

// A file that somebody holds becomes an orphan, and lives there until nobody does.
static int move_orphan(struct mount *mount, struct inode *inode, uint64_t at) {
    struct txn txn;
    struct orphan orphan;
    txn_begin(&txn, mount, at);
    int err = txn_end(&txn, orphan_move(&txn, inode, &orphan));
    if (err) orphan_free(&orphan);
    else orphan_moved(mount, inode, &orphan, at);
    return err;
}

static int take_record(struct txn *txn, struct inode *inode, const struct resolved_path *resolved) {
    bool is_known = inode->attrs_gen == txn->mount->tree_gen;
    if (is_known && !inode->attrs.has_record) return 0;
    const struct attrs *known = is_known ? &inode->attrs : NULL;
    if (inode->parent->role == PRIVATE_DIR) return attrs_drop_one(txn, resolved->path, known);
    return is_known ? attrs_erase(txn, inode->parent, resolved->path, known)
                    : attrs_drop(txn, inode->parent, resolved->path);
}

static int take_once(struct txn *txn, struct inode *inode, const struct resolved_path *resolved) {
    const struct backend *backend = &txn->mount->backend;
    int err = take_record(txn, inode, resolved);
    return err ? err : backend->ops->change(backend->self, CALL_UNLINK, resolved->path, txn->at);
}

int orphan_delete(struct mount *mount, struct inode *inode, uint64_t at) {
    struct txn txn;
    struct resolved_path resolved;
    int err = inode_path(inode, NULL, &resolved);
    if (err && err != ENOENT) return err;
    if (!err) {
        txn_begin(&txn, mount, at);
        err = txn_end(&txn, take_once(&txn, inode, &resolved));
    }
    if (err && err != ENOENT) return err;
    if (inode->parent) inode_detach(inode);
    return 0;
}

// If there is no memory to make it an orphan, its bytes go, and whoever holds it has nothing to read.
static int settle(struct mount *mount, struct inode *inode, const char *name, uint64_t at) {
    if (name) return hardlink_remove_last(mount, inode, name, at);
    bool is_orphan = inode_is_held(inode) && !move_orphan(mount, inode, at);
    return is_orphan ? 0 : orphan_delete(mount, inode, at);
}

// The removal of a name was answered before a store refused changes: else each later request would be refused with it.
static void complete_begins(struct mount *mount) {
    if (mount->store) store_complete_begins(mount->store);
}

static void complete_ends(struct mount *mount) {
    if (mount->store) store_complete_ends(mount->store);
}

int orphan_flush_deferred(struct mount *mount) {
    assert(request_lock_is_held(mount));
    struct inode *inode = mount->deferred;
    char *name = mount->deferred_path;
    if (!inode) return 0;
    mount->deferred = NULL;
    complete_begins(mount);
    int err = settle(mount, inode, name, mount->deferred_at);
    complete_ends(mount);
    if (err) {
        mount->deferred = inode;
        return err;
    }
    mem_free(name);
    mount->deferred_path = NULL;
    return 0;
}

int orphan_unlink_now(struct mount *mount, struct inode *inode, uint64_t at) {
    return inode_is_held(inode) ? move_orphan(mount, inode, at) : orphan_delete(mount, inode, at);
}

bool orphan_defer(struct mount *mount, struct inode *inode, const char *name, uint64_t at) {
    assert(!mount->deferred && !mount->deferred_path);
    // In the log of several mounts a request's change is its own. Where a store refuses changes, that is answered now.
    if (!inode_is_held(inode) || inode->open_count || mount->replica) return false;
    if (mount->store && store_refuses(mount->store)) return false;
    mount->deferred_path = name ? mem_strdup(name) : NULL;
    if (name && !mount->deferred_path) return false;
    mount->deferred = inode;
    mount->deferred_at = at;
    return true;
}

int orphan_unlink(struct mount *mount, struct inode *inode, uint64_t at) {
    return orphan_defer(mount, inode, NULL, at) ? 0 : orphan_unlink_now(mount, inode, at);
}

int orphan_put(struct mount *mount, struct inode *inode, uint64_t at) {
    assert(request_lock_is_held(mount));
    if (inode_is_held(inode)) return 0;
    if (inode == mount->deferred) {
        int err = orphan_flush_deferred(mount);
        if (err) inode->is_pinned = true;
        return err;
    }
    if (!inode->is_unlinked || !inode->parent) {
        inode_put(inode);
        return 0;
    }
    complete_begins(mount);
    int err = orphan_delete(mount, inode, at);
    complete_ends(mount);
    if (err) inode_detach(inode); // The bytes go with the mount's own directory.
    return err;
}

void orphan_forget(struct mount *mount, struct inode *inode, uint64_t lookups, uint64_t at) {
    inode->nlookup -= lookups < inode->nlookup ? lookups : inode->nlookup;
    orphan_put(mount, inode, at);
}
