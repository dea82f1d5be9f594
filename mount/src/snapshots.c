// Snapshots as directories of /.snapshots: take, drop, restore.
//
// Invariant: a snapshot has no orphans, if a name for a savepoint is left. At a restore an inode stays if its path has
// a file of its kind in the new tree; all others are detached, and each name and inode that the kernel may hold stale
// is in the list of `struct stale_dentry`.
#include "snapshots.h"
#include "entry_count.h"
#include "private_dir.h"
#include "attrs.h"
#include "memlimit.h"
#include "store.h"
#include <assert.h>
#include <errno.h>
#include <stdlib.h>
#include <string.h>

static struct inode *folder(const struct mount *mount) { return inode_find(mount->root, SNAPSHOTS); }

static int call_snapshot(struct mount *mount, enum snapshot_call what, const char *name) {
    return mount->backend.ops->snapshot(mount->backend.self, what, name);
}

// Takes the tree without its orphans, which are in it again then.
static int take_without_orphans(struct mount *mount, const char *name) {
    int err = mount->backend.ops->change(mount->backend.self, CALL_RMTREE, UNLINKED_PATH, 0);
    if (!err) private_tidy(mount);
    if (!err) err = call_snapshot(mount, TAKE_SNAPSHOT, name);
    memlimit_suspend();
    int other = call_snapshot(mount, RESTORE_SNAPSHOT, SNAPSHOT_SAVEPOINT);
    return err ? err : other;
}

// If only one name is left, orphans are in it.
int snapshot_take_hidden(struct mount *mount, const char *name) {
    assert(request_lock_is_held(mount));
    if (!mount->backend.tree || !private_tidy(mount)) return call_snapshot(mount, TAKE_SNAPSHOT, name);
    int err = call_snapshot(mount, TAKE_SNAPSHOT, SNAPSHOT_SAVEPOINT);
    if (!err) {
        err = take_without_orphans(mount, name);
        int other = call_snapshot(mount, DROP_SNAPSHOT, SNAPSHOT_SAVEPOINT);
        if (!err) err = other;
    }
    return err == ENOSPC ? call_snapshot(mount, TAKE_SNAPSHOT, name) : err;
}

static int take_tree(struct mount *mount, const char *name, struct inode **out) {
    const struct backend *backend = &mount->backend;
    int err = snapshot_take_hidden(mount, name);
    if (err) return err;
    *out = inode_add(folder(mount), name, true);
    if (*out) (*out)->role = SNAPSHOT_ROOT;
    else backend->ops->snapshot(backend->self, DROP_SNAPSHOT, name);
    return *out ? 0 : ENOMEM;
}

static int add_folder(struct mount *mount, const char *name) {
    int err = private_find_links(mount, name);
    struct inode *inode = err ? NULL : inode_add(folder(mount), name, true);
    if (!inode) return err ? err : ENOMEM;
    inode->role = SNAPSHOT_ROOT;
    inode->entries = ENTRIES_UNKNOWN;
    return 0;
}

int snapshots_find(struct mount *mount) {
    assert(request_lock_is_held(mount));
    struct bytes names = {NULL};
    int err = store_snapshots(mount->store, &names);
    for (size_t at = 0; !err && at < names.length; at += strlen(names.at + at) + 1)
        err = add_folder(mount, names.at + at);
    bytes_free(&names);
    return err;
}

static bool is_reserved(const char *name) { return !strncmp(name, RESERVED, sizeof RESERVED - 1); }

int snapshot_take(struct request *request, const char *name, struct lookup_result *out) {
    struct mount *mount = request->mount;
    int err;
    if (is_reserved(name)) return EPERM;
    do {
        memlimit_begin(&request->budget);
        err = take_tree(mount, name, &out->inode);
    } while (memlimit_retry(&request->budget, &mount->backend, &err));
    if (err) return err;
    out->inode->entries = entry_count(mount);
    return fs_getattr(mount, out->inode, &out->stat);
}

int snapshot_drop(struct mount *mount, const char *name) {
    assert(request_lock_is_held(mount));
    const struct backend *backend = &mount->backend;
    struct inode *inode = inode_find(folder(mount), name);
    int err = inode ? backend->ops->snapshot(backend->self, DROP_SNAPSHOT, name) : ENOENT;
    if (!err) inode_detach(inode);
    return err;
}

static int note(struct bytes *out, uint64_t parent_ino, uint64_t ino, const char *name) {
    struct stale_dentry stale = {parent_ino, ino, mem_strdup(name)};
    return stale.name ? bytes_append(out, &stale, sizeof stale) : ENOMEM;
}

static uint64_t ino_of(const struct inode *inode) { return inode->role == LIVE_ROOT ? 1 : (uint64_t)(uintptr_t)inode; }

// Notes the names of a listing.
static void note_names(const struct inode *directory, struct bytes *names, struct bytes *out) {
    for (size_t at = 0; at < names->length; at += strlen(names->at + at) + 1)
        note(out, ino_of(directory), 0, names->at + at + 1);
    bytes_free(names);
}

// Notes the names in a directory that may be others of a file, whose entry lies elsewhere.
static void note_other_names(struct mount *mount, struct inode *directory, struct bytes *out) {
    struct bytes names = {NULL};
    if (directory->is_directory && directory->role != PRIVATE_DIR && !attrs_list(mount, directory, &names))
        note_names(directory, &names, out);
    bytes_free(&names);
}

// Notes what the kernel holds below an entry.
static void note_held(struct mount *mount, struct inode *inode, struct bytes *out) {
    note_other_names(mount, inode, out);
    for (struct inode *child = inode->first; child; child = child->after) {
        if (child->role == SNAPSHOT_FOLDER) continue;
        if (child->nlookup) note(out, inode->role == PRIVATE_DIR ? 0 : ino_of(inode), ino_of(child), child->name);
        note_held(mount, child, out);
    }
}

// Notes the names of the root, below which the kernel may know of names that were missing.
static void note_root(struct mount *mount, struct bytes *out) {
    struct bytes names = {NULL};
    if (!fs_readdir(mount, mount->root, &names)) note_names(mount->root, &names, out);
}

static void free_notes(struct bytes *notes) {
    struct stale_dentry *stale = (struct stale_dentry *)notes->at;
    for (size_t i = 0; i < notes->length / sizeof *stale; i++) mem_free(stale[i].name);
    notes->length = 0;
}

void snapshot_before_switch(struct mount *mount, struct bytes *out) {
    if (out) note_held(mount, mount->root, out);
}

// What an entry stands for may be of another kind then, or gone: that shows when it is next looked for.
void snapshot_after_switch(struct mount *mount, int err, struct bytes *out) {
    if (err) {
        if (out) free_notes(out);
        return;
    }
    mount->tree_gen++;
    mount->record_dirs_gen++;
    // Files that were unlinked and held when a snapshot was taken are not of its tree.
    private_drop_orphans(mount);
    if (out) note_root(mount, out);
}

int snapshot_restore(struct mount *mount, const char *name, struct bytes *out) {
    assert(request_lock_is_held(mount));
    const struct inode *snapshot = inode_find(folder(mount), name);
    if (!snapshot) return ENOENT;
    snapshot_before_switch(mount, out);
    int err = call_snapshot(mount, RESTORE_SNAPSHOT, name);
    if (!err) entry_count_set(mount, snapshot->entries);
    snapshot_after_switch(mount, err, out);
    return err;
}
