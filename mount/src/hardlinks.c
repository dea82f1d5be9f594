// Files with several names, which are kept in the private directory `links`, by number.
//
// Invariant: the record of the file has the number of its names, and each name is an empty file whose record has the
// file's number ("Attribute record" in docs/FORMATS.md). A name and the count change in one transaction.
#include "hardlinks.h"
#include "entry_count.h"
#include "exit_report.h"
#include "attrs.h"
#include "memlimit.h"
#include <assert.h>
#include <errno.h>
#include <stdlib.h>
#include <string.h>

static int stand_at(struct mount *mount, const struct resolved_path *resolved, struct node_stat *out) {
    return backend_stat(&mount->backend, (struct path_ref){resolved->snapshot, resolved->path}, out);
}

// Of a file of several names: its own number, and another one in each snapshot.
static uint64_t number_in(const struct inode *folder, uint64_t number) {
    const struct inode *root = inode_root(folder);
    return root->role == LIVE_ROOT ? number : (uint64_t)1 << 62 | root->ino << 32 | number;
}

// What stands in the place of a number, in the tree that a directory lies in.
static int find_file(struct mount *mount, struct inode *parent, uint64_t number, struct node_stat *node_stat,
                     struct inode **out) {
    const struct attrs *attrs;
    struct private_path path = private_link(number);
    struct resolved_path resolved;
    struct inode *folder = inode_private_dir(parent, LINKS);
    int err = folder ? inode_path(folder, private_name(&path), &resolved) : ENOMEM;
    if (!err) err = stand_at(mount, &resolved, node_stat);
    if (!err && node_stat->is_directory) err = ENOENT;
    if (err) return err;
    *out = inode_find_or_add(folder, private_name(&path), false);
    if (!*out) return ENOMEM;
    if (!(*out)->link) (*out)->ino = number_in(folder, number);
    (*out)->link = number;
    return attrs_of(mount, *out, &attrs);
}

int hardlink_find(struct mount *mount, struct inode *parent, const struct resolved_path *resolved, struct attrs *attrs,
                  struct node_stat *node_stat, struct lookup_result *out) {
    assert(request_lock_is_held(mount));
    struct node_stat file;
    struct inode *inode = NULL;
    int err = find_file(mount, parent, attrs->base.link, &file, &inode);
    if (!err) {
        *node_stat = file;
        out->inode = inode;
        out->is_other_name = true;
        return 0;
    }
    if (err != ENOENT && err != ENOTDIR) return err;
    if (!mount->has_warned) exit_report_error("a name leads to a file that is not there: ", resolved->path, err);
    mount->has_warned = true;
    attrs->base = attrs_default(mount, false).base;
    return 0;
}

// What the record of a name has.
static struct attrs name_of(const struct mount *mount, uint64_t number) {
    struct attrs name = attrs_default(mount, false);
    name.base.kind = DOORVERVAIN_OTHER_NAME;
    name.base.link = number;
    return name;
}

static int make_name_of(struct txn *txn, struct inode *parent, const char *path, uint64_t number) {
    struct attrs name = name_of(txn->mount, number);
    return attrs_create(txn, parent, path, &name, NULL);
}

// What the only name of a file was leads to its place: a record that it had is written over.
static int lead(struct txn *txn, struct inode *inode, const char *path, uint64_t number) {
    struct attrs name = name_of(txn->mount, number);
    if (!inode->attrs.has_record) return attrs_create(txn, inode->parent, path, &name, NULL);
    name.has_record = true;
    return attrs_write(txn, path, &name, NULL);
}

// The file's record, with the extended attributes that it has, in its place.
static int put_record(struct txn *txn, struct inode *inode, const struct resolved_path *resolved, const char *path,
                      struct attrs *attrs) {
    struct bytes extended = {NULL};
    int err = 0;
    if (inode->attrs.has_extended) err = attrs_read_extended(txn, resolved->path, &extended);
    if (!err) err = attrs_create(txn, inode->parent, path, attrs, &extended);
    bytes_free(&extended);
    return err;
}

// Another name that a file gets.
struct link_args {
    struct inode *inode, *parent;
    struct resolved_path resolved; // where the name will be
    uint64_t number;               // of the file as one of several names
    struct node_stat file;         // as it was, and will be
    struct attrs attrs;            // that the file will have
};

// The file's bytes in its place, and an empty file where they were. The directory of its name keeps its moment.
static int place_bytes(struct txn *txn, const struct link_args *args, const struct resolved_path *resolved,
                       const char *path) {
    struct node_stat parent;
    if (!args->file.length) return txn_create(txn, CALL_CREATE, path, args->file.mtime_ns, 0);
    int err = fs_node_stat(txn->mount, args->inode->parent, &parent);
    if (!err) err = txn_rename(txn, resolved->path, path, parent.mtime_ns, parent.mtime_ns);
    return err ? err : txn_create(txn, CALL_CREATE, resolved->path, parent.mtime_ns, parent.mtime_ns);
}

// The file goes to a place of its own.
static int give_place(struct txn *txn, struct link_args *args) {
    struct private_path path = private_link(args->number);
    struct resolved_path resolved;
    int err = private_make(txn->mount, PRIVATE_LINKS);
    if (!err) err = inode_path(args->inode, NULL, &resolved);
    if (!err) err = put_record(txn, args->inode, &resolved, path.text, &args->attrs);
    if (!err) err = place_bytes(txn, args, &resolved, path.text);
    return err ? err : lead(txn, args->inode, resolved.path, args->number);
}

static int make_once(struct txn *txn, struct link_args *args) {
    struct node_stat before;
    const char *path = args->resolved.path;
    int err = fs_node_stat(txn->mount, args->parent, &before);
    if (!err) err = txn_create(txn, CALL_CREATE, path, txn->at, before.mtime_ns);
    if (!err) err = make_name_of(txn, args->parent, path, args->number);
    if (err) return err;
    return args->inode->link ? attrs_rewrite(txn, args->inode, &args->attrs) : give_place(txn, args);
}

// The entry is that of the file in its place from now on.
static void settle(struct inode *inode, struct inode *folder, char *name, uint64_t number) {
    if (inode->link) {
        mem_free(name);
        return;
    }
    inode_move(inode, folder, name);
    inode->link = number;
}

static int make_name(struct mount *mount, struct link_args *args, uint64_t at) {
    struct txn txn;
    struct inode *inode = args->inode;
    struct private_path path = private_link(args->number);
    struct inode *folder = inode_private_dir(mount->root, LINKS);
    char *name = folder ? mem_strdup(private_name(&path)) : NULL;
    if (!name) return ENOMEM;
    args->attrs = inode->attrs;
    args->attrs.base.names++;
    txn_begin(&txn, mount, at);
    int err = txn_end(&txn, make_once(&txn, args));
    if (err) {
        mem_free(name);
        return err;
    }
    settle(inode, folder, name, args->number);
    attrs_remember(mount, inode, &args->attrs);
    inode->change = ns_to_timespec(at);
    return 0;
}

static int may_link(struct mount *mount, struct inode *inode, struct inode *parent, const char *name,
                    struct resolved_path *resolved) {
    const struct attrs *attrs;
    int err = fs_may_rename(parent, name);
    if (!err) err = fs_may_write(inode);
    if (!err && inode->is_directory) err = EPERM;
    if (!err && (inode->is_unlinked || !inode->parent)) err = ENOENT;
    if (!err) err = inode_path(parent, name, resolved);
    if (!err) err = attrs_can_store(mount, resolved->path);
    return err ? err : attrs_of(mount, inode, &attrs);
}

int hardlink_create(struct request *request, struct inode *inode, struct inode *parent, const char *name,
                    struct lookup_result *out) {
    assert(request_lock_is_held(request->mount));
    struct mount *mount = request->mount;
    struct link_args args = {.inode = inode, .parent = parent, .number = inode->link ? inode->link : inode->ino};
    int err = parent->role == SNAPSHOT_FOLDER ? EPERM : may_link(mount, inode, parent, name, &args.resolved);
    if (!err) err = fs_node_stat(mount, inode, &args.file);
    if (err) return err;
    do {
        memlimit_begin(&request->budget);
        err = make_name(mount, &args, request->at);
    } while (memlimit_retry(&request->budget, &mount->backend, &err));
    out->inode = inode;
    if (err) return err;
    entry_count_add(mount, parent, 1);
    fs_fill_stat(mount, inode, args.file, &out->stat);
    return 0;
}

int hardlink_count_down(struct txn *txn, struct inode *inode, struct attrs *out) {
    *out = inode->attrs;
    return --out->base.names ? attrs_rewrite(txn, inode, out) : 0;
}

// The last name is gone: so goes the file, or it becomes an orphan.
void hardlink_follow(struct mount *mount, struct inode *inode, const struct attrs *attrs, uint64_t at) {
    assert(request_lock_is_held(mount));
    // In the log of several mounts a request's change is whole here: what is held stays in its place.
    inode->is_unlinked = !attrs->base.names && mount->replica && inode_is_held(inode);
    if (!attrs->base.names && !inode->is_unlinked) {
        orphan_unlink_now(mount, inode, at);
        return;
    }
    attrs_remember(mount, inode, attrs);
    inode->change = ns_to_timespec(at);
}

// A name goes, and the count with it.
static int remove_once(struct txn *txn, struct inode *inode, const char *path, struct attrs *out) {
    const struct backend *backend = &txn->mount->backend;
    int err = hardlink_count_down(txn, inode, out);
    if (!err) err = attrs_drop(txn, NULL, path);
    return err ? err : backend->ops->change(backend->self, CALL_UNLINK, path, txn->at);
}

static int remove_name(struct mount *mount, struct inode *inode, const char *path, uint64_t at) {
    struct txn txn;
    struct attrs attrs;
    txn_begin(&txn, mount, at);
    int err = txn_end(&txn, remove_once(&txn, inode, path, &attrs));
    if (!err) hardlink_follow(mount, inode, &attrs, at);
    return err;
}

// The last name goes, and the file itself. Its bytes go last: no call brings them back.
static int remove_file_once(struct txn *txn, const struct inode *inode, const struct resolved_path *file,
                            const char *path) {
    const struct backend *backend = &txn->mount->backend;
    struct attrs name = name_of(txn->mount, inode->link);
    struct bytes none = {NULL};
    int err = attrs_erase(txn, NULL, path, &name);
    if (!err) err = txn_unlink(txn, path, &none);
    if (!err) err = attrs_drop_one(txn, file->path, &inode->attrs);
    return err ? err : backend->ops->change(backend->self, CALL_UNLINK, file->path, txn->at);
}

static int remove_file(struct mount *mount, struct inode *inode, const char *path, uint64_t at) {
    struct txn txn;
    struct resolved_path file;
    int err = inode_path(inode, NULL, &file);
    if (err) return err;
    txn_begin(&txn, mount, at);
    err = txn_end(&txn, remove_file_once(&txn, inode, &file, path));
    if (!err) inode_detach(inode);
    return err;
}

int hardlink_remove_last(struct mount *mount, struct inode *inode, const char *path, uint64_t at) {
    assert(request_lock_is_held(mount));
    return inode_is_held(inode) ? remove_name(mount, inode, path, at) : remove_file(mount, inode, path, at);
}

int hardlink_remove(struct mount *mount, struct inode *parent, const char *name, struct inode *inode, uint64_t at) {
    assert(request_lock_is_held(mount));
    struct resolved_path resolved;
    int err = inode_path(parent, name, &resolved);
    if (err) return err;
    bool is_last = inode->attrs.base.names == 1;
    if (is_last && orphan_defer(mount, inode, resolved.path, at)) return 0;
    return remove_name(mount, inode, resolved.path, at);
}
