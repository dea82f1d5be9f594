// Gets, lists and sets extended attributes, which the record of an entry has.
//
// Invariant: a change packs all of them anew and writes the record within one transaction.
#include "extended.h"
#include "fs_ops.h"
#include "attrs.h"
#include "memlimit.h"
#include "packed.h"
#include <assert.h>
#include <errno.h>
#include <string.h>
#include <sys/xattr.h>

#define TRUSTED "trusted."

// All that an entry has. Mostly it has none, which is known without a look.
static int read_all(struct mount *mount, struct inode *inode, struct bytes *out) {
    const struct attrs *attrs;
    struct attrs read;
    struct resolved_path resolved;
    int err = attrs_of(mount, inode, &attrs);
    if (!err) err = bytes_reserve(out, 1);
    if (err || !attrs->has_extended) return err;
    err = inode_path(inode, NULL, &resolved);
    return err ? err : attrs_read(mount, &resolved, inode->is_directory, &read, out);
}

// Access control lists, which are names of `system.`, would have to change the mode: there are none.
static bool is_refused(const char *name) {
    static const char *const kept[] = {"user.", TRUSTED, "security."};
    for (size_t i = 0; i < sizeof kept / sizeof *kept; i++)
        if (!strncmp(name, kept[i], strlen(kept[i]))) return false;
    return true;
}

int extended_get(struct mount *mount, struct inode *inode, const char *name, struct bytes *out) {
    assert(request_lock_is_held(mount));
    struct bytes all = {NULL};
    struct packed one;
    int err = is_refused(name) ? EOPNOTSUPP : read_all(mount, inode, &all);
    if (!err && !packed_find(&all, name, &one)) err = ENODATA;
    if (!err) err = bytes_append(out, one.value, one.length);
    bytes_free(&all);
    return err;
}

int extended_list(struct mount *mount, struct inode *inode, bool is_root, struct bytes *out) {
    assert(request_lock_is_held(mount));
    struct bytes all = {NULL};
    int err = read_all(mount, inode, &all);
    for (struct packed one = {0}; !err && one.end < all.length;) {
        one = packed_read(&all, one.end);
        if (!is_root && !strncmp(one.name, TRUSTED, strlen(TRUSTED))) continue;
        err = bytes_append(out, one.name, strlen(one.name) + 1);
    }
    bytes_free(&all);
    return err;
}

static int write_all(struct mount *mount, struct inode *inode, const struct bytes *all, uint64_t at) {
    struct txn txn;
    struct attrs attrs = inode->attrs;
    struct resolved_path resolved;
    int err = inode_path(inode, NULL, &resolved);
    if (err) return err;
    txn_begin(&txn, mount, at);
    err = txn_end(&txn, attrs_write(&txn, resolved.path, &attrs, all));
    if (err) return err;
    attrs_remember(mount, inode, &attrs);
    inode->change = ns_to_timespec(at);
    return 0;
}

// A null value takes the attribute away.
static int change(const struct request *request, struct inode *inode, const char *name, const char *value,
                  size_t length, int flags) {
    struct bytes all = {NULL}, changed = {NULL};
    struct packed one;
    int err = read_all(request->mount, inode, &all);
    bool stands = !err && packed_find(&all, name, &one);
    if (!err && stands && flags & XATTR_CREATE) err = EEXIST;
    if (!err && !stands && flags & XATTR_REPLACE) err = ENODATA;
    if (!err) err = packed_exchange(&all, &one, name, value, length, &changed);
    if (!err) err = write_all(request->mount, inode, &changed, request->at);
    bytes_free(&all);
    bytes_free(&changed);
    return err;
}

static int may_change(const struct inode *inode, const char *name) {
    return is_refused(name) ? EOPNOTSUPP : fs_may_write(inode);
}

int extended_set(struct request *request, struct inode *inode, const char *name, const char *value, size_t length,
                 int flags) {
    assert(request_lock_is_held(request->mount));
    int err = may_change(inode, name);
    if (err) return err;
    do {
        memlimit_begin(&request->budget);
        err = change(request, inode, name, value, length, flags);
    } while (memlimit_retry(&request->budget, &request->mount->backend, &err));
    return err;
}

// A removal may take what it needs.
int extended_remove(const struct request *request, struct inode *inode, const char *name) {
    assert(request_lock_is_held(request->mount));
    int err = may_change(inode, name);
    return err ? err : change(request, inode, name, NULL, 0, XATTR_REPLACE);
}
