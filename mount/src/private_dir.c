// The private directory /.doorvervain of the mount: attribute records, files with several names, and orphans.
//
// Invariant: no request of a user reaches it. A part of it is made when it is first needed. At the end of a mount, but
// not of a replica, orphans are removed and then each part that is empty, so a tree without records has no such
// directory.
#include "private_dir.h"
#include <errno.h>
#include <inttypes.h>
#include <stdio.h>
#include <stdlib.h>
#include <string.h>

// Of those that files in an image may have.
#define MOST_NUMBER ((uint64_t)1 << 61)

static const char *const paths[] = {PRIVATE_PATH, LINKS_PATH, UNLINKED_PATH};

static int change(struct mount *mount, enum path_call what, const char *path, uint64_t at) {
    return mount->backend.ops->change(mount->backend.self, what, path, at);
}

// The moment of the root, which the coming and going of the mount's own directory leaves.
static int root_mtime(struct mount *mount, uint64_t *out) {
    struct node_stat root = {0};
    int err = backend_stat(&mount->backend, (struct path_ref){NULL, "/"}, &root);
    *out = root.mtime_ns;
    return err;
}

int private_make(struct mount *mount, enum private_dir which) {
    uint64_t at = 0;
    if (mount->private_dirs & 1u << which) return 0;
    int err = which == PRIVATE_ROOT ? 0 : private_make(mount, PRIVATE_ROOT);
    if (!err) err = root_mtime(mount, &at);
    if (!err) err = change(mount, CALL_MKDIR, paths[which], at);
    if (err && err != EEXIST) return err;
    mount->private_dirs |= 1u << which;
    return 0;
}

int private_orphan_path(struct mount *mount, struct private_path *out) {
    int err = private_make(mount, PRIVATE_UNLINKED);
    snprintf(out->text, sizeof out->text, UNLINKED_PATH "/%" PRIu64, ++mount->orphans);
    return err;
}

struct private_path private_link(uint64_t number) {
    struct private_path path;
    snprintf(path.text, sizeof path.text, LINKS_PATH "/%" PRIu64, number);
    return path;
}

const char *private_name(const struct private_path *path) { return strrchr(path->text, '/') + 1; }

// The orphans of other mounts of a log are theirs.
int private_drop_orphans(struct mount *mount) {
    if (mount->replica) return 0;
    int err = change(mount, CALL_RMTREE, UNLINKED_PATH, 0);
    if (err && err != ENOENT && err != ENOTDIR) return err;
    mount->private_dirs = 0;
    return 0;
}

static void drop_empty(struct mount *mount, uint64_t root_at) {
    change(mount, CALL_RMDIR, LINKS_PATH, 0);
    if (!change(mount, CALL_RMDIR, TREE_PATH, 0)) mount->record_dirs_gen++;
    change(mount, CALL_RMDIR, PRIVATE_PATH, root_at);
    mount->private_dirs = 0;
}

int private_end(struct mount *mount) {
    uint64_t at = 0;
    if (mount->replica) return 0;
    int err = private_drop_orphans(mount);
    if (!err) err = root_mtime(mount, &at);
    if (!err) drop_empty(mount, at);
    return err;
}

// A file with several names has the number that it had as an entry before.
int private_find_links(struct mount *mount, const char *snapshot) {
    struct bytes names = {NULL};
    int err = backend_readdir(&mount->backend, (struct path_ref){snapshot, LINKS_PATH}, &names);
    for (size_t at = 0; !err && at < names.length; at += strlen(names.at + at) + 1) {
        uint64_t number = strtoull(names.at + at + 1, NULL, 10);
        if (number < MOST_NUMBER) inodes_number_above(number);
    }
    bytes_free(&names);
    return err == ENOENT || err == ENOTDIR ? 0 : err;
}

static bool stands(struct mount *mount, const char *path) {
    struct node_stat node_stat;
    return !backend_stat(&mount->backend, (struct path_ref){NULL, path}, &node_stat);
}

bool private_has_links(struct mount *mount) { return stands(mount, LINKS_PATH); }

bool private_tidy(struct mount *mount) {
    uint64_t at;
    if (!stands(mount, PRIVATE_PATH)) return false;
    int err = change(mount, CALL_RMDIR, UNLINKED_PATH, 0);
    if (!root_mtime(mount, &at)) drop_empty(mount, at);
    return err == ENOTEMPTY;
}

// A file that an image has in the place of one of the directories goes. The root keeps its mtime.
static int leave_out_file(struct mount *mount, const char *path) {
    struct node_stat node_stat;
    uint64_t at = 0;
    int err = backend_stat(&mount->backend, (struct path_ref){NULL, path}, &node_stat);
    if (err || node_stat.is_directory) return err == ENOENT || err == ENOTDIR ? 0 : err;
    fprintf(stderr, "doorvervain-mount: the image has a file %s, a name of the mount's own: it is left out\n", path);
    err = root_mtime(mount, &at);
    return err ? err : change(mount, CALL_UNLINK, path, at);
}

int private_start(struct mount *mount) {
    int err = leave_out_file(mount, PRIVATE_PATH);
    if (!err) err = leave_out_file(mount, TREE_PATH);
    if (!err) err = leave_out_file(mount, LINKS_PATH);
    if (err) return err;
    if (!mount->store && !mount->replica && stands(mount, UNLINKED_PATH))
        fputs("doorvervain-mount: the image has " UNLINKED_PATH ", which is left out\n", stderr);
    err = private_drop_orphans(mount);
    return err ? err : private_find_links(mount, NULL);
}
