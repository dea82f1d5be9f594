// How many names the live tree has.
//
// Invariant: `entries` is the number of names that requests added, less those that they removed, since the tree was
// frozen that was walked last, and of the names in that one once the walk has ended. A walk that begins later counts
// alone. `names` of a directory is right where its `names_gen` is the mount's `tree_gen`.
#include "entry_count.h"
#include "memlimit.h"
#include "requests.h"
#include "workers.h"
#include <assert.h>
#include <errno.h>
#include <stdio.h>
#include <string.h>

struct walk {
    struct mount *mount;
    struct doorvervain tree;  // a fork
    struct bytes directories; // that are not listed yet: paths, each with a byte 0
    struct bytes names;       // of one
    int64_t found;
};

// The last of the paths. The root is the empty one.
static void pop(struct bytes *paths, char out[LONGEST_PATH + 1]) {
    size_t from = paths->length - 1;
    while (from && paths->at[from - 1]) from--;
    snprintf(out, LONGEST_PATH + 1, "%s", paths->at + from);
    paths->length = from;
}

// The mount's own directory counts for nothing.
static int count_names(struct walk *walk, const char *path) {
    int err = 0;
    for (size_t at = 0; !err && at < walk->names.length; at += strlen(walk->names.at + at) + 1) {
        const char *name = walk->names.at + at + 1;
        if (!*path && !strcmp(name, RESERVED)) continue;
        walk->found++;
        if (name[-1] != 'd') continue;
        err = bytes_append(&walk->directories, path, strlen(path));
        if (!err) err = bytes_append(&walk->directories, "/", 1);
        if (!err) err = bytes_append(&walk->directories, name, strlen(name) + 1);
    }
    return err;
}

static int walk_all(struct walk *walk) {
    char path[LONGEST_PATH + 1];
    int err = bytes_append(&walk->directories, "", 1);
    while (!err && walk->directories.length) {
        pop(&walk->directories, path);
        err = worker_list(&walk->tree, *path ? path : "/", &walk->names);
        if (!err) err = count_names(walk, path);
    }
    bytes_free(&walk->directories);
    bytes_free(&walk->names);
    return err;
}

static int begin(struct walk *walk, uint64_t *walks) {
    struct mount *mount = walk->mount;
    requests_lock();
    int err = worker_fork(mount, NULL, &walk->tree);
    *walks = ++mount->entry_walks;
    mount->entries = mount->deferred ? -1 : 0; // the tree still has the name of a file that is deferred
    mount->entries_known = false;
    requests_unlock();
    return err;
}

void entry_count_walk(struct mount *mount) {
    struct walk walk = {.mount = mount};
    uint64_t walks;
    if (!mount->backend.tree || begin(&walk, &walks)) return;
    int err = walk_all(&walk);
    doorvervain_close(&walk.tree);
    requests_lock();
    if (!err && walks == mount->entry_walks) {
        mount->entries += walk.found;
        mount->entries_known = true;
    }
    requests_unlock();
}

void entry_count_add(struct mount *mount, struct inode *directory, int change) {
    assert(request_lock_is_held(mount));
    mount->entries += change;
    if (change > 0 || directory->names) directory->names += (uint64_t)(int64_t)change;
}

void entry_count_note(const struct mount *mount, struct inode *directory, uint64_t count) {
    assert(request_lock_is_held(mount));
    directory->names_gen = mount->tree_gen;
    directory->names = count;
}

uint64_t entry_count_guess(const struct mount *mount, const struct inode *directory) {
    const struct inode *root = inode_root(directory);
    if (directory->names_gen == mount->tree_gen) return directory->names;
    return root && root->role == SNAPSHOT_ROOT ? root->entries : entry_count(mount);
}

void entry_count_set(struct mount *mount, uint64_t count) {
    assert(request_lock_is_held(mount));
    mount->entry_walks++;
    mount->entries_known = count != ENTRIES_UNKNOWN;
    mount->entries = (int64_t)count;
}

uint64_t entry_count(const struct mount *mount) {
    assert(request_lock_is_held(mount));
    return mount->entries_known ? (uint64_t)mount->entries : ENTRIES_UNKNOWN;
}
