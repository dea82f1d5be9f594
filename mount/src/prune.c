// Removes directories for records that are left empty, but for TREE_PATH: its rmdir would pass each name that was ever
// removed below it and is still pending. Snapshots and the end of the mount remove it (private_dir.h).
//
// Invariant: only rmdir(2) decides whether a directory is empty. Since the volume passes all removed names before it
// finds one that is left, a name that is known to have a record is looked up first, by one stat; this saves time and
// decides nothing else.
#include "prune.h"
#include "memlimit.h"
#include <assert.h>
#include <stdlib.h>
#include <string.h>

// How many of the known entries of a directory are looked at, and how many times its directory is found not to be empty
// before names of it are known from a listing: to remove one of many costs no listing.
enum { MOST_LOOKED_AT = 8, REFUSALS_BEFORE_LISTING = 4 };

// Names that begin with byte 1 have one more of it in a directory for records.
enum { ESCAPE = 1 };

static bool exists(const struct mount *mount, const char *path) {
    struct node_stat node_stat;
    return !backend_stat(&mount->backend, (struct path_ref){NULL, path}, &node_stat);
}

static bool has_name(const struct mount *mount, const char *folder, const char *name) {
    char path[LONGEST_PATH + 1];
    size_t length = strlen(folder), more = strlen(name);
    if (length + 1 + more > LONGEST_PATH) return false;
    memcpy(path, folder, length);
    path[length] = '/';
    memcpy(path + length + 1, name, more + 1);
    return exists(mount, path);
}

// The entry of the directory whose records are in a directory, of which `path` is the part below TREE_PATH; null: it is
// not
// known.
static struct inode *directory_of(const struct mount *mount, const char *path) {
    struct inode *inode = mount->root;
    char name[LONGEST_PATH + 1];
    while (inode && *path) {
        path++;
        if (*path == ESCAPE) path++;
        size_t length = strcspn(path, "/");
        memcpy(name, path, length);
        name[length] = 0;
        inode = inode_find(inode, name);
        path += length;
    }
    return inode;
}

// Whether one of the directory's known entries still has its record.
static bool has_known_inode(const struct mount *mount, const char *folder, const struct inode *directory) {
    const struct inode *child = directory->first;
    for (int i = 0; child && i < MOST_LOOKED_AT; i++, child = child->after) {
        bool may_have = child->role == ORDINARY && child->attrs.has_record && child->name[0] != ESCAPE;
        if (may_have && has_name(mount, folder, child->name)) return true;
    }
    return false;
}

static void forget_name(struct inode *directory) {
    mem_free(directory->known_record);
    directory->known_record = NULL;
}

// Whether a directory is seen not to be empty. Where nothing is seen it may have records all the same.
static bool is_seen_full(const struct mount *mount, const char *folder, struct inode *directory) {
    if (directory->known_record && has_name(mount, folder, directory->known_record)) return true;
    forget_name(directory);
    return has_known_inode(mount, folder, directory);
}

// The item of a listing at one of its bytes, after the byte that says its kind.
static const char *name_at(const struct bytes *listing, size_t at) {
    assert(at < listing->length);
    while (at > 0 && listing->at[at - 1]) at--;
    return listing->at + at + 1;
}

// Remembers a name of a directory that was just found not to be empty. It is any of them: in whatever order names are
// removed, half of them mostly are before this one is, so that all listings together cost little for each.
static void remember_name(const struct mount *mount, const char *folder, struct inode *directory, uint64_t at) {
    struct bytes names = {NULL};
    if (++directory->refusals < REFUSALS_BEFORE_LISTING) return;
    int err = backend_readdir(&mount->backend, (struct path_ref){NULL, folder}, &names);
    if (!err && names.length) {
        forget_name(directory);
        directory->known_record = mem_strdup(name_at(&names, at % names.length));
    }
    bytes_free(&names);
}

static bool is_below(const char *path, const char *folder) {
    size_t length = strlen(folder);
    return !strncmp(path, folder, length) && path[length] == '/';
}

void prune_folders(struct mount *mount, char *path, const char *kept, uint64_t at) {
    const size_t top = sizeof TREE_PATH - 1;
    if (!is_below(path, TREE_PATH)) return;
    for (;;) {
        *strrchr(path, '/') = 0;
        if (strlen(path) <= top || is_below(kept, path)) return;
        struct inode *directory = directory_of(mount, path + top);
        if (directory && is_seen_full(mount, path, directory)) return;
        if (mount->backend.ops->change(mount->backend.self, CALL_RMDIR, path, at)) {
            if (directory) remember_name(mount, path, directory, at);
            return;
        }
        mount->record_dirs_gen++;
    }
}
