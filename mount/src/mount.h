// A mount: its backend, and what it caches from one request to the next.
#ifndef MOUNT_H
#define MOUNT_H
#include "inodes.h"

struct store;   // of store.h
struct replica; // of replica.h

// The record's path of the path that was asked for last; an empty path: of none.
struct record_cache {
    char path[LONGEST_PATH + 1], record[LONGEST_PATH + 1];
};

struct mount {
    struct backend backend;
    struct inode *root;
    struct store *store;     // null: nothing is kept but what an image has
    struct replica *replica; // null: no other mount has this tree
    uid_t user;              // the owner of the mount
    gid_t group;
    bool trusts_attributes;   // owners and set-user bits of records hold
    bool has_warned;          // that a record cannot be read
    unsigned private_dirs;    // those of private_dir.h that are known to stand, as bits
    uint64_t tree_gen;        // grows where the tree becomes another one
    uint64_t record_dirs_gen; // grows where a directory for records comes or goes
    uint64_t orphans;         // how many orphans there were
    struct inode *deferred;   // an unlinked file that the kernel still knows, before it becomes an orphan; null: none
    uint64_t deferred_at;     // the timestamp at which it was unlinked
    char *deferred_path;      // the path of its last name, of a file of several names; null: it is at its own
    struct record_cache last_record;
    // Of entry_count.c.
    int64_t entries;
    uint64_t entry_walks;
    bool entries_known;
};
#endif
