// Snapshots as directories of /.snapshots.
#ifndef SNAPSHOTS_H
#define SNAPSHOTS_H
#include "fs_ops.h"

// The snapshots of a store that was opened get their directories.
int snapshots_find(struct mount *mount);
int snapshot_take(struct request *request, const char *name, struct lookup_result *out);
int snapshot_drop(struct mount *mount, const char *name);

// No snapshot of a user has a name that begins with that of the reserved folder. The first keeps the tree that is taken
// back, within a request, the second the one that is told of.
#define SNAPSHOT_SAVEPOINT RESERVED
#define SNAPSHOT_DELTA RESERVED ".told"
// Takes a snapshot of which nobody is told. It has no orphans: who restores it in another mount has the
// same tree again after an unmount.
int snapshot_take_hidden(struct mount *mount, const char *name);

// What the kernel knows of the live tree and may be another one now.
struct stale_dentry {
    uint64_t parent_ino; // numbers of inodes; 0: no name that is known
    uint64_t ino;        // 0: none that is known
    char *name;
};

// Makes the live tree that of a snapshot. Open files stay open where their path has a file still; unlinked ones are
// gone. What the kernel has to forget goes to `out`, a list of `struct stale_dentry`, whose names the caller frees; with
// none nothing is noted, since the kernel is to forget all.
int snapshot_restore(struct mount *mount, const char *name, struct bytes *out);
// The two parts of that, before the tree becomes another one and after it; with a fault it did not.
void snapshot_before_switch(struct mount *mount, struct bytes *out);
void snapshot_after_switch(struct mount *mount, int err, struct bytes *out);
#endif
