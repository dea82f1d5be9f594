// Orphans: unlinked files that the kernel still knows, since they are open or about to be opened. They are in the
// private directory until nobody holds them.
#ifndef ORPHAN_H
#define ORPHAN_H
#include "txn.h"

// Where an orphan goes.
struct orphan {
    struct private_path path;
    char *name;
};

// To be called before anything else is done with names, moments or the file that is leaving: where the kernel has not
// forgotten that one, it becomes an orphan.
int orphan_flush_deferred(struct mount *mount);
// Moves a file, with its record, to where no listing shows it; its directory gets the timestamp of the request.
int orphan_move(struct txn *txn, struct inode *inode, struct orphan *out);
// The inode follows, once that is done. It goes where nobody holds it.
void orphan_moved(struct mount *mount, struct inode *inode, struct orphan *orphan, uint64_t at);
void orphan_free(struct orphan *orphan);
// Takes a file out of the tree, with its record, and its entry.
int orphan_delete(struct mount *mount, struct inode *inode, uint64_t at);
// Takes the name of a file away that has no other. The kernel mostly forgets a file as the next thing that it asks for:
// so one that it knows and nobody has open is only marked, and the name goes with that, or before anything else is
// done.
int orphan_unlink(struct mount *mount, struct inode *inode, uint64_t at);
// Marks a file so, where it may wait. `name` is the path of its last name where it is a file of several names, else
// null.
bool orphan_defer(struct mount *mount, struct inode *inode, const char *name, uint64_t at);
// The same where it cannot wait.
int orphan_unlink_now(struct mount *mount, struct inode *inode, uint64_t at);
// Nobody may hold the inode any more: where its name is gone, its bytes go too.
int orphan_put(struct mount *mount, struct inode *inode, uint64_t at);
// The kernel knows an inode by so many look-ups less.
void orphan_forget(struct mount *mount, struct inode *inode, uint64_t lookups, uint64_t at);
#endif
