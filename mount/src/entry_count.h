// The number of names in the live tree, for statfs(2) and --status.
#ifndef ENTRY_COUNT_H
#define ENTRY_COUNT_H
#include "mount.h"

// Counts them anew, where the tree became another one, in a fork of it: called with no lock.
void entry_count_walk(struct mount *mount);
// These are called under the request lock.

// One more or one less in a directory.
void entry_count_add(struct mount *mount, struct inode *directory, int change);
// So many names are in a directory.
void entry_count_note(const struct mount *mount, struct inode *directory, uint64_t count);
// How many names a directory has, as far as requests have made or seen them all; else how many its tree has: that may be
// ENTRIES_UNKNOWN. A request that fails, or is one of a replica, may make it wrong: it is to guess by.
uint64_t entry_count_guess(const struct mount *mount, const struct inode *directory);
// ENTRIES_UNKNOWN until a walk has ended that had memory, and in a replica.
#define ENTRIES_UNKNOWN UINT64_MAX
uint64_t entry_count(const struct mount *mount);
// The tree became another one, of so many names: where that is ENTRIES_UNKNOWN it is to be walked.
void entry_count_set(struct mount *mount, uint64_t count);
#endif
