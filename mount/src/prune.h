// Removes directories for records that are left empty. The record of /a/b is a file in /.doorvervain/tree/a/b: when it
// is removed or moved away, its parent directories are removed up to the first that is not empty, or up to
// TREE_PATH.
#ifndef PRUNE_H
#define PRUNE_H
#include "private_dir.h"

// Removes the empty parent directories of a path below TREE_PATH, and nothing if the path is elsewhere. `kept` is a path
// that exists; empty: none is known. The text of `path` is truncated.
void prune_folders(struct mount *mount, char *path, const char *kept, uint64_t at);
#endif
