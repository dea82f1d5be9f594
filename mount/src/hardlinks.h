// Files with several names. Such a file is in the private directory `links`, under a number; each name is an empty file
// whose record has that number. The record of the file has its number of names.
#ifndef HARDLINKS_H
#define HARDLINKS_H
#include "orphan.h"
#include "fs_ops.h"

// The file that the record of a name at a resolved path leads to, with what stands there. Where nothing does, that is
// told once,
// the name counts as an empty file, and `attributes` are those of one.
int hardlink_find(struct mount *mount, struct inode *parent, const struct resolved_path *resolved, struct attrs *attrs,
                  struct node_stat *node_stat, struct lookup_result *out);
// Another name for a file.
int hardlink_create(struct request *request, struct inode *inode, struct inode *parent, const char *name,
                    struct lookup_result *out);
// The last name of a file goes, at a path. The file goes too, or becomes an orphan if somebody holds it.
int hardlink_remove_last(struct mount *mount, struct inode *inode, const char *path, uint64_t at);
// Takes one of several names away.
int hardlink_remove(struct mount *mount, struct inode *parent, const char *name, struct inode *inode, uint64_t at);
// One name less: as a part of a request, and what follows once that is done.
int hardlink_count_down(struct txn *txn, struct inode *inode, struct attrs *out);
void hardlink_follow(struct mount *mount, struct inode *inode, const struct attrs *attrs, uint64_t at);
#endif
