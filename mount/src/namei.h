// Requests that create, remove and rename names.
#ifndef NAMEI_H
#define NAMEI_H
#include "fs_ops.h"

// A file, a directory or another kind of a new name.
int namei_create(struct request *request, struct inode *parent, const char *name, const struct create_args *args,
                 struct lookup_result *out);
int namei_remove(struct request *request, struct inode *parent, const char *name, bool is_directory);
int namei_rename(struct request *request, struct inode *parent, const char *name, struct inode *new_parent,
                 const char *new_name, unsigned flags);
#endif
