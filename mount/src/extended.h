// Extended attributes of entries.
#ifndef EXTENDED_H
#define EXTENDED_H
#include "request.h"

// EOPNOTSUPP for those of the kernel's own, and for all where no records are kept.
int extended_get(struct mount *mount, struct inode *inode, const char *name, struct bytes *out);
// Their names, each with a byte 0. Those of `trusted.` are for root alone; so the kernel has it of their values.
int extended_list(struct mount *mount, struct inode *inode, bool is_root, struct bytes *out);
int extended_set(struct request *request, struct inode *inode, const char *name, const char *value, size_t length,
                 int flags);
int extended_remove(const struct request *request, struct inode *inode, const char *name);
#endif
