// The process of --diff: what changed since a snapshot, for people.
#ifndef DIFF_CMD_H
#define DIFF_CMD_H

// Prints what differs between a snapshot of a mount that stands and another one, or the live tree where `to` is null: a
// line for each
// entry, in the order of names. The status.
int print_diff(const char *mount_point, const char *from, const char *to);
// Opens the root of a snapshot, or of the live tree where none is named: -1 with errno.
int open_tree(int root, const char *name);
#endif
