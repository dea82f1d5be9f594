// Prints calls as lines of the script language, and their replies.
#ifndef SCRIPT_H
#define SCRIPT_H
#include "backend.h"

enum {
    LONGEST_LINE = 65536,
    // So many bytes stand in a line with the longest path, which takes three bytes for one.
    LARGEST_LINE_WRITE = 28672,
};

// Each puts one line, with its line feed, after what `line` has: 0 or ENOMEM.
// The moment of the lines after it, which is 0 before the first such line.
int script_timestamp(struct bytes *line, uint64_t at);
int script_change(struct bytes *line, enum path_call what, const char *path);
int script_rename(struct bytes *line, const char *from, const char *to);
int script_truncate(struct bytes *line, const char *path, uint64_t length);
int script_write(struct bytes *line, const char *path, uint64_t offset, const char *bytes, size_t count);
int script_read(struct bytes *line, struct path_ref ref, uint64_t offset, size_t count);
int script_stat(struct bytes *line, struct path_ref ref);
int script_readdir(struct bytes *line, struct path_ref ref);
int script_snapshot(struct bytes *line, enum snapshot_call what, const char *snapshot);

// Each puts the reply to such a line after what `reply` has: 0 or ENOMEM.
int reply_fault(struct bytes *reply, int number);
int reply_read(struct bytes *reply, const char *bytes, size_t count);
int reply_stat(struct bytes *reply, struct node_stat node_stat);
int reply_readdir(struct bytes *reply, const char *listing, size_t length);
#endif
