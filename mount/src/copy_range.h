// copy_file_range(2) from file to file, within the mount.
#ifndef COPY_RANGE_H
#define COPY_RANGE_H
#include "request.h"

// Bytes of a file, and where they go: to another file, or elsewhere in the same one.
struct copy_args {
    struct inode *from;
    uint64_t offset;
    struct inode *to;
    uint64_t target, count;
};

// Copies the first of these bytes, as many as one request may: `done` says how many. EOPNOTSUPP: the kernel has to read
// and write them.
int copy_range(struct request *request, const struct copy_args *args, uint64_t *done);
#endif
