// The context of a request of the kernel: made by its handler, and passed down.
#ifndef REQUEST_H
#define REQUEST_H
#include "memlimit.h"
#include "mount.h"

struct fuse_req; // of libfuse: what it is answered by

struct request {
    struct mount *mount;
    struct fuse_req *req;
    uint64_t at; // the timestamp of all that it changes, in nanoseconds since 1970
    struct mem_budget budget;
    // Files whose attributes the request changed without telling the kernel; null: there is none.
    const struct inode *stale;    // it lost its set-user bits
    const struct inode *accessed; // it was read, so its atime changed
};

// Whether this thread may use the tree: it holds the request lock, or is the one thread of a replica.
bool request_lock_is_held(const struct mount *mount);
#endif
