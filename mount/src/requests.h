// The handlers of the kernel's requests, by the low-level interface of libfuse3.
#ifndef REQUESTS_H
#define REQUESTS_H
#define FUSE_USE_VERSION 35
#include "fs_ops.h"
#include <fuse3/fuse_lowlevel.h>
#include <sys/ioctl.h>

// Asks a mount to restore a snapshot, by ioctl(2) on its root.
struct restore_request {
    char name[LONGEST_SNAPSHOT + 1];
};
#define RESTORE_REQUEST _IOW('D', 1, struct restore_request)

extern const struct fuse_lowlevel_ops requests;
// Takes the request lock for a request. An unlinked file that the kernel still knows becomes an orphan.
int requests_begin(const struct request *request);
// Leaves the lock: the request is at its end, and a store keeps what it did. What it is to be answered with.
int requests_end(const struct request *request, int err);
// What the kernel gets of an entry, and for how long it holds.
struct fuse_entry_param requests_entry(const struct lookup_result *result);
// The session that requests come by. What others change too the kernel knows for a second.
void requests_use(struct fuse_session *session, bool is_shared);
// All names that the kernel knows are asked for anew: kernels before 6.16 refuse that.
bool requests_invalidate_names(void);
// Whether a thread is at work on one still. The session and the volume have to stand until then.
bool requests_are_under_way(void);
// Between two requests: does one step of the tree that is due, and those that have waited for long; then looks for the
// next request, and does the others where none comes.
void requests_idle(struct mount *mount);
// Whether a file whose name was removed waits for the kernel to forget it.
bool requests_wait_for_forget(const struct mount *mount);
// Keeps requests out, until they go on.
void requests_lock(void);
void requests_unlock(void);
// Whether it is this thread that keeps them out.
bool requests_are_locked(void);
#endif
