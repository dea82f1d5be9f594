// A mount over a log that several mounts share: one key in etcd, whose versions are the values of the log, in order.
//
// A value is records as in a store's log, after a header that names its mount. It is put only for the version after the
// last that its mount has applied, which etcd compares: so each is applied to the very tree for which it was made, and
// all trees are a function of the log.
//
// So a request that changes the tree is done twice. The first time is speculative: it determines the calls, and is
// rolled back. When its record comes from the log, it is applied, and the reply is sent. If another mount's record came
// first, the request is tried again on the new tree, and may fail there.
#ifndef REPLICA_H
#define REPLICA_H
#include "mount.h"
#include "status.h"

struct fuse_session;

// Opens the file system with all that the log has now. What failed is said on standard error.
int replica_open(const struct open_options *options, struct mount *mount);
// Serves requests until a signal or an unmount: the status of the process.
int replica_serve(struct fuse_session *session, struct mount *mount);
// At the end of a mount, before the volume is closed: its orphans are removed.
void replica_end(struct mount *mount);

// The calls between these two are one change: of a request, the first that has calls counts. In a mount with no replica
// they do nothing. What the second answers has the request's other callers leave all as it was.
void replica_change_begins(struct mount *mount);
int replica_change_ends(struct mount *mount, int err);
// What is reported of the log.
void replica_fill_status(const struct mount *mount, struct replica_status *out);
// The timestamp of the request that is served; 0: it is the time at which it came.
uint64_t replica_timestamp(const struct mount *mount);
// What a request is answered with: false if it gets no answer now, since it waits for the log.
bool replica_may_answer(const struct mount *mount, int *err);
// A write was done elsewhere in its file than the kernel wrote it: the kernel is notified to ask for the bytes anew.
void replica_note_moved(struct mount *mount, const struct inode *inode);
#endif
