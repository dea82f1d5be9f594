// A directory that keeps a volume: what was synced is lost neither with the process nor with the machine.
//
// It has the checkpoint `tree.N`, an image, with `snapshots.N` if there were snapshots; the logs `log.N`, `log.N+1` ..,
// with one record for each request since then that changed something; and `lock`, which excludes a second mount. A
// change is in memory when its reply is sent. It is on the disk once the log is synced: by fsync(2), every five
// seconds, and at the unmount.
#ifndef STORE_H
#define STORE_H
#include "mount.h"
#include "status.h"

struct store;

// Opens the store of `options`: the volume stands as it was left, and all calls go by the store from then on. What
// failed is said on standard error, and nothing was written then.
int store_open(const struct open_options *options, struct backend *backend, struct store **out);
// Prints the logs in the directory of a store as lines of a script; the status of its process. What failed is said.
int store_dump_wal(const char *folder);
// Makes a store in a folder that has none of what is whole of another one, which is only read: the status of its process,
// which is 3 where something is not whole. What is not is said.
int store_rescue(const char *new_folder, const char *folder);
// The names of the snapshots that stand: each with a byte 0 after it.
int store_snapshots(struct store *store, struct bytes *out);
// Begins to sync in time, and to write images, by a thread of its own, until the volume is closed.
int store_start_writeback(struct store *store, struct mount *mount);

// What waits for the disk: `answer` is called when it has come, or failed, by another thread, with no lock.
struct waiter {
    struct waiter *next;
    void (*answer)(struct waiter *self, int err);
};

// Called under the request lock. At its end a request is one record; `has_changed`: it changed something.
int store_end_request(struct store *store, bool *has_changed);
// What is done between these two was answered before: so it is not refused where changes are.
void store_complete_begins(struct store *store);
void store_complete_ends(struct store *store);

// The others are called with no lock.
bool store_syncs_each(const struct store *store);
// Whether changes are refused, since the log is not kept any more.
bool store_refuses(const struct store *store);
// Between two requests: what is about to be synced is written, by another thread where the disk is slow.
void store_idle(struct store *store);
// Brings all that was answered onto the disk, and waits for that.
int store_sync(struct store *store);
// The same where it is soon done: little waits, the disk was quick the last time, and no thread waits for it. Else
// false.
bool store_try_sync(struct store *store, int *err);
// The same by another thread: all that wait for the next sync share it.
void store_wait_for_sync(struct store *store, struct waiter *waiter);
// Whether so much waits to be written that no change is to be answered.
bool store_is_full(const struct store *store);
// Waits until there is room again: false where there is.
bool store_wait_for_space(struct store *store, struct waiter *waiter);
// What is reported of the log. It waits for no lock that is held while the disk is waited for.
void store_fill_status(const struct store *store, struct store_status *out);
// How many syncs have failed.
uint64_t store_sync_errseq(struct store *store);
#endif
