// Replies to the kernel that may have to wait for the disk: to fsync(2), with --sync to each change, and to a change
// after which a store has too much to write. The thread that serves requests does not wait: another thread sends them.
#ifndef ANSWERS_H
#define ANSWERS_H
#define FUSE_USE_VERSION 35
#include "request.h"
#include "store.h"
#include <fuse3/fuse_lowlevel.h>

enum answer_kind {
    ANSWER_DONE,
    ANSWER_ENTRY,      // `entry`
    ANSWER_CREATED,    // `entry` and `info`
    ANSWER_OPENED,     // `info`
    ANSWER_ATTRIBUTES, // `stat`, which is known for some seconds
    ANSWER_WRITTEN,    // `written`
    ANSWER_SYNCED,     // `errseq_seen`
};

struct answer {
    struct waiter waiter; // the first: it is all that a store knows
    enum answer_kind kind;
    struct request request;
    int err; // 0: the request was done
    struct fuse_entry_param entry;
    struct fuse_file_info info;
    struct stat stat;
    double seconds;
    size_t written;
    // How many failed syncs the open file was told, for as long as it is open; null: memory was wanting.
    _Atomic uint64_t *errseq_seen;
};

// All answers but that to a forget go by these, since a replica does not answer a request that waits for the log.

// Answers a request that failed: false if it did not, and is to be answered with what it found.
bool answer_failed(const struct request *request, int err);
// Answers one that has nothing to tell.
void answer_done(const struct request *request, int err);
// Answers a request that may have changed something. Called with no lock.
void answer_change(struct answer *answer, bool has_changed);
// Answers once all that was answered before is on the disk.
void answer_sync(struct answer *answer);
// Whether some are not sent yet.
bool answers_wait(void);
#endif
