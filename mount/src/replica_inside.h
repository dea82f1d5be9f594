// What the files of a replica share. The serving thread does everything but what the threads of the log do.
#ifndef REPLICA_INSIDE_H
#define REPLICA_INSIDE_H
#include "wal_layer.h"
#include "replica.h"
#include "etcd_log.h"
#include <pthread.h>

#define NANOSECONDS 1000000000u

enum {
    RECORDS_OF_A_VALUE = 24, // in bits: a record's number is that of its value, and its own in it
    NUMBERS_OF_A_MOUNT = 32, // in bits: likewise names that mounts give
};

// A request is tried, or done. Of one that the kernel does not wait for the calls are only noted, for a later record.
enum replay_mode { NO_REPLAY, SPECULATING, APPLYING, REPORTING };

// A request that waits.
struct deferred_request {
    struct deferred_request *next;
    char *bytes; // as the kernel wrote them
    size_t size;
    uint64_t until;       // when it is refused, in nanoseconds of CLOCK_MONOTONIC
    bool is_refused;      // it was, and its record may come all the same
    uint64_t tried_at;    // the version of the log at which it was tried; its calls are right then
    uint64_t at, orphans; // the moment of that, and how many orphans there were before
    struct bytes calls;
};

// Calls that no request waits for.
struct leftover {
    struct leftover *next;
    struct bytes calls;
};

// What is put into the log: the first requests that wait, and what else is to be done.
struct proposal {
    bool is_under_way;
    size_t requests;            // that it has
    struct leftover *leftovers; // after them
    bool is_torn;               // the tree has a part of a request that is not in it
    struct bytes records;
    uint64_t serial;
    size_t part;        // that is under way
    struct bytes value; // of that part
};

struct replica {
    struct wal_layer layer;
    struct doorvervain *volume; // that of the library
    struct mount *mount;
    struct etcd_log *log;
    uint64_t number;         // of this mount
    const char *members;     // of etcd, as they were named
    uint64_t done;           // the log's version up to which all is done
    uint64_t revision;       // and what etcd has for it
    int err;                 // why the log cannot be followed any more
    bool is_behind;          // what follows in the log was cut: a checkpoint is wanted
    struct catchup *catchup; // who sees to that; null: nobody does
    unsigned steps;          // of the tree, after some changes

    // A pass.
    enum replay_mode mode;
    uint64_t at;                // the timestamp of its request
    unsigned depth;             // of changes
    bool is_over;               // its change is whole: later calls do nothing. Speculating: it waits for the log
    bool has_savepoint;         // the tree before it is kept
    bool has_met;               // it did what its record says
    bool is_silent;             // it is not answered
    bool names_number;          // its request names an inode alone
    const struct bytes *wanted; // the calls of its record
    struct bytes calls;

    struct deferred_request *first, *last;
    struct leftover *leftovers;
    struct proposal proposal;
    struct bytes parts; // of a value whose last part has not come, and its front
    struct value_header header;

    // Checkpoints.
    struct checkpoint_task *checkpoint_task; // the one that is being made; null: none is
    uint64_t log_size;                       // bytes of the log that make one worth its while
    uint64_t bytes_since_checkpoint;         // bytes of it after the last one
    uint64_t checkpoint_version;             // the version of the last one that is known here
    uint64_t image_size;                     // its size

    // What the kernel has to forget, by a thread of its own.
    pthread_mutex_t lock;
    pthread_cond_t wakes;
    pthread_t inval_thread;
    struct bytes stale;
    bool ends, inval_has_ended;
    struct fuse_session *session;
    bool is_ending; // what waits is refused
};

// ---- replica.c

// Begins a pass, and ends it: what it changed is taken back, but what a pass that did its record's calls did.
void replica_pass(struct replica *replica, enum replay_mode mode, const struct bytes *wanted, uint64_t at);
void replica_pass_ends(struct replica *replica);
// What was tried is taken back.
void replica_rollback(struct replica *replica);
// The tree as it is has to be rolled back.
int replica_savepoint(struct replica *replica);
// What was known of the tree may be wrong.
void replica_forget(struct replica *replica);
// The log cannot be followed any more.
void replica_fail(struct replica *replica, const char *what, int err);
// The library begins with the image of a checkpoint, in a file without a name, whose size is told; or with the empty
// tree
// (-1).
int replica_load(const struct open_options *options, int image, struct backend *out, uint64_t *size);

// ---- replica_propose.c

void replica_note_leftover(struct replica *replica);
// Makes a value of what waits, where none is under way, and puts it.
void replica_propose(struct replica *replica);
// What is under way is not put any more. It may come all the same.
void replica_abandon_proposal(struct replica *replica);
// Does what the log has up to a version: where for some time nothing comes, a fault.
int replica_catch_up(struct replica *replica, uint64_t newest);
// Does what came from the log.
void replica_apply_log(struct replica *replica);
// The log goes on elsewhere. Of what is under way a mark tells whether the log has it: so its requests are done, and
// answered, or wait again.
void replica_resolve_proposal(struct replica *replica, const struct bytes *mark);
// No part of a value is there.
void replica_drop_parts(struct replica *replica);
void replica_free_proposal(struct replica *replica);

// ---- replica_serve.c

// Tries or does a request, or notes its calls.
void replica_request(struct replica *replica, enum replay_mode mode, const char *bytes, size_t size,
                     const struct bytes *wanted, uint64_t at);
void replica_remove_first(struct replica *replica);
uint64_t replica_clock(void);

// ---- replica_inodes.c

// The inodes follow the calls of records that are done, and the kernel is notified.
void replica_update_inodes(struct replica *replica, const char *calls, size_t length);
// The same where the tree became another one than that of a volume.
void replica_follow_tree(struct replica *replica, const struct backend *former);
int inval_start(struct replica *replica);
// Ends that thread: false where it is still at it, and requests have to be served until it is not.
bool inval_stop(struct replica *replica);

// ---- replica_catchup.c

// The log was cut before all of it was read here.
void catchup_begin(struct replica *replica);
// The thread that serves calls it between two requests: where the tree of a checkpoint is there, it takes the place of
// the one that stands.
void catchup_step(struct replica *replica);
// Whether no checkpoint was there when it was looked for: changes need not wait.
bool catchup_has_failed(struct replica *replica);
void catchup_end(struct replica *replica);
#endif
