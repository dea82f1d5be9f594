// Catches up if the log was compacted before this mount had read all of it: takes the tree of the newest checkpoint,
// and follows the log from there, as at the start of a mount.
//
// A thread reads and loads that tree, while reads are served from the old one. Invariant: the trees are exchanged
// between two requests by the serving thread, with the request lock held, and never while a proposal is half resolved
// or a checkpoint of the old tree is printed.
#include "exit_report.h"
#include "library.h"
#include "replica_inside.h"
#include "requests.h"
#include "memlimit.h"
#include <errno.h>
#include <stdlib.h>
#include <time.h>
#include <unistd.h>

enum { SECONDS_BETWEEN = 10 };

enum phase { IS_READING, IS_LOADED, IS_TAKEN, IS_OVER };

struct catchup {
    struct replica *replica;
    struct open_options options;
    struct etcd_client etcd;
    uint64_t done;   // the version that a checkpoint has to be after
    uint64_t number; // of this mount
    _Atomic bool ends;
    pthread_t thread;
    pthread_mutex_t lock; // of what follows, but what the thread alone has until the tree is loaded
    pthread_cond_t goes_on;
    enum phase phase;
    int err; // of the last time that no tree came; 0: there was none
    struct checkpoint checkpoint;
    struct bytes mark;   // of this mount, where that stands
    uint64_t size;       // of the image
    struct backend tree; // that was loaded; once it is taken, the former one
};

// ---- the thread

// Once a newer checkpoint stands, what was put for an older version can come no more: so the mark is read after it. A
// size of the mount lets both trees together take no more than a call.
static int load_once(struct catchup *catchup) {
    struct mem_budget budget;
    int file, err = checkpoint_fetch(&catchup->etcd, catchup->done, &catchup->checkpoint, &file);
    if (!err && file < 0) err = ENOENT;
    if (!err) err = checkpoint_fetch_last_put(&catchup->etcd, catchup->number, &catchup->mark);
    memlimit_begin(&budget);
    if (!err) err = replica_load(&catchup->options, file, &catchup->tree, &catchup->size);
    memlimit_suspend();
    if (err) catchup->tree = (struct backend){NULL};
    if (file >= 0) close(file);
    return err;
}

// Says each fault once, and waits for a moment: false at the end.
static bool wait_again(struct catchup *catchup, int err) {
    struct timespec until;
    clock_gettime(CLOCK_MONOTONIC, &until);
    until.tv_sec += SECONDS_BETWEEN;
    pthread_mutex_lock(&catchup->lock);
    if (err != catchup->err && !catchup->ends)
        exit_report_note("no newer checkpoint is read, which is tried again every ten seconds: ", err);
    catchup->err = err;
    etcd_log_wake(catchup->replica->log);
    while (!catchup->ends && pthread_cond_timedwait(&catchup->goes_on, &catchup->lock, &until) != ETIMEDOUT) continue;
    pthread_mutex_unlock(&catchup->lock);
    return !catchup->ends;
}

static void hand_over(struct catchup *catchup, int err) {
    pthread_mutex_lock(&catchup->lock);
    catchup->err = err;
    if (!err) catchup->phase = IS_LOADED;
    etcd_log_wake(catchup->replica->log);
    while (!catchup->ends && catchup->phase == IS_LOADED) pthread_cond_wait(&catchup->goes_on, &catchup->lock);
    pthread_mutex_unlock(&catchup->lock);
}

static void *serve(void *self) {
    struct catchup *catchup = self;
    int err;
    while ((err = load_once(catchup)) && err != ENOMEM && wait_again(catchup, err)) continue;
    hand_over(catchup, err);
    if (catchup->tree.self) catchup->tree.ops->close(catchup->tree.self, NULL);
    pthread_mutex_lock(&catchup->lock);
    catchup->phase = IS_OVER;
    pthread_mutex_unlock(&catchup->lock);
    return NULL;
}

// ---- who serves requests

static void begin_waiting(struct catchup *catchup) {
    pthread_condattr_t by;
    pthread_condattr_init(&by);
    pthread_condattr_setclock(&by, CLOCK_MONOTONIC);
    pthread_mutex_init(&catchup->lock, NULL);
    pthread_cond_init(&catchup->goes_on, &by);
    pthread_condattr_destroy(&by);
}

static void free_catchup(struct catchup *catchup) {
    pthread_cond_destroy(&catchup->goes_on);
    pthread_mutex_destroy(&catchup->lock);
    etcd_close(&catchup->etcd);
    bytes_free(&catchup->mark);
    mem_free(catchup);
}

static void start(struct replica *replica) {
    struct catchup *catchup = mem_calloc(1, sizeof *catchup);
    if (!catchup) return;
    catchup->replica = replica;
    catchup->options = (struct open_options){.steps = replica->steps, .stops = &catchup->ends};
    catchup->done = replica->done;
    catchup->number = replica->number;
    begin_waiting(catchup);
    int err = etcd_open(&catchup->etcd, etcd_log_members(replica->log), (size_t)getpid());
    if (!err) err = pthread_create(&catchup->thread, NULL, serve, catchup);
    if (err) free_catchup(catchup);
    else replica->catchup = catchup;
}

void catchup_begin(struct replica *replica) {
    if (replica->is_behind) return;
    replica->is_behind = true;
    checkpoint_cancel(replica);
    exit_report_note("the log was cut before all of it was read: the newest checkpoint is wanted", 0);
}

static void begin_at(struct replica *replica, const struct checkpoint *checkpoint, uint64_t size) {
    replica->done = replica->checkpoint_version = checkpoint->version;
    replica->revision = checkpoint->revision;
    replica->image_size = size;
    replica->bytes_since_checkpoint = 0;
    replica_drop_parts(replica);
    replica_forget(replica);
}

// Threads of other requests look at inodes.
static void exchange(struct replica *replica, struct catchup *catchup) {
    struct backend former = replica->layer.inner;
    requests_lock();
    replica->layer.inner = catchup->tree;
    replica->volume = library_volume(catchup->tree.self);
    catchup->tree = former;
    begin_at(replica, &catchup->checkpoint, catchup->size);
    if (replica->mount->root) replica_follow_tree(replica, &former);
    requests_unlock();
    // No request is served between: it is this thread that serves them.
    if (replica->mount->root) requests_invalidate_names();
}

// What was tried is taken back, and no image of the former tree is being printed.
static void take(struct replica *replica, struct catchup *catchup) {
    replica_resolve_proposal(replica, &catchup->mark);
    exchange(replica, catchup);
    replica->is_behind = false;
    etcd_log_resume(replica->log, &catchup->checkpoint);
    pthread_mutex_lock(&catchup->lock);
    catchup->phase = IS_TAKEN;
    pthread_cond_signal(&catchup->goes_on);
    pthread_mutex_unlock(&catchup->lock);
    exit_report_note("the tree is that of a checkpoint, and the log is followed again", 0);
}

static void end_thread(struct replica *replica) {
    pthread_join(replica->catchup->thread, NULL);
    free_catchup(replica->catchup);
    replica->catchup = NULL;
}

void catchup_step(struct replica *replica) {
    if (replica->is_behind && !replica->catchup && !replica->err) start(replica);
    struct catchup *catchup = replica->catchup;
    if (!catchup) return;
    pthread_mutex_lock(&catchup->lock);
    enum phase phase = catchup->phase;
    int err = catchup->err;
    pthread_mutex_unlock(&catchup->lock);
    if (phase == IS_LOADED && !replica->checkpoint_task) take(replica, catchup);
    if (phase != IS_OVER) return;
    end_thread(replica);
    if (err == ENOMEM) replica_fail(replica, "the tree of a checkpoint does not fit beside its own", err);
}

// Without an answer of a member nothing is known.
bool catchup_has_failed(struct replica *replica) {
    struct catchup *catchup = replica->catchup;
    if (!catchup || !replica->is_behind) return false;
    pthread_mutex_lock(&catchup->lock);
    bool is_in_vain = catchup->err && catchup->err != EIO;
    pthread_mutex_unlock(&catchup->lock);
    return is_in_vain;
}

void catchup_end(struct replica *replica) {
    struct catchup *catchup = replica->catchup;
    if (!catchup) return;
    checkpoint_give_up();
    pthread_mutex_lock(&catchup->lock);
    catchup->ends = true;
    pthread_cond_signal(&catchup->goes_on);
    pthread_mutex_unlock(&catchup->lock);
    end_thread(replica);
}
