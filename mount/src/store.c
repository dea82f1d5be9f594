// The backend of a store: encodes each call that changes something, and appends the calls of each request to the
// write-ahead log as one record.
//
// Invariant: what an fsync has answered is on the disk. All that was answered before a sync began is taken for it at
// one moment, under `wal_lock` and the request lock. After an error of the log no change is answered as done until a
// checkpoint is complete.
#include "store.h"
#include "orphan.h"
#include "requests.h"
#include "memlimit.h"
#include "wal_encode.h"
#include "store_inside.h"
#include <assert.h>
#include <errno.h>
#include <stdlib.h>
#include <string.h>
#include <time.h>
#include <unistd.h>

enum { SECONDS_BETWEEN = 5, ENOUGH_TO_WRITE = 1 << 20, MOST_WAITING = 32 << 20, MOST_EXPECTED = 4 };
// In nanoseconds. To wake two threads takes little less than a sync that is soon done.
enum { NANOSECONDS = 1000000000, SOON = 250000, LONGEST_GATHERING = 10000000, PART_OF_SYNC = 16 };

// ---- calls that change something

// A request whose calls cannot be kept begins none. One that has begun is not refused on its way, since what it did may
// have to be undone.
static int may_change(const struct store *store) {
    bool has_begun = store->completing || store->batch->calls.length > store_ended_bytes(store->batch);
    return store->err && !has_begun ? EIO : 0;
}

static struct bytes *call_begins(void *self, int *err) {
    struct store *store = self;
    assert(requests_are_locked());
    *err = may_change(store);
    return &store->batch->calls;
}

// No image has too many snapshots. So where changes are refused until one is whole, a snapshot may still be dropped.
static int store_snapshot(void *self, enum snapshot_call what, const char *snapshot) {
    struct store *store = self;
    const struct backend *inner = &store->layer.inner;
    struct bytes *calls = &store->batch->calls;
    size_t before = calls->length;
    assert(requests_are_locked());
    int err = what == DROP_SNAPSHOT ? 0 : may_change(store);
    if (!err) err = wal_encode_snapshot(calls, what, snapshot);
    if (!err) err = inner->ops->snapshot(inner->self, what, snapshot);
    if (!err) store_note_snapshot(store, what, snapshot);
    if (err) calls->length = before;
    return err;
}

// The calls that made the tree are those of this request.
static int store_adopt(void *self, void *fork, struct bytes *calls) {
    struct store *store = self;
    assert(requests_are_locked());
    int err = may_change(store);
    if (!err) err = store_fresh_batch(store);
    if (!err) err = backend_adopt(&store->layer.inner, fork, calls);
    if (err) return err;
    struct bytes room = store->batch->calls;
    store->batch->calls = *calls;
    *calls = room;
    return 0;
}

// ---- what waits for the disk

// All that a list has. The list has nothing then.
static struct waiter *waiters_take(struct waiters *list) {
    struct waiter *first = list->first;
    *list = (struct waiters){NULL};
    return first;
}

static void waiters_add(struct waiters *list, struct waiter *waiter) {
    waiter->next = list->first;
    list->first = waiter;
    list->count++;
}

// Answers all of them: how many they were.
static unsigned waiters_answer(struct waiter *waiter, int err) {
    struct waiter *next;
    unsigned count = 0;
    for (; waiter; waiter = next, count++) {
        next = waiter->next;
        waiter->answer(waiter, err);
    }
    return count;
}

bool store_is_full(const struct store *store) { return store->pending_bytes >= store->max_pending; }

bool store_wait_for_space(struct store *store, struct waiter *waiter) {
    pthread_mutex_lock(&store->wake_lock);
    bool waits = store_is_full(store);
    if (waits) waiters_add(&store->for_space, waiter);
    pthread_mutex_unlock(&store->wake_lock);
    return waits;
}

void store_unlock_wal(struct store *store) {
    lock_drop(&store->wal_lock);
    pthread_mutex_lock(&store->wake_lock);
    struct waiter *first = store_is_full(store) ? NULL : waiters_take(&store->for_space);
    pthread_mutex_unlock(&store->wake_lock);
    waiters_answer(first, 0);
}

static struct waiter *take_for_sync(struct store *store) {
    pthread_mutex_lock(&store->wake_lock);
    struct waiter *first = waiters_take(&store->for_sync);
    pthread_mutex_unlock(&store->wake_lock);
    return first;
}

void store_wait_for_sync(struct store *store, struct waiter *waiter) {
    pthread_mutex_lock(&store->wake_lock);
    waiters_add(&store->for_sync, waiter);
    pthread_cond_signal(&store->asks);
    pthread_mutex_unlock(&store->wake_lock);
}

// ---- the log

// Calls wait to be written, or an image is due: the writeback thread is not to sleep on.
static void wake_writeback(struct store *store) {
    if (store->writeback_wanted) return;
    pthread_mutex_lock(&store->wake_lock);
    store->writeback_wanted = true;
    pthread_cond_signal(&store->wakes);
    pthread_mutex_unlock(&store->wake_lock);
}

// As many changes as there were before this sync are expected before the next one.
static void expect(struct store *store) {
    if (store->changes) store->expected = store->changes <= MOST_EXPECTED ? store->changes : 0;
    store->changes = 0;
}

// All that was answered is taken at one moment, with those who wait for a sync; null: they wait on. Under `wal_lock`.
static int take_and_sync(struct store *store, struct waiter **waiters) {
    assert(lock_is_held(&store->wal_lock));
    requests_lock();
    if (waiters) *waiters = take_for_sync(store);
    expect(store);
    int err = wal_take_batches(store);
    bool may_have_image = !store_has_too_many(store);
    requests_unlock();
    if (!err) err = wal_sync_in_flight(store);
    if (may_have_image && !store->err && store->wal_bytes >= store->checkpoint_at) wake_writeback(store);
    return err;
}

static int sync_all(struct store *store, struct waiter **waiters) {
    lock_take(&store->wal_lock);
    int err = take_and_sync(store, waiters);
    store_unlock_wal(store);
    return err;
}

int store_sync(struct store *store) { return sync_all(store, NULL); }

static bool has_little(struct store *store) {
    requests_lock();
    bool has = store->pending_bytes + store->batch->calls.length < ENOUGH_TO_WRITE;
    requests_unlock();
    return has;
}

bool store_try_sync(struct store *store, int *err) {
    if (store->took > SOON || !has_little(store) || !lock_try(&store->wal_lock)) return false;
    bool does = !wal_lacks_zeros(store);
    if (does) *err = take_and_sync(store, NULL);
    store_unlock_wal(store);
    return does;
}

void store_complete_begins(struct store *store) {
    assert(requests_are_locked());
    store->completing++;
}

// The image that ends the refusal has it. What follows is another request's, and is refused.
void store_complete_ends(struct store *store) {
    assert(requests_are_locked());
    if (!--store->completing && store->err) store_end_calls(store);
}

int store_end_request(struct store *store, bool *has_changed) {
    assert(requests_are_locked());
    size_t before = store->batch->ends.length;
    int err = store_end_calls(store);
    *has_changed = store->batch->ends.length > before;
    if (err) return err;
    store->changes += *has_changed;
    store_next_batch(store);
    // The writeback thread makes records of the calls and writes them, on another processor.
    if (store->pending_bytes + store->batch->calls.length >= ENOUGH_TO_WRITE) wake_writeback(store);
    return 0;
}

// Whether calls wait that a program is about to sync, as it did after the same number before.
static bool expects_sync(struct store *store) {
    requests_lock();
    bool does = store->batch->calls.length && store->changes <= store->expected;
    requests_unlock();
    return does;
}

// What is about to be synced is written, and the disk begins with it.
static void write_ahead(struct store *store) {
    requests_lock();
    int err = wal_take_batches(store);
    bool is_last = store->changes == store->expected;
    requests_unlock();
    if (!err) err = wal_write_in_flight(store);
    if (!err && is_last) store_begin_sync(store);
}

// A program that syncs after each few changes does so again: then its records are made while it gets the answer. Where
// the disk is slow, the writeback thread writes them.
void store_idle(struct store *store) {
    if (!expects_sync(store)) return;
    if (store->took > SOON) {
        wake_writeback(store);
        return;
    }
    if (!lock_try(&store->wal_lock)) return;
    write_ahead(store);
    store_unlock_wal(store);
}

bool store_syncs_each(const struct store *store) { return store->syncs_each; }

bool store_refuses(const struct store *store) { return store->err; }

uint64_t store_sync_errseq(struct store *store) { return store->sync_errseq; }

void store_fill_status(const struct store *store, struct store_status *out) {
    assert(requests_are_locked());
    uint64_t synced_at = store->synced_at; // before the clock: a sync may end meanwhile
    *out = (struct store_status){.log_bytes = store->wal_bytes,
                                 .pending_bytes = store->pending_bytes + store->batch->calls.length,
                                 .since_sync = store_clock() - synced_at,
                                 .is_refusing = store->err};
}

// ---- the sync thread

// Those just answered mostly ask again at once, and are waited for a little: else two halves would take turns.
static bool is_asked(struct store *store, unsigned answered) {
    uint64_t part = store->took / PART_OF_SYNC;
    uint64_t end = store_clock() + (part < LONGEST_GATHERING ? part : LONGEST_GATHERING);
    struct timespec until = {(time_t)(end / NANOSECONDS), (long)(end % NANOSECONDS)};
    int err = 0;
    pthread_mutex_lock(&store->wake_lock);
    unsigned wanted = store->for_sync.count + answered;
    while (!store->ends && !store->for_sync.count) pthread_cond_wait(&store->asks, &store->wake_lock);
    while (!store->ends && store->for_sync.count < wanted && !err)
        err = pthread_cond_timedwait(&store->asks, &store->wake_lock, &until);
    bool is = store->for_sync.count;
    pthread_mutex_unlock(&store->wake_lock);
    return is;
}

// What asks while a sync is under way waits for the next one, since not all that was answered then is in the first.
static void *run_syncs(void *self) {
    struct store *store = self;
    unsigned answered = 0;
    while (is_asked(store, answered)) {
        struct waiter *first;
        int err = sync_all(store, &first);
        answered = waiters_answer(first, err);
    }
    return NULL;
}

// ---- the writeback thread

// Writes what was answered, and brings it onto the disk where that is due. Requests are held up only while it is taken
// out of their way.
static void write_in_time(struct store *store, bool syncs) {
    lock_take(&store->wal_lock);
    requests_lock();
    if (syncs) orphan_flush_deferred(store->mount);
    int err = wal_take_batches(store);
    requests_unlock();
    if (!err && syncs) wal_sync_in_flight(store);
    else if (!err) wal_write_in_flight(store);
    store_unlock_wal(store);
}

static bool is_past(const struct timespec *moment) {
    struct timespec now;
    clock_gettime(CLOCK_MONOTONIC, &now);
    return now.tv_sec > moment->tv_sec || (now.tv_sec == moment->tv_sec && now.tv_nsec >= moment->tv_nsec);
}

static void set_next_sync(struct store *store) {
    clock_gettime(CLOCK_MONOTONIC, &store->next_sync);
    store->next_sync.tv_sec += SECONDS_BETWEEN;
}

// Does what is due.
static void tick(struct store *store) {
    bool syncs = is_past(&store->next_sync);
    if (!syncs && !store->writeback_wanted) return;
    store->writeback_wanted = false;
    write_in_time(store, syncs);
    if (syncs) set_next_sync(store);
}

// Sleeps until something is due, and says whether the end has come meanwhile.
static bool sleep_or_end(struct store *store) {
    int err = 0;
    pthread_mutex_lock(&store->wake_lock);
    while (!store->ends && !store->writeback_wanted && err != ETIMEDOUT)
        err = pthread_cond_timedwait(&store->wakes, &store->wake_lock, &store->next_sync);
    pthread_mutex_unlock(&store->wake_lock);
    return store->ends;
}

static void *run_writeback(void *self) {
    struct store *store = self;
    while (!sleep_or_end(store)) {
        tick(store);
        if (checkpoint_is_due(store)) store_checkpoint(store, tick);
    }
    return NULL;
}

int store_start_writeback(struct store *store, struct mount *mount) {
    pthread_condattr_t how;
    store->mount = mount;
    store->synced_at = store_clock();
    pool_begin(&store->pool);
    set_next_sync(store);
    pthread_mutex_init(&store->wake_lock, NULL);
    pthread_condattr_init(&how);
    pthread_condattr_setclock(&how, CLOCK_MONOTONIC);
    pthread_cond_init(&store->wakes, &how);
    pthread_cond_init(&store->asks, &how);
    int err = pthread_create(&store->writeback_thread, NULL, run_writeback, store);
    store->has_writeback = !err;
    if (!err) err = pthread_create(&store->sync_thread, NULL, run_syncs, store);
    store->has_sync_thread = !err;
    return err;
}

static void end_threads(struct store *store) {
    if (!store->has_writeback) return;
    pthread_mutex_lock(&store->wake_lock);
    store->ends = true;
    pthread_cond_signal(&store->wakes);
    pthread_cond_signal(&store->asks);
    pthread_mutex_unlock(&store->wake_lock);
    pthread_join(store->writeback_thread, NULL);
    if (store->has_sync_thread) pthread_join(store->sync_thread, NULL);
    store->has_writeback = false;
}

// ---- its beginning and its end

static void free_store(struct store *store) {
    if (store->lock_file >= 0) close(store->lock_file);
    if (store->directory >= 0) close(store->directory);
    pool_end(&store->pool);
    sha256_function_end(&store->digest);
    store_batches_free(store);
    bytes_free(&store->record_buffer);
    bytes_free(&store->frames);
    mem_free(store);
}

// What cannot be kept in the log goes into an image.
static int write_rest(struct store *store) {
    int err = store_sync(store);
    if (err) err = store_checkpoint(store, NULL);
    int other = store_close_log(store);
    if (!err && !other) store_note_last(store, true);
    return err ? err : other;
}

static int store_close(void *self, struct image *image) {
    struct store *store = self;
    end_threads(store);
    int err = write_rest(store);
    if (err) store_report(store, "what was changed since the last sync may be lost: %s", strerror(err));
    int other = store->layer.inner.ops->close(store->layer.inner.self, image);
    free_store(store);
    return err ? err : other;
}

static const struct backend_ops store_ops = {
    .change = wal_layer_change,
    .rename = wal_layer_rename,
    .truncate = wal_layer_truncate,
    .write = wal_layer_write,
    .snapshot = store_snapshot,
    .punch = wal_layer_punch,
    .copy_range = wal_layer_copy_range,
    .adopt = store_adopt,
    .close = store_close,
};

// A part of the memory that the tree may take.
static size_t max_pending(void) {
    uint64_t part = memlimit_usage().size / 16;
    return part < MOST_WAITING ? (size_t)part : MOST_WAITING;
}

// Mounts that are killed one after the other may never have come to write a checkpoint. So where the logs are much longer
// than they may be, that is done first, which takes a part of the time of a start; where it fails, it is tried again later.
static int load(struct store *store, const struct open_options *options, struct backend *backend) {
    progress_begin(store);
    int err = store_load(store, options, backend);
    if (!err && store->wal_bytes > 2 * store->log_size && !store_has_too_many(store)) {
        progress_set(store, "writes tree", store->log.number + 1, 0);
        store_checkpoint(store, NULL);
    }
    progress_end(store);
    return err;
}

int store_open(const struct open_options *options, struct backend *backend, struct store **out) {
    struct store *store = mem_calloc(1, sizeof *store);
    if (!store) return ENOMEM;
    store->directory = store->lock_file = -1;
    pthread_mutex_init(&store->wal_lock.mutex, NULL);
    store->syncs_each = options->syncs_each;
    store->log_size = options->log_size;
    store->took = UINT64_MAX;
    store->max_pending = max_pending();
    sha256_function_begin(&store->digest);
    wal_check_function(&store->digest);
    int err = store_batches_begin(store);
    if (!err) err = store_lock(store, options->store);
    if (!err) err = load(store, options, backend);
    if (err) {
        free_store(store);
        return err;
    }
    store->layer = (struct wal_layer){.inner = *backend, .begins = call_begins};
    *backend = (struct backend){.ops = &store_ops, .self = store, .tree = store->layer.inner.tree};
    *out = store;
    return 0;
}
