// Batches of calls before they are written to the log, each of some MiB.
//
// Invariant: a batch is in one list at a time: filled by requests (request lock), in flight (`wal_lock`), or free
// (`queue_lock`). There is always a reserved batch when none is in flight, so taking the batches for a sync needs no
// memory.
#include "requests.h"
#include "store_inside.h"
#include "memlimit.h"
#include <assert.h>
#include <errno.h>
#include <stdlib.h>

enum { MOST_OF_ONE = 6 << 20, MOST_SPARE = 8, ROOM_KEPT = 2 * MOST_OF_ONE };

static void put_last(struct batch_list *list, struct wal_batch *batch) {
    batch->next = NULL;
    if (list->last) list->last->next = batch;
    else list->first = batch;
    list->last = batch;
}

static struct wal_batch *take_first(struct batch_list *list) {
    struct wal_batch *batch = list->first;
    if (!batch) return NULL;
    list->first = batch->next;
    if (!list->first) list->last = NULL;
    return batch;
}

static void free_batch(struct wal_batch *batch) {
    bytes_free(&batch->calls);
    bytes_free(&batch->ends);
    mem_free(batch);
}

static void free_batches(struct batch_list *list) {
    struct wal_batch *batch;
    while ((batch = take_first(list))) free_batch(batch);
}

// ---- free batches

// Null where memory is wanting.
static struct wal_batch *take_free_batch(struct store *store) {
    pthread_mutex_lock(&store->queue_lock);
    struct wal_batch *batch = take_first(&store->free_batches);
    if (batch) store->free_batch_count--;
    pthread_mutex_unlock(&store->queue_lock);
    return batch ? batch : mem_calloc(1, sizeof *batch);
}

// Gives the room back of a batch that was written.
static void give_back(struct store *store, struct wal_batch *batch) {
    size_t size = batch->calls.length;
    bool keeps_buffer = batch->calls.capacity <= ROOM_KEPT;
    if (!keeps_buffer) bytes_free(&batch->calls);
    batch->calls.length = batch->ends.length = 0;
    pthread_mutex_lock(&store->queue_lock);
    store->pending_bytes -= size;
    bool is_free = store->reserved_batch && store->free_batch_count < MOST_SPARE;
    if (is_free) put_last(&store->free_batches, batch);
    store->free_batch_count += is_free;
    pthread_mutex_unlock(&store->queue_lock);
    if (!store->reserved_batch) store->reserved_batch = batch;
    else if (!is_free) free_batch(batch);
}

int store_batches_begin(struct store *store) {
    pthread_mutex_init(&store->queue_lock, NULL);
    store->batch = mem_calloc(1, sizeof *store->batch);
    store->reserved_batch = mem_calloc(1, sizeof *store->reserved_batch);
    return store->batch && store->reserved_batch ? 0 : ENOMEM;
}

void store_batches_free(struct store *store) {
    struct batch_list *lists[] = {&store->full_batches, &store->in_flight, &store->free_batches};
    if (store->batch) put_last(&store->in_flight, store->batch);
    if (store->reserved_batch) put_last(&store->in_flight, store->reserved_batch);
    for (size_t i = 0; i < sizeof lists / sizeof *lists; i++) free_batches(lists[i]);
}

// ---- from a request to the log

size_t store_ended_bytes(const struct wal_batch *batch) {
    size_t count = batch->ends.length / sizeof(size_t);
    return count ? ((const size_t *)batch->ends.at)[count - 1] : 0;
}

static void end_batch(struct store *store, struct wal_batch *another) {
    pthread_mutex_lock(&store->queue_lock);
    store->pending_bytes += store->batch->calls.length;
    pthread_mutex_unlock(&store->queue_lock);
    put_last(&store->full_batches, store->batch);
    store->batch = another;
}

void store_next_batch(struct store *store) {
    size_t most = store->max_pending / 4 < MOST_OF_ONE ? store->max_pending / 4 : MOST_OF_ONE;
    if (store->batch->calls.length < most) return;
    struct wal_batch *another = take_free_batch(store);
    if (another) end_batch(store, another);
}

// What a request did is one record.
int store_end_calls(struct store *store) {
    assert(requests_are_locked());
    struct wal_batch *batch = store->batch;
    if (batch->calls.length == store_ended_bytes(batch)) return 0;
    return bytes_append(&batch->ends, &batch->calls.length, sizeof batch->calls.length);
}

// What the request under way has done is a record of its own then.
int store_fresh_batch(struct store *store) {
    int err = store_end_calls(store);
    if (err || !store->batch->calls.length) return err;
    struct wal_batch *another = take_free_batch(store);
    if (another) end_batch(store, another);
    return another ? 0 : ENOMEM;
}

// The reserve is there: all that was taken before was written.
int wal_take_batches(struct store *store) {
    struct wal_batch *batch;
    assert(lock_is_held(&store->wal_lock) && requests_are_locked());
    if (store_end_calls(store)) return ENOMEM;
    if (store->batch->calls.length) {
        end_batch(store, store->reserved_batch);
        store->reserved_batch = NULL;
    }
    while ((batch = take_first(&store->full_batches))) put_last(&store->in_flight, batch);
    return 0;
}

const struct wal_batch *store_first_in_flight(const struct store *store) { return store->in_flight.first; }

void store_drop_in_flight(struct store *store) { give_back(store, take_first(&store->in_flight)); }
