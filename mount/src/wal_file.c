// The file of the write-ahead log: writing, syncing, and beginning the next one ("Logs" in docs/FORMATS.md).
//
// Invariant: called under `wal_lock`. A log has its name only with its header on the disk. Records are written in the
// order of their numbers, and after a failed write or sync nothing more is written to this log. A record without calls
// is a sync marker: all before it was on the disk. Two at the end of the last log say that its mount ended, three that
// another log follows. Zeros after the last record belong to no record, and are cut off at the end.
#define _GNU_SOURCE
#include "own_file.h"
#include "wal_encode.h"
#include "store_inside.h"
#include <assert.h>
#include <errno.h>
#include <fcntl.h>
#include <inttypes.h>
#include <stdio.h>
#include <string.h>
#include <time.h>
#include <unistd.h>

enum {
    WRITTEN_AT_ONCE = 1 << 20,
    ROOM_KEPT = 8 << 20,
    LEAST_AHEAD = 1 << 20,
    MOST_AHEAD = 8 << 20,
    PART_AHEAD = 8,
    ENOUGH_AHEAD = 1 << 16,
    ENOUGH_TO_SHARE = 1 << 19,
    RECORDS_OF_A_LOG = 40,
    NANOSECONDS = 1000000000,
};

uint64_t store_record(uint64_t log, uint64_t index) { return log << RECORDS_OF_A_LOG | index; }

// From here on no change is answered as done until an image is whole that has all of them.
static int fail(struct store *store, int err) {
    if (!store->err)
        store_report(store, "log.%" PRIu64 " is not kept, and changes are refused: %s", store->log.number,
                     strerror(err));
    store->err = err;
    store->sync_errseq++;
    return err;
}

static int write_at(int file, const char *from, size_t left, uint64_t at) {
    while (left) {
        ssize_t done = pwrite(file, from, left, (off_t)at);
        if (done < 0 && errno == EINTR) continue;
        if (done < 0) return errno;
        from += done;
        at += (uint64_t)done;
        left -= (size_t)done;
    }
    return 0;
}

// Writes the records that were put together to a log.
static int write_buffer(struct store *store, struct wal_log *log) {
    int err = write_at(log->file, store->record_buffer.at, store->record_buffer.length, log->length);
    if (err) return err;
    log->length += store->record_buffer.length;
    if (log->allocated < log->length) log->allocated = log->length;
    store->record_buffer.length = 0;
    return 0;
}

static int write_out(struct store *store) {
    size_t size = store->record_buffer.length;
    store->is_synced = false;
    int err = write_buffer(store, &store->log);
    if (!err) store->wal_bytes += size;
    return err;
}

// Zeros after the records: a file that keeps its length and its blocks is synced without its file system's journal.
// Where there is no room for them, none are there. A long log has more of them, so that few syncs wait for them.
static void fill_ahead(struct store *store) {
    static const char zeros[1 << 16];
    struct wal_log *log = &store->log;
    uint64_t ahead = log->length / PART_AHEAD;
    if (ahead < LEAST_AHEAD) ahead = LEAST_AHEAD;
    if (ahead > MOST_AHEAD) ahead = MOST_AHEAD;
    for (uint64_t end = log->length + ahead; log->allocated < end; log->allocated += sizeof zeros)
        if (write_at(log->file, zeros, sizeof zeros, log->allocated)) return;
}

bool wal_lacks_zeros(const struct store *store) {
    assert(lock_is_held(&store->wal_lock));
    return store->log.allocated < store->log.length + ENOUGH_AHEAD;
}

// A record of no calls is a mark: all that lies before it was on the disk. So who finds a record before it that is not
// whole knows that the disk lost it.
static int put_sync_marker(struct store *store, struct wal_log *log) {
    struct record_frame frame;
    int err = wal_frame_by(&store->digest, &frame, &log->salt, store_record(log->number, log->records), "", 0);
    if (!err) err = wal_put_record(&store->record_buffer, &frame, "", 0);
    log->records += !err;
    log->marks += !err;
    return err;
}

// Before the records of a batch.
static int mark_sync(struct store *store) {
    if (!store->is_synced || store->log.marks || wal_is_new(&store->log)) return 0;
    return put_sync_marker(store, &store->log);
}

// At the end of a log that is on the disk.
static int write_marks(struct store *store, struct wal_log *log, unsigned count) {
    int err = 0;
    while (!err && log->marks < count) err = put_sync_marker(store, log);
    if (!err && store->record_buffer.length) err = write_buffer(store, log);
    store->record_buffer.length = 0;
    return err;
}

// The records of a batch, of which each has a frame.
struct framing {
    const struct store *store;
    const struct wal_batch *batch;
    struct record_frame *frames;
    size_t count;
    _Atomic int err;
};

// The calls of a record.
static const char *calls_of(const struct wal_batch *batch, size_t index, size_t *length) {
    const size_t *ends = (const size_t *)batch->ends.at;
    size_t from = index ? ends[index - 1] : 0;
    *length = ends[index] - from;
    return batch->calls.at + from;
}

static void frame_one(void *self, size_t index) {
    struct framing *framing = self;
    const struct store *store = framing->store;
    size_t length;
    const char *calls = calls_of(framing->batch, index, &length);
    uint64_t number = store_record(store->log.number, store->log.records + index);
    int err = wal_frame_by(&store->digest, &framing->frames[index], &store->log.salt, number, calls, length);
    if (err) framing->err = err;
}

// Those of a large batch are shared by the worker pool.
static int frame_all(struct store *store, struct framing *framing) {
    struct pool_task task = {.part = frame_one, .self = framing, .count = framing->count};
    store->frames.length = 0;
    if (bytes_reserve(&store->frames, framing->count * sizeof *framing->frames)) return ENOMEM;
    framing->frames = (struct record_frame *)store->frames.at;
    if (framing->batch->calls.length >= ENOUGH_TO_SHARE) pool_run(&store->pool, &task);
    else
        for (size_t i = 0; i < framing->count; i++) frame_one(framing, i);
    return framing->err;
}

static int put_records(struct store *store, const struct framing *framing) {
    int err = 0;
    for (size_t i = 0; !err && i < framing->count; i++) {
        size_t length;
        const char *calls = calls_of(framing->batch, i, &length);
        err = wal_put_record(&store->record_buffer, &framing->frames[i], calls, length);
        store->log.records += !err;
        store->log.marks = 0;
        if (!err && store->record_buffer.length >= WRITTEN_AT_ONCE) err = write_out(store);
    }
    return err || !store->record_buffer.length ? err : write_out(store);
}

static int write_batch(struct store *store, const struct wal_batch *batch) {
    struct framing framing = {store, batch, NULL, batch->ends.length / sizeof(size_t), 0};
    int err = framing.count ? mark_sync(store) : 0;
    if (!err) err = frame_all(store, &framing);
    return err ? err : put_records(store, &framing);
}

int wal_write_in_flight(struct store *store) {
    const struct wal_batch *batch;
    assert(lock_is_held(&store->wal_lock));
    int err = store->err;
    while ((batch = store_first_in_flight(store))) {
        if (!err) err = write_batch(store, batch);
        store_drop_in_flight(store);
    }
    store->record_buffer.length = 0;
    if (store->record_buffer.capacity > ROOM_KEPT) bytes_free(&store->record_buffer);
    if (err && !store->err) fail(store, err);
    return err ? EIO : 0;
}

// The disk is at work already when the sync comes.
void store_begin_sync(struct store *store) {
    if (!store->err) sync_file_range(store->log.file, 0, 0, SYNC_FILE_RANGE_WRITE);
}

uint64_t store_clock(void) {
    struct timespec now;
    clock_gettime(CLOCK_MONOTONIC, &now);
    return (uint64_t)now.tv_sec * NANOSECONDS + (uint64_t)now.tv_nsec;
}

int wal_sync_in_flight(struct store *store) {
    int err = wal_write_in_flight(store);
    if (err || store->is_synced) return err;
    uint64_t begun = store_clock();
    bool fills = wal_lacks_zeros(store);
    if (fills) fill_ahead(store);
    if (fdatasync(store->log.file)) return fail(store, errno), EIO;
    store->is_synced = true;
    store->synced_at = store_clock();
    if (!fills) store->took = store->synced_at - begun;
    return 0;
}

// Without the zeros after its records.
static int cut_and_sync(const struct wal_log *log) {
    return ftruncate(log->file, (off_t)log->length) || fdatasync(log->file) ? errno : 0;
}

int store_close_log(struct store *store) {
    int err = store->err;
    if (!err && store->is_synced) err = write_marks(store, &store->log, MARKS_OF_END);
    if (!err) err = cut_and_sync(&store->log);
    close(store->log.file);
    return err;
}

// ---- a new log

bool wal_is_new(const struct wal_log *log) { return log->records <= (log->salt.length ? 1 : 0); }

static int write_header(struct wal_log *log, const struct wal_header *header) {
    struct bytes record = {NULL};
    int err = wal_put_header(&record, header, store_record(log->number, 0));
    if (!err) err = write_at(log->file, record.at, record.length, 0);
    if (!err && fsync(log->file)) err = errno;
    log->length = log->allocated = record.length;
    bytes_free(&record);
    return err;
}

// From here on it has its name.
static int name_log(const struct store *store, uint64_t number, const char *part) {
    char name[STORE_NAME];
    store_name(name, "log", number);
    if (renameat(store->directory, part, store->directory, name)) return errno;
    return fsync(store->directory) ? errno : 0;
}

int wal_create(struct store *store, uint64_t number, const struct wal_log *prior, struct wal_log *out) {
    struct wal_header header = {.prior_records = 0};
    char part[STORE_NAME];
    store_name_of(part, "log", number, ".part");
    if (prior) {
        header.prior_salt = prior->salt;
        header.prior_records = prior->records - prior->marks;
    }
    int err = wal_new_salt(&header.salt);
    if (err) return err;
    *out = (struct wal_log){.number = number, .salt = header.salt, .records = 1};
    out->file = openat(store->directory, part, O_WRONLY | O_CREAT | O_CLOEXEC | O_NOFOLLOW | O_NONBLOCK, 0600);
    if (out->file < 0) return errno;
    err = own_file_check(out->file);
    if (err) store_report(store, "%s: " OWN_FILE_REFUSAL, part);
    if (!err && ftruncate(out->file, 0)) err = errno;
    if (!err) err = write_header(out, &header);
    if (!err) err = name_log(store, number, part);
    if (!err) return 0;
    unlinkat(store->directory, part, 0);
    close(out->file);
    return err;
}

int wal_rotate(struct store *store, struct wal_log *former) {
    struct wal_log next;
    int err = wal_create(store, store->log.number + 1, &store->log, &next);
    if (err) return err;
    *former = store->log;
    store->log = next;
    store->is_synced = true;
    store->wal_bytes = 0;
    return 0;
}

int store_end_log(struct store *store, struct wal_log *former) {
    int err = !store->err && fdatasync(former->file) ? errno : 0;
    if (!err && !store->err) err = write_marks(store, former, MARKS_OF_ROTATION);
    int other = cut_and_sync(former);
    if (!err) err = other;
    close(former->file);
    return err && !store->err ? (fail(store, err), EIO) : 0;
}
