// Writes checkpoints of a store: `tree.N`, the image of the tree, while requests go on ("Image" in docs/FORMATS.md).
//
// Invariant: the trees are frozen, and log N begins, at one moment, so `tree.N` has all changes of the logs before N
// and none of those from N on. The image gets its name only after it and the file of snapshots are on the disk, and its
// checksums after that; then older files are deleted. Frozen trees are printed and closed with no lock.
#include "requests.h"
#include "store_inside.h"
#include <errno.h>
#include <inttypes.h>
#include <stdio.h>
#include <string.h>
#include <unistd.h>

enum { PIECE = 1 << 18, PIECES_SYNCED = 64 };

// An image that is being written.
struct checkpoint_writer {
    struct checkpoint_file tree;
    struct doorvervain_printer printing;
    struct snapshot_edits snapshots;
    struct snapshot_index index;
    uint64_t number, former_bytes;
    struct checkpoint_sum sum;
    uint64_t index_size;   // bytes of the file of snapshots
    uint64_t sync_errseq;  // of the logs up to its own
    struct wal_log former; // the log before it
};

void checkpoint_threshold(struct store *store, uint64_t image) {
    store->checkpoint_at = 2 * image > store->log_size ? 2 * image : store->log_size;
}

bool checkpoint_is_due(struct store *store) {
    lock_take(&store->wal_lock);
    requests_lock();
    bool is = !store_has_too_many(store) && (store->err || store->wal_bytes >= store->checkpoint_at);
    requests_unlock();
    store_unlock_wal(store);
    return is;
}

// ---- its beginning

static int freeze(struct store *store, struct checkpoint_writer *writer) {
    struct doorvervain_frozen tree;
    int err = doorvervain_errno(doorvervain_freeze(store->volume, &tree));
    return err ? err : doorvervain_errno(doorvervain_print_begin(&writer->printing, &tree));
}

// At one moment the trees are frozen: all that was answered before is taken for the log that ends there.
static int take_and_freeze(struct store *store, struct checkpoint_writer *writer) {
    int err = store_has_too_many(store) ? EBUSY : wal_take_batches(store);
    if (!err) err = freeze(store, writer);
    return err ? err : store_begin_snapshots(store, &writer->snapshots);
}

// No image takes the place of one with its number: the snapshots beside it may be others.
static bool has_tree(const struct store *store) {
    char name[STORE_NAME];
    store_name(name, "tree", store->log.number);
    return store_has(store, name);
}

// Another log begins. One that has nothing but its header, since changes are refused, serves on.
static int begin_log(struct store *store, struct checkpoint_writer *writer) {
    writer->former_bytes = store->wal_bytes;
    bool serves = store->log.salt.length && wal_is_new(&store->log) && store->err && !has_tree(store);
    writer->number = store->log.number + !serves;
    int err = serves ? 0 : wal_rotate(store, &writer->former);
    writer->sum.salt = store->log.salt;
    if (!err && writer->former.file >= 0) err = store_end_log(store, &writer->former);
    return err;
}

static int begin(struct store *store, struct checkpoint_writer *writer) {
    lock_take(&store->wal_lock);
    requests_lock();
    int err = take_and_freeze(store, writer);
    requests_unlock();
    writer->number = store->log.number;
    wal_write_in_flight(store);
    if (!err) err = begin_log(store, writer);
    writer->sync_errseq = store->sync_errseq;
    store_unlock_wal(store);
    return err;
}

// ---- files that are written while requests go on

int store_open_checkpoint_file(struct checkpoint_file *file, const char *kind, uint64_t number) {
    char name[STORE_NAME], path[PATH_MAX];
    store_name(name, kind, number);
    int err = store_path(file->store, name, path);
    return err ? err : image_open(&file->image, path);
}

// Synced a little at a time, so that the last sync does not keep the log waiting for its own.
int store_put_bytes(struct checkpoint_file *file, const char *bytes, size_t count) {
    int err = image_put(&file->image, bytes, count);
    file->size += count;
    file->store->progress.done = file->size;
    if (err || ++file->pieces % PIECES_SYNCED) return err;
    return fdatasync(file->image.out) ? errno : 0;
}

int writeback_tick(struct checkpoint_file *file) {
    if (!file->meanwhile) return 0;
    file->meanwhile(file->store);
    return file->store->ends ? ECANCELED : 0;
}

int store_end_checkpoint_file(struct checkpoint_file *file, const char *sum, int err) {
    if (err) {
        image_drop(&file->image);
        return err;
    }
    err = image_keep_as(&file->image, sum);
    if (err) unlink(file->image.part);
    return err;
}

// ---- all of it

static int put_tree(struct checkpoint_writer *writer) {
    uint8_t piece[PIECE];
    size_t size = 1;
    int err = 0;
    while (!err && size) {
        err = doorvervain_errno(doorvervain_print_next(&writer->printing, piece, PIECE, &size));
        if (!err) err = writeback_tick(&writer->tree);
        if (!err && size) err = store_put_bytes(&writer->tree, (const char *)piece, size);
    }
    doorvervain_print_end(&writer->printing);
    return err;
}

static int put_files(struct checkpoint_writer *writer) {
    int err = put_tree(writer);
    if (!err) err = image_sum(&writer->tree.image, writer->sum.tree);
    if (!err)
        err = store_put_snapshots(&writer->tree, writer->number, &writer->snapshots, &writer->index,
                                  writer->sum.snapshots, &writer->index_size);
    return err;
}

// The snapshots are whole before the image gets its name, and that before its checksums do: so where these stand, both
// do.
static int put_image(struct checkpoint_writer *writer) {
    struct bytes sum = {NULL};
    store_clear(writer->tree.store, 0);
    int err = store_open_checkpoint_file(&writer->tree, "tree", writer->number);
    if (err) return err;
    err = put_files(writer);
    if (!err) err = store_print_sum(&sum, writer->number, &writer->sum);
    if (!err) err = bytes_append(&sum, "", 1);
    err = store_end_checkpoint_file(&writer->tree, sum.at, err);
    bytes_free(&sum);
    return err;
}

// Changes are done again where they were refused: all that was answered before lies in the image. What its own log lost
// since it began takes another image.
static void succeed(struct store *store, const struct checkpoint_writer *writer) {
    lock_take(&store->wal_lock);
    checkpoint_threshold(store, writer->tree.size + writer->index_size);
    if (store->sync_errseq == writer->sync_errseq) {
        if (store->err) store_report(store, "changes are kept again");
        store->err = 0;
    }
    store->last_checkpoint_err = 0;
    store_unlock_wal(store);
    store->snapshot_index = writer->index;
    store_clear(store, writer->number);
}

// The logs go on, and it is tried again when they have grown by as much as a first one.
static void give_up(struct store *store, const struct checkpoint_writer *writer, int err) {
    lock_take(&store->wal_lock);
    store->wal_bytes += writer->former.file >= 0 ? writer->former_bytes : 0;
    store->checkpoint_at = store->wal_bytes + store->log_size;
    if (err != ECANCELED && err != EBUSY && err != store->last_checkpoint_err)
        store_report(store, "tree.%" PRIu64 " is not written: %s", writer->number, strerror(err));
    store->last_checkpoint_err = err;
    store_unlock_wal(store);
}

int store_checkpoint(struct store *store, void (*meanwhile)(struct store *store)) {
    struct checkpoint_writer writer = {.tree = {.store = store, .meanwhile = meanwhile}, .former.file = -1};
    int err = begin(store, &writer);
    if (!err) err = put_image(&writer);
    doorvervain_print_end(&writer.printing);
    store_end_snapshots(&writer.snapshots);
    if (err) give_up(store, &writer, err);
    else succeed(store, &writer);
    return err;
}

int store_first_checkpoint(struct store *store) {
    struct checkpoint_writer writer = {.tree = {.store = store}, .number = store->log.number};
    writer.sum.salt = store->log.salt;
    requests_lock();
    int err = freeze(store, &writer);
    if (!err) err = store_begin_snapshots(store, &writer.snapshots);
    requests_unlock();
    if (!err) err = put_image(&writer);
    doorvervain_print_end(&writer.printing);
    store_end_snapshots(&writer.snapshots);
    return err;
}
