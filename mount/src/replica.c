// The backend of a replica: encodes the calls of a request, and keeps or takes back what they did to the tree.
//
// Invariant: outside of a pass the tree is that of the log up to version `done`. A speculative pass is rolled back to
// its savepoint; only a pass that did exactly the calls of its record stays.
#include "replica_inside.h"
#include "exit_report.h"
#include "library.h"
#include "memlimit.h"
#include <assert.h>
#include <errno.h>
#include <stdio.h>
#include <stdlib.h>
#include <string.h>
#include <sys/stat.h>
#include <unistd.h>

// The snapshot of the library by which the tree is kept that is taken back. No user's has it.
static const char KEPT[] = "kept";
enum { KEPT_LENGTH = sizeof KEPT - 1 };

// ---- the tree before a pass

void replica_fail(struct replica *replica, const char *what, int err) {
    if (!replica->err) exit_report_error("the log is not followed any more: ", what, err);
    if (!replica->err) replica->err = err;
}

void replica_forget(struct replica *replica) {
    replica->mount->tree_gen++;
    replica->mount->record_dirs_gen++;
    replica->mount->private_dirs = 0;
}

int replica_savepoint(struct replica *replica) {
    if (replica->has_savepoint) return 0;
    int err = doorvervain_errno(doorvervain_snapshot(replica->volume, KEPT, KEPT_LENGTH));
    replica->has_savepoint = !err;
    return err;
}

static void let_stand(struct replica *replica) {
    if (replica->has_savepoint) doorvervain_drop_snapshot(replica->volume, KEPT, KEPT_LENGTH);
    replica->has_savepoint = false;
}

void replica_rollback(struct replica *replica) {
    if (!replica->has_savepoint) return;
    int err = doorvervain_errno(doorvervain_restore(replica->volume, KEPT, KEPT_LENGTH));
    if (err) replica_fail(replica, "what was tried stands", err);
    let_stand(replica);
    replica_forget(replica);
}

// ---- a pass

void replica_pass(struct replica *replica, enum replay_mode mode, const struct bytes *wanted, uint64_t at) {
    replica->mode = mode;
    replica->at = at;
    replica->wanted = wanted;
    replica->calls.length = 0;
    replica->is_over = replica->has_met = false;
    replica->depth = 0;
}

void replica_pass_ends(struct replica *replica) {
    bool leaves_rest = replica->calls.length && (replica->mode == REPORTING || replica->has_met);
    if (leaves_rest) replica_note_leftover(replica);
    if (replica->has_met && !leaves_rest) let_stand(replica);
    replica->mode = NO_REPLAY;
    replica->at = 0;
}

// Whether the calls are those of the record.
static bool is_record(const struct replica *replica) {
    const struct bytes *wanted = replica->wanted, *calls = &replica->calls;
    return calls->length == wanted->length && !memcmp(calls->at, wanted->at, wanted->length);
}

// The record's calls were made: the tree is kept as it stands now, and what follows is another record's.
static int meet(struct replica *replica) {
    if (!is_record(replica)) {
        replica->is_over = true;
        return EIO;
    }
    let_stand(replica);
    replica->calls.length = 0;
    replica->has_met = true;
    return 0;
}

static void change_begins(struct replica *replica) { replica->depth++; }

// Calls that were refused as a whole count for nothing. If one call was the record, the change is done, whatever failed
// behind it.
static int change_ends(struct replica *replica, int err) {
    if (--replica->depth) return err;
    if (replica->has_met && replica->is_over) {
        replica->is_over = false;
        return 0;
    }
    if (err || replica->is_over || !replica->calls.length) return err;
    if (replica->mode == APPLYING && !replica->has_met) return meet(replica);
    if (replica->mode != SPECULATING) return 0;
    replica->is_over = true;
    return EINPROGRESS;
}

static uint64_t count_leftovers(const struct leftover *leftover) {
    uint64_t count = 0;
    for (; leftover; leftover = leftover->next) count++;
    return count;
}

void replica_fill_status(const struct mount *mount, struct replica_status *out) {
    const struct replica *replica = mount->replica;
    *out = (struct replica_status){.version = replica->done, .is_behind = replica->is_behind || replica->err};
    for (const struct deferred_request *waits = replica->first; waits; waits = waits->next) out->waiting++;
    out->waiting += count_leftovers(replica->leftovers) + count_leftovers(replica->proposal.leftovers);
    snprintf(out->members, sizeof out->members, "%s", replica->members);
}

uint64_t replica_timestamp(const struct mount *mount) { return mount->replica ? mount->replica->at : 0; }

// If what an inode is about is gone, the kernel looks for its name anew.
bool replica_may_answer(const struct mount *mount, int *err) {
    const struct replica *replica = mount->replica;
    if (!replica) return true;
    if (replica->is_silent || (replica->mode == SPECULATING && replica->is_over)) return false;
    if (replica->names_number && *err == ENOENT) *err = ESTALE;
    return true;
}

void replica_change_begins(struct mount *mount) {
    if (mount->replica) change_begins(mount->replica);
}

int replica_change_ends(struct mount *mount, int err) {
    return mount->replica ? change_ends(mount->replica, err) : err;
}

// ---- calls that change something

static struct bytes *call_begins(void *self, int *err) {
    struct replica *replica = self;
    if (replica->is_over) return NULL;
    change_begins(replica);
    *err = replica->mode == NO_REPLAY ? EROFS : 0;
    return &replica->calls;
}

// Whether the tree before the record is not kept.
static bool lacks_savepoint(const struct replica *replica) {
    return replica->mode == APPLYING && !replica->has_met && !replica->has_savepoint;
}

// A call that is a whole record takes no savepoint, by which the tree would copy what the call changes: it makes the
// record or changes nothing.
static int call_noted(void *self) {
    struct replica *replica = self;
    return lacks_savepoint(replica) && is_record(replica) ? 0 : replica_savepoint(replica);
}

// What follows in the change of a call that is the record does nothing: the log has neither more of it, nor what undoes
// it.
static int call_ends(void *self, int err) {
    struct replica *replica = self;
    if (!err && lacks_savepoint(replica)) {
        int other = meet(replica);
        assert(!other); // `call_noted` took a savepoint for any other call
        if (!other) replica->is_over = true;
    }
    return change_ends(replica, err);
}

// The library has one place for snapshots, where the tree is kept that is taken back.
static int replica_snapshot(void *self, enum snapshot_call what, const char *snapshot) {
    (void)self, (void)what, (void)snapshot;
    return EOPNOTSUPP;
}

// ---- its beginning and its end

static int replica_close(void *self, struct image *image) {
    struct replica *replica = self;
    catchup_end(replica);
    etcd_log_close(replica->log);
    int err = replica->layer.inner.ops->close(replica->layer.inner.self, image);
    replica_free_proposal(replica);
    bytes_free(&replica->calls);
    bytes_free(&replica->stale);
    mem_free(replica);
    return err;
}

static const struct backend_ops replica_ops = {
    .change = wal_layer_change,
    .rename = wal_layer_rename,
    .truncate = wal_layer_truncate,
    .write = wal_layer_write,
    .snapshot = replica_snapshot,
    .punch = wal_layer_punch,
    .copy_range = wal_layer_copy_range,
    .close = replica_close,
};

int replica_load(const struct open_options *options, int image, struct backend *out, uint64_t *size) {
    char name[64];
    struct stat stat;
    struct open_options inner = *options;
    snprintf(name, sizeof name, "/proc/self/fd/%d", image);
    if (image < 0) return open_library(options, out);
    inner.image = name;
    if (!fstat(image, &stat)) *size = (uint64_t)stat.st_size;
    return open_library(&inner, out);
}

static int open_log_of(struct replica *replica, const struct open_options *options, struct log_start *start) {
    int err = etcd_log_open(&options->replica, &replica->log, start);
    bool is_open = !err;
    if (is_open) err = replica_load(options, start->image, &replica->layer.inner, &replica->image_size);
    if (start->image >= 0) close(start->image);
    if (is_open && err) etcd_log_close(replica->log);
    return err;
}

static void begin_at(struct replica *replica, struct mount *mount, const struct log_start *start) {
    replica->layer.begins = call_begins;
    replica->layer.noted = call_noted;
    replica->layer.ends = call_ends;
    replica->volume = library_volume(replica->layer.inner.self);
    replica->number = start->number;
    replica->done = replica->checkpoint_version = start->checkpoint.version;
    replica->revision = start->checkpoint.revision;
    mount->backend = (struct backend){.ops = &replica_ops, .self = replica};
    mount->replica = replica;
    mount->orphans = replica->number << NUMBERS_OF_A_MOUNT;
    inodes_number_above(mount->orphans);
}

int replica_open(const struct open_options *options, struct mount *mount) {
    struct replica *replica = mem_calloc(1, sizeof *replica);
    struct log_start start;
    if (!replica) return ENOMEM;
    replica->mount = mount;
    replica->log_size = options->log_size;
    replica->steps = options->steps;
    replica->members = options->replica.members;
    int err = open_log_of(replica, options, &start);
    if (err) {
        fprintf(stderr, "doorvervain-mount: --replica: no mount: %s\n", strerror(err));
        mem_free(replica);
        return err;
    }
    begin_at(replica, mount, &start);
    err = replica_catch_up(replica, start.newest);
    if (err) etcd_log_print_errors(replica->log);
    if (err) replica_close(replica, NULL);
    return err;
}
