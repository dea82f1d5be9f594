// Proposals: makes a value of the log from requests that wait, and applies values that come ("A log that mounts share"
// in docs/FORMATS.md).
//
// Validity: a value counts when its last part has come and all of its parts are directly before that one; its first
// record has the number that belongs to its version. Invariant: a proposal is made for version `done` + 1 and for no
// other, and a request is answered only after its record has come from the log, or can come no more.
#include "replica_inside.h"
#include "requests.h"
#include "memlimit.h"
#include "wal_encode.h"
#include <errno.h>
#include <fcntl.h>
#include <linux/fuse.h>
#include <poll.h>
#include <stdio.h>
#include <stdlib.h>
#include <string.h>

enum { FRONT = sizeof(struct value_header), LARGEST_PART = LARGEST_VALUE - FRONT, MILLISECONDS = 100 };
enum { SECONDS_TO_CATCH_UP = 30 };

// ---- what no request waits for

static void append_leftover(struct leftover **at, struct leftover *leftover) {
    while (*at) at = &(*at)->next;
    *at = leftover;
}

// It stays in the tree where memory is wanting, in the mount's own directory.
void replica_note_leftover(struct replica *replica) {
    struct leftover *leftover = mem_calloc(1, sizeof *leftover);
    if (!leftover || bytes_append(&leftover->calls, replica->calls.at, replica->calls.length)) mem_free(leftover);
    else append_leftover(&replica->leftovers, leftover);
}

static void free_leftovers(struct leftover **at) {
    for (struct leftover *next; *at; *at = next) {
        next = (*at)->next;
        bytes_free(&(*at)->calls);
        mem_free(*at);
    }
}

// ---- a value is made

static uint64_t first_record(uint64_t version) { return version << RECORDS_OF_A_VALUE; }

static int add_record(struct replica *replica, uint64_t index, const struct bytes *calls) {
    struct record_frame frame;
    int err = wal_frame(&frame, &(struct wal_salt){.length = 0}, first_record(replica->done + 1) + index, calls->at, calls->length);
    return err ? err : wal_put_record(&replica->proposal.records, &frame, calls->at, calls->length);
}

static const struct fuse_in_header *head_of(const struct deferred_request *request) {
    return (const struct fuse_in_header *)request->bytes;
}

// Whether the entries may be wrong for the next request, before this one is done: names move.
static bool moves(const struct deferred_request *request) {
    switch (head_of(request)->opcode) {
    case FUSE_WRITE:
    case FUSE_MKDIR:
    case FUSE_MKNOD:
    case FUSE_SYMLINK:
    case FUSE_CREATE: return false;
    default: return true;
    }
}

// Whether a request may go into a value after another one: it cannot be answered as done without a change.
static bool may_follow(const struct deferred_request *request) {
    switch (head_of(request)->opcode) {
    case FUSE_WRITE:
    case FUSE_MKDIR:
    case FUSE_MKNOD:
    case FUSE_SYMLINK:
    case FUSE_UNLINK:
    case FUSE_RMDIR: return true;
    case FUSE_CREATE:
        return ((const struct fuse_create_in *)(request->bytes + sizeof(struct fuse_in_header)))->flags & O_EXCL;
    default: return false;
    }
}

// Tries a request on the tree, after the requests before it: ENODATA if it makes no calls. The first is not tried again
// if it was tried on this very tree.
static int try_one(struct replica *replica, struct deferred_request *request, bool is_first) {
    if (is_first && request->tried_at == replica->done) return 0;
    request->at = clock_now_ns();
    request->orphans = replica->mount->orphans;
    replica->is_silent = !is_first;
    replica_request(replica, SPECULATING, request->bytes, request->size, NULL, request->at);
    replica->is_silent = false;
    request->tried_at = is_first ? replica->done : UINT64_MAX;
    request->calls.length = 0;
    if (!replica->is_over) return ENODATA;
    return bytes_append(&request->calls, replica->calls.at, replica->calls.length);
}

// The first that waits: what needs no change any more, or is refused, is answered by that.
static int try_first(struct replica *replica) {
    int err = 0;
    while (replica->first && (err = try_one(replica, replica->first, true)) == ENODATA) {
        replica_rollback(replica);
        replica_remove_first(replica);
        err = 0;
    }
    return err;
}

// Applies the calls of the first request, after which others are tried or done. If it was tried just now, the tree has
// them, and a savepoint.
static int apply_first(struct replica *replica) {
    size_t done;
    if (!replica->proposal.requests || replica->has_savepoint) return 0;
    const struct bytes *calls = &replica->first->calls;
    int err = replica_savepoint(replica);
    if (err) return err;
    return doorvervain_errno(doorvervain_wal_apply(replica->volume, (const uint8_t *)calls->at, calls->length, &done));
}

static int add_requests(struct replica *replica) {
    struct proposal *proposal = &replica->proposal;
    int err = try_first(replica);
    struct deferred_request *request = replica->first;
    if (!err && request) err = add_record(replica, proposal->requests++, &request->calls);
    while (!err && request && !moves(request) && (request = request->next) && may_follow(request)) {
        if (proposal->records.length + request->size >= LARGEST_PART) break;
        proposal->is_torn = apply_first(replica) || try_one(replica, request, false);
        if (proposal->is_torn) break;
        err = add_record(replica, proposal->requests++, &request->calls);
    }
    return err;
}

// What is not to be done any more is dropped: no value has what is refused.
static int add_leftovers(struct replica *replica) {
    size_t done;
    struct proposal *proposal = &replica->proposal;
    uint64_t index = proposal->requests;
    int err = 0;
    while (replica->leftovers && !err &&
           (!index || proposal->records.length + replica->leftovers->calls.length < LARGEST_PART)) {
        struct leftover *leftover = replica->leftovers;
        if (apply_first(replica)) break;
        err = replica_savepoint(replica);
        if (err) break;
        replica->leftovers = leftover->next;
        leftover->next = NULL;
        bool is_done =
            !doorvervain_wal_apply(replica->volume, (const uint8_t *)leftover->calls.at, leftover->calls.length, &done);
        if (is_done) {
            append_leftover(&proposal->leftovers, leftover);
            err = add_record(replica, index++, &leftover->calls);
        } else free_leftovers(&leftover);
        if (!is_done) break;
    }
    return err;
}

// ---- a value is put, part by part

static uint64_t parts_of(const struct proposal *proposal) {
    return (proposal->records.length + LARGEST_PART - 1) / LARGEST_PART;
}

// Where memory is wanting its requests wait again.
static void put_part(struct replica *replica) {
    struct proposal *proposal = &replica->proposal;
    size_t from = proposal->part * LARGEST_PART, left = proposal->records.length - from;
    struct value_header header = {VALUE_MARK, replica->number, proposal->serial, proposal->part, parts_of(proposal)};
    proposal->value.length = 0;
    int err = bytes_append(&proposal->value, &header, FRONT);
    if (!err)
        err = bytes_append(&proposal->value, proposal->records.at + from, left < LARGEST_PART ? left : LARGEST_PART);
    if (!err) err = etcd_log_put(replica->log, replica->done + 1, &proposal->value);
    if (err) replica_abandon_proposal(replica);
}

// What was put is not in the log, and is not to come there: its requests wait again.
void replica_abandon_proposal(struct replica *replica) {
    struct proposal *proposal = &replica->proposal;
    etcd_log_put(replica->log, 0, NULL);
    proposal->is_under_way = false;
    append_leftover(&proposal->leftovers, replica->leftovers);
    replica->leftovers = proposal->leftovers;
    proposal->leftovers = NULL;
    proposal->requests = 0;
}

void replica_propose(struct replica *replica) {
    struct proposal *proposal = &replica->proposal;
    if (proposal->is_under_way || replica->err || replica->is_behind || !(replica->first || replica->leftovers)) return;
    proposal->requests = proposal->part = 0;
    proposal->records.length = 0;
    proposal->is_torn = false;
    int err = add_requests(replica);
    if (!err && !proposal->is_torn) err = add_leftovers(replica);
    replica_rollback(replica);
    if (err || !proposal->records.length) {
        replica_abandon_proposal(replica);
        return;
    }
    proposal->is_under_way = true;
    proposal->serial++;
    put_part(replica);
}

// ---- what came

static void follow(struct replica *replica, const struct bytes *calls) {
    replica_forget(replica);
    replica_update_inodes(replica, calls->at, calls->length);
}

// The calls of a record of this mount, where its request does not make them.
static void run(struct replica *replica, const struct bytes *calls) {
    size_t done;
    int err =
        doorvervain_errno(doorvervain_wal_apply(replica->volume, (const uint8_t *)calls->at, calls->length, &done));
    if (err) replica_fail(replica, "a record of its own is refused", err);
    follow(replica, calls);
}

// The request is done, and answered. It makes the calls that it made when it was tried, on the same tree.
static void do_one(struct replica *replica, struct deferred_request *request) {
    uint64_t orphans = replica->mount->orphans;
    if (request->is_refused) {
        run(replica, &request->calls);
        return;
    }
    replica->mount->orphans = request->orphans;
    replica_request(replica, APPLYING, request->bytes, request->size, &request->calls, request->at);
    replica->mount->orphans = orphans > replica->mount->orphans ? orphans : replica->mount->orphans;
    bool has_met = replica->has_met;
    replica_rollback(replica);
    if (has_met) return;
    fputs("doorvervain-mount: a request did not do what its record says, which was done in its place\n", stderr);
    run(replica, &request->calls);
}

static void do_put(struct replica *replica) {
    struct proposal *proposal = &replica->proposal;
    proposal->is_under_way = false;
    for (; proposal->requests; proposal->requests--) {
        do_one(replica, replica->first);
        replica_remove_first(replica);
    }
    for (struct leftover *leftover = proposal->leftovers; leftover; leftover = leftover->next)
        run(replica, &leftover->calls);
    free_leftovers(&proposal->leftovers);
    if (!replica->err && !replica->is_behind) checkpoint_begin(replica);
}

void replica_resolve_proposal(struct replica *replica, const struct bytes *mark) {
    struct proposal *proposal = &replica->proposal;
    if (!proposal->is_under_way) return;
    bool is_there = mark->length == FRONT && !memcmp(mark->at, proposal->value.at, FRONT);
    if (is_there && proposal->part + 1 == parts_of(proposal)) do_put(replica);
    else replica_abandon_proposal(replica);
}

// The calls of each record that was done.
static void follow_records(struct replica *replica, const struct bytes *records, uint64_t number) {
    size_t at = 0, count;
    replica_forget(replica);
    while (at < records->length &&
           !doorvervain_wal_next((const uint8_t *)records->at + at, records->length - at, number++, &count)) {
        replica_update_inodes(replica, records->at + at + DOORVERVAIN_WAL_HEADER, count);
        at += DOORVERVAIN_WAL_HEADER + count + DOORVERVAIN_WAL_TRAILER;
    }
}

static void do_records(struct replica *replica, const struct bytes *records, uint64_t version) {
    size_t count, done, size = 0;
    int err = doorvervain_errno(doorvervain_wal_replay(replica->volume, (const uint8_t *)records->at, records->length,
                                                       first_record(version), &count, &done, &size));
    if (!err && size != records->length) err = EBADMSG;
    if (err) replica_fail(replica, "a value is none of records that can be done", err);
    else follow_records(replica, records, first_record(version));
}

// Whether a part goes on from the one before it. What lacks a part counts for nothing.
static bool continues(const struct replica *replica, const struct value_header *header) {
    const struct value_header *before = &replica->header;
    return header->part == before->part + 1 && header->part < header->parts && header->mount == before->mount &&
           header->serial == before->serial && header->parts == before->parts;
}

// Puts a part to those before it: whether all of them are there.
static bool assemble(struct replica *replica, const struct bytes *value) {
    struct value_header header;
    memcpy(&header, value->at, FRONT);
    if (header.part && !continues(replica, &header)) header = (struct value_header){.part = UINT64_MAX - 1};
    if (!header.part) replica->parts.length = 0;
    replica->header = header;
    if (header.part == UINT64_MAX - 1) return false;
    if (bytes_append(&replica->parts, value->at + FRONT, value->length - FRONT))
        replica_fail(replica, "a value", ENOMEM);
    return header.part + 1 == header.parts;
}

void replica_drop_parts(struct replica *replica) {
    replica->parts.length = 0;
    replica->header = (struct value_header){0};
}

static bool is_own(const struct replica *replica, const struct bytes *value) {
    const struct bytes *own = &replica->proposal.value;
    return replica->proposal.is_under_way && own->length == value->length && !memcmp(own->at, value->at, own->length);
}

static void take_own(struct replica *replica) {
    struct proposal *proposal = &replica->proposal;
    if (++proposal->part < parts_of(proposal)) put_part(replica);
    else do_put(replica);
}

static void take_value(struct replica *replica, const struct value *value) {
    bool is_value = value->bytes.length > FRONT && !memcmp(value->bytes.at, VALUE_MARK, sizeof VALUE_MARK - 1);
    if (!is_value) {
        replica_fail(replica, "the key has a value that no mount put", EBADMSG);
        return;
    }
    bool is_own_one = is_own(replica, &value->bytes);
    bool is_whole = assemble(replica, &value->bytes);
    replica->done = value->version;
    replica->revision = value->revision;
    replica->bytes_since_checkpoint += value->bytes.length;
    if (is_own_one) {
        take_own(replica);
        return;
    }
    if (replica->proposal.is_under_way) replica_abandon_proposal(replica);
    if (is_whole) do_records(replica, &replica->parts, value->version - replica->header.part);
}

void replica_apply_log(struct replica *replica) {
    struct value value;
    int err = 0;
    memlimit_suspend();
    while (!replica->err && etcd_log_next(replica->log, &value, &err)) {
        take_value(replica, &value);
        bytes_free(&value.bytes);
    }
    if (err) catchup_begin(replica);
}

void replica_free_proposal(struct replica *replica) {
    free_leftovers(&replica->leftovers);
    free_leftovers(&replica->proposal.leftovers);
    bytes_free(&replica->proposal.records);
    bytes_free(&replica->proposal.value);
    bytes_free(&replica->parts);
}

// Whether nothing came for too long, where `done` was the last that did, until `end`.
static bool is_late(const struct replica *replica, uint64_t *done, uint64_t *end) {
    uint64_t now = replica_clock();
    if (replica->is_behind || replica->done != *done) *end = now + (uint64_t)SECONDS_TO_CATCH_UP * NANOSECONDS;
    *done = replica->done;
    return now >= *end;
}

int replica_catch_up(struct replica *replica, uint64_t newest) {
    struct pollfd comes = {.fd = etcd_log_event(replica->log), .events = POLLIN};
    uint64_t done = UINT64_MAX, end = UINT64_MAX;
    while (!replica->err && replica->done < newest) {
        poll(&comes, 1, MILLISECONDS);
        replica_apply_log(replica);
        catchup_step(replica);
        if (catchup_has_failed(replica)) replica_fail(replica, "it was cut, or its key is gone", ESTALE);
        if (is_late(replica, &done, &end)) replica_fail(replica, "no member gives all of it", ETIMEDOUT);
    }
    return replica->err;
}
