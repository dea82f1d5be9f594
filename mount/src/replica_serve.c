// The loop of requests of a replica: each is answered at once, or deferred until the log has its record.
//
// Invariant: of a deferred request the bytes are kept, and nothing is sent while it is tried (`replica_may_answer`); it
// is answered exactly once, later, or refused after a time.
#include "replica_inside.h"
#include "private_dir.h"
#include "requests.h"
#include "memlimit.h"
#include <errno.h>
#include <linux/fuse.h>
#include <poll.h>
#include <stdio.h>
#include <stdlib.h>
#include <string.h>
#include <time.h>
#include <unistd.h>

enum { SECONDS_TO_WAIT = 10, SECONDS_TO_END = 3, SECONDS_IDLE = 5, MILLISECONDS = 100 };

static struct fuse_session *session;

uint64_t replica_clock(void) {
    struct timespec now;
    clock_gettime(CLOCK_MONOTONIC, &now);
    return (uint64_t)now.tv_sec * NANOSECONDS + (uint64_t)now.tv_nsec;
}

// ---- a request

static bool names_number(uint32_t what) {
    switch (what) {
    case FUSE_GETATTR:
    case FUSE_SETATTR:
    case FUSE_READLINK:
    case FUSE_OPEN:
    case FUSE_OPENDIR:
    case FUSE_READ:
    case FUSE_WRITE:
    case FUSE_COPY_FILE_RANGE:
    case FUSE_SETXATTR:
    case FUSE_GETXATTR:
    case FUSE_LISTXATTR:
    case FUSE_REMOVEXATTR: return true;
    default: return false;
    }
}

// For these the kernel does not wait, and they are not begun again.
static bool is_only_noted(uint32_t what) {
    return what == FUSE_FORGET || what == FUSE_BATCH_FORGET || what == FUSE_RELEASE;
}

// What asks alone. All others are tried and done by what the tree tells, and by nothing that is remembered: so they
// make
// the same calls each time.
static bool only_asks(uint32_t what) {
    switch (what) {
    case FUSE_LOOKUP:
    case FUSE_GETATTR:
    case FUSE_READLINK:
    case FUSE_READ:
    case FUSE_OPENDIR:
    case FUSE_READDIR:
    case FUSE_READDIRPLUS:
    case FUSE_GETXATTR:
    case FUSE_LISTXATTR: return true;
    default: return false;
    }
}

static uint32_t kind_of(const char *bytes) { return ((const struct fuse_in_header *)bytes)->opcode; }

void replica_request(struct replica *replica, enum replay_mode mode, const char *bytes, size_t size,
                     const struct bytes *wanted, uint64_t at) {
    struct fuse_buf buffer = {.mem = (void *)(uintptr_t)bytes, .size = size};
    if (!only_asks(kind_of(bytes))) replica_forget(replica);
    replica_pass(replica, mode, wanted, at);
    replica->names_number = names_number(kind_of(bytes));
    fuse_session_process_buf(session, &buffer);
    replica_pass_ends(replica);
}

static void put_last(struct replica *replica, struct deferred_request *request) {
    if (replica->last) replica->last->next = request;
    else replica->first = request;
    replica->last = request;
}

static void answer_err(const struct deferred_request *request, int err) {
    const struct fuse_in_header *head = (const struct fuse_in_header *)request->bytes;
    struct fuse_out_header out = {.len = sizeof out, .error = -err, .unique = head->unique};
    if (write(fuse_session_fd(session), &out, sizeof out) < 0) return;
}

static void free_deferred(struct deferred_request *request) {
    bytes_free(&request->calls);
    mem_free(request->bytes);
    mem_free(request);
}

void replica_remove_first(struct replica *replica) {
    struct deferred_request *request = replica->first;
    replica->first = request->next;
    if (!replica->first) replica->last = NULL;
    free_deferred(request);
}

// It is tried already: what the kernel wrote is kept, with the calls of that.
static void defer(struct replica *replica, const struct fuse_buf *buffer, uint64_t at, uint64_t orphans) {
    struct deferred_request *request = mem_calloc(1, sizeof *request);
    char *bytes = request ? mem_alloc(buffer->size) : NULL;
    struct deferred_request spare = {.bytes = buffer->mem};
    if (!bytes || bytes_append(&request->calls, replica->calls.at, replica->calls.length)) {
        answer_err(&spare, ENOMEM);
        mem_free(bytes);
        mem_free(request);
        return;
    }
    memcpy(bytes, buffer->mem, buffer->size);
    request->bytes = bytes;
    request->size = buffer->size;
    request->until = replica_clock() + (uint64_t)SECONDS_TO_WAIT * NANOSECONDS;
    request->at = at;
    request->orphans = orphans;
    request->tried_at = replica->done;
    put_last(replica, request);
}

static void serve_one(struct replica *replica, const struct fuse_buf *buffer) {
    bool is_noted = is_only_noted(kind_of(buffer->mem));
    uint64_t at = clock_now_ns(), orphans = replica->mount->orphans;
    replica_request(replica, is_noted ? REPORTING : SPECULATING, buffer->mem, buffer->size, NULL, at);
    if (!is_noted && replica->is_over) defer(replica, buffer, at, orphans);
    replica_rollback(replica);
}

// ---- what waits for too long

// Whether all requests of what is under way were refused: it is given up then, though it may come.
static bool is_vain(const struct replica *replica) {
    size_t left = replica->proposal.is_under_way ? replica->proposal.requests : 0;
    bool is = left;
    for (const struct deferred_request *request = replica->first; left--; request = request->next)
        is &= request->is_refused;
    return is;
}

static void refuse_old(struct replica *replica) {
    uint64_t now = replica_clock();
    bool refuses_all = replica->err || replica->is_ending || catchup_has_failed(replica);
    for (struct deferred_request *request = replica->first; request; request = request->next) {
        bool is_late = now >= request->until || refuses_all;
        if (request->is_refused || !is_late) continue;
        answer_err(request, EIO);
        request->is_refused = true;
    }
    if (is_vain(replica)) replica_abandon_proposal(replica);
    while (!replica->proposal.is_under_way && replica->first && replica->first->is_refused)
        replica_remove_first(replica);
}

// ---- the loop

static bool one_has_come(struct replica *replica, int milliseconds) {
    struct pollfd comes[] = {{.fd = fuse_session_fd(session), .events = POLLIN},
                             {.fd = etcd_log_event(replica->log), .events = replica->err ? 0 : POLLIN}};
    return poll(comes, 2, milliseconds) > 0 && comes[0].revents;
}

static int serve_next(struct replica *replica, struct fuse_buf *buffer) {
    int got = fuse_session_receive_buf(session, buffer);
    if (got > 0) serve_one(replica, buffer);
    if (got > 0) requests_idle(replica->mount);
    return got;
}

// Telling the kernel may wait for a request: all are answered until that is done.
static void serve_rest(struct replica *replica, struct fuse_buf *buffer) {
    replica->is_ending = true;
    while (!inval_stop(replica)) {
        refuse_old(replica);
        if (one_has_come(replica, 1) && serve_next(replica, buffer) <= 0) usleep(1000);
    }
    refuse_old(replica);
}

// What a large removal gave back goes to the system once no request has come for some seconds.
static void trim_when_idle(uint64_t idle_since) {
    bool is_idle = replica_clock() - idle_since > (uint64_t)SECONDS_IDLE * NANOSECONDS;
    if (memlimit_has_freed() && is_idle) memlimit_trim();
}

static int serve_all(struct replica *replica, struct fuse_buf *buffer) {
    uint64_t idle_since = replica_clock();
    int got = -EINTR;
    while (!fuse_session_exited(session) && (got > 0 || got == -EINTR || got == -EAGAIN)) {
        bool has_come = one_has_come(replica, MILLISECONDS);
        if (has_come) got = serve_next(replica, buffer);
        if (has_come) idle_since = replica_clock();
        trim_when_idle(idle_since);
        replica_apply_log(replica);
        catchup_step(replica);
        refuse_old(replica);
        replica_propose(replica);
        checkpoint_step(replica);
    }
    fuse_session_reset(session);
    return got < 0 && got != -EINTR && got != -EAGAIN && got != -ECONNABORTED;
}

int replica_serve(struct fuse_session *used, struct mount *mount) {
    struct fuse_buf buffer = {0}; // its memory is libfuse's
    struct replica *replica = mount->replica;
    session = replica->session = used;
    if (inval_start(replica)) return 1;
    int status = serve_all(replica, &buffer);
    serve_rest(replica, &buffer);
    free(buffer.mem);
    return status || replica->err || replica->is_behind;
}

// ---- the end

// The kernel has forgotten all orphans of this mount.
static void note_orphans(struct replica *replica) {
    const struct backend *backend = &replica->mount->backend;
    struct bytes names = {NULL};
    replica_pass(replica, REPORTING, NULL, clock_now_ns());
    if (backend_readdir(backend, (struct path_ref){NULL, UNLINKED_PATH}, &names)) names.length = 0;
    for (size_t at = 0; at < names.length; at += strlen(names.at + at) + 1) {
        char path[LONGEST_PATH + 1];
        bool is_own = strtoull(names.at + at + 1, NULL, 10) >> NUMBERS_OF_A_MOUNT == replica->number;
        snprintf(path, sizeof path, UNLINKED_PATH "/%s", names.at + at + 1);
        if (is_own) backend->ops->change(backend->self, CALL_RMTREE, path, replica->at);
    }
    bytes_free(&names);
    replica_pass_ends(replica);
    replica_rollback(replica);
}

void replica_end(struct mount *mount) {
    struct replica *replica = mount->replica;
    struct pollfd comes = {.fd = etcd_log_event(replica->log), .events = POLLIN};
    uint64_t end = replica_clock() + (uint64_t)SECONDS_TO_END * NANOSECONDS;
    checkpoint_end(replica);
    while (replica->first) replica_remove_first(replica);
    if (replica->proposal.is_under_way) replica_abandon_proposal(replica);
    note_orphans(replica);
    do {
        replica_propose(replica);
        if (replica->proposal.is_under_way) poll(&comes, 1, MILLISECONDS);
        replica_apply_log(replica);
        if (replica->err || replica->is_behind) break;
    } while ((replica->proposal.is_under_way || replica->leftovers) && replica_clock() < end);
}
