// The part of --send and --receive that runs in the mount ("Delta" in docs/FORMATS.md).
//
// Invariant: --receive is atomic. A delta is applied to a fork, with no lock, whose tree takes the place of the live one
// if no call changed that meanwhile. Where one did, all is done once more, and at last, or where memory was wanting, under
// the lock.
#include "delta_ioctl.h"
#include "branch.h"
#include "delta.h"
#include "entry_count.h"
#include "memlimit.h"
#include "private_dir.h"
#include "requests.h"
#include "snapshots.h"
#include "workers.h"
#include <assert.h>
#include <errno.h>
#include <string.h>

enum { TRIES = 3 }; // to apply a delta while requests go on

// ---- a difference is printed

static int begin_edits(const struct mount *mount, const char *from, const char *to, struct doorvervain_edits *out) {
    const struct doorvervain *tree = mount->backend.tree;
    return doorvervain_errno(doorvervain_edits_begin(out, tree, from, strlen(from), to, strlen(to)));
}

// To the live tree as a snapshot of it would be.
static int begin_edits_to_live(struct mount *mount, const char *from, struct doorvervain_edits *out) {
    int err = snapshot_take_hidden(mount, SNAPSHOT_DELTA);
    if (err) return err;
    err = begin_edits(mount, from, SNAPSHOT_DELTA, out);
    int other = mount->backend.ops->snapshot(mount->backend.self, DROP_SNAPSHOT, SNAPSHOT_DELTA);
    return err ? err : other;
}

int delta_begin(struct mount *mount, const struct send_request *wanted, struct doorvervain_edits *out) {
    bool has_ends = memchr(wanted->from, 0, sizeof wanted->from) && memchr(wanted->to, 0, sizeof wanted->to);
    assert(request_lock_is_held(mount));
    if (!mount->backend.tree) return EOPNOTSUPP;
    if (!has_ends || !wanted->from[0]) return EINVAL;
    if (!wanted->to[0]) return begin_edits_to_live(mount, wanted->from, out);
    return begin_edits(mount, wanted->from, wanted->to, out);
}

// ---- a difference is applied

// Applies it to a fork: no lock is needed. What no user reaches is left out before, as it is of trees that are sent, and
// behind it.
static int apply_to_branch(const struct mount *mount, const struct branch *branch, const struct bytes *text,
                           uint64_t *line) {
    struct mount beside = {.backend = branch->backend, .store = mount->store};
    int err = private_end(&beside);
    if (!err) err = delta_apply(&branch->backend, text, line);
    return err ? err : private_start(&beside);
}

// Files of several names that come have the numbers that they had elsewhere.
static void become_other(struct mount *mount, int err, struct bytes *stale) {
    if (!err && private_has_links(mount)) inodes_renumber(mount->root);
    if (!err) entry_count_set(mount, ENTRIES_UNKNOWN);
    snapshot_after_switch(mount, err, stale);
}

// The former tree is freed later, with no lock, but where memory is wanting for a fork of it.
static int adopt(struct mount *mount, struct branch *branch, struct doorvervain *former, struct bytes *stale) {
    worker_fork(mount, NULL, former);
    snapshot_before_switch(mount, stale);
    int err = branch_adopt(mount, branch);
    become_other(mount, err, stale);
    return err;
}

// The lock is held at its beginning and at its end alone.
static int apply_beside(struct request *request, const struct bytes *text, uint64_t *line, struct bytes *stale) {
    struct branch branch = {.calls = {NULL}};
    struct doorvervain former = {0};
    int err = requests_begin(request);
    if (!err) err = branch_begin(request->mount, &branch);
    err = requests_end(request, err);
    memlimit_begin(&request->budget);
    if (!err) err = apply_to_branch(request->mount, &branch, text, line);
    memlimit_suspend();
    int other = requests_begin(request);
    if (!err) err = other ? other : adopt(request->mount, &branch, &former, stale);
    err = requests_end(request, err);
    branch_end(&branch);
    doorvervain_close(&former);
    return err;
}

// Under the lock.
static int apply_once(struct mount *mount, const struct bytes *text, uint64_t *line) {
    struct branch branch;
    int err = branch_begin(mount, &branch);
    if (!err) err = apply_to_branch(mount, &branch, text, line);
    memlimit_suspend();
    if (!err) err = branch_adopt(mount, &branch);
    branch_end(&branch);
    return err;
}

// The lock is held all the while: nothing changes the tree, and steps of it may give memory back.
static int apply_alone(struct request *request, const struct bytes *text, uint64_t *line, struct bytes *stale) {
    struct mount *mount = request->mount;
    int err = requests_begin(request);
    if (err) return requests_end(request, err);
    snapshot_before_switch(mount, stale);
    do {
        memlimit_begin(&request->budget);
        err = apply_once(mount, text, line);
    } while (memlimit_retry(&request->budget, &mount->backend, &err));
    become_other(mount, err, stale);
    return requests_end(request, err);
}

static int apply(struct request *request, const struct bytes *text, uint64_t *line, struct bytes *stale) {
    int err = EAGAIN;
    for (unsigned tried = 0; err == EAGAIN && tried < TRIES; tried++) err = apply_beside(request, text, line, stale);
    return err == EAGAIN || err == ENOMEM ? apply_alone(request, text, line, stale) : err;
}

int delta_receive(struct request *request, const struct bytes *text, struct delta_answer *answer, struct bytes *stale) {
    *answer = (struct delta_answer){DELTA_IS_DONE, 0};
    if (!request->mount->backend.tree) return EOPNOTSUPP;
    int err = apply(request, text, &answer->line, stale);
    if (err == ENOENT) answer->outcome = DELTA_DOES_NOT_FIT;
    if (err == EINVAL) answer->outcome = answer->line ? DELTA_IS_NONE : DELTA_MAKES_NO_TREE;
    return answer->outcome ? 0 : err;
}
