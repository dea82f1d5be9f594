// Replies to the kernel that may have to wait for the store's disk.
//
// Invariant: each request gets exactly one reply. It is sent at once, or by the store's thread when what it waits for
// has come; then `waiting` counts it until it is sent. A failed sync is reported once to each open file
// (`errseq_seen`), as Linux does.
#include "answers.h"
#include "replica.h"
#include "memlimit.h"
#include <errno.h>
#include <stdatomic.h>
#include <stdlib.h>

static _Atomic unsigned waiting;

bool answer_failed(const struct request *request, int err) {
    if (!replica_may_answer(request->mount, &err)) {
        fuse_reply_none(request->req);
        return true;
    }
    if (err) fuse_reply_err(request->req, err);
    return err;
}

void answer_done(const struct request *request, int err) {
    if (!answer_failed(request, err)) fuse_reply_err(request->req, 0);
}

// A failure that the open file was not told is told once. It may be one of the timer's.
static int err_of_sync(const struct answer *answer) {
    uint64_t errseq = store_sync_errseq(answer->request.mount->store);
    if (answer->errseq_seen && atomic_exchange(answer->errseq_seen, errseq) != errseq) return EIO;
    return answer->err;
}

static void send(const struct answer *answer) {
    fuse_req_t req = answer->request.req;
    if (answer_failed(&answer->request, answer->kind == ANSWER_SYNCED ? err_of_sync(answer) : answer->err)) return;
    switch (answer->kind) {
    case ANSWER_DONE:
    case ANSWER_SYNCED: fuse_reply_err(req, 0); break;
    case ANSWER_ENTRY: fuse_reply_entry(req, &answer->entry); break;
    case ANSWER_CREATED: fuse_reply_create(req, &answer->entry, &answer->info); break;
    case ANSWER_OPENED: fuse_reply_open(req, &answer->info); break;
    case ANSWER_ATTRIBUTES: fuse_reply_attr(req, &answer->stat, answer->seconds); break;
    case ANSWER_WRITTEN: fuse_reply_write(req, answer->written); break;
    }
}

static void note_err(struct answer *answer, int err) {
    if (!answer->err) answer->err = err;
}

static void free_copy(struct answer *copy) {
    mem_free(copy);
    waiting--;
}

static void send_late(struct waiter *waiter, int err) {
    struct answer *answer = (struct answer *)waiter;
    note_err(answer, err);
    send(answer);
    free_copy(answer);
}

// The same answer, for another thread; null where memory is wanting.
static struct answer *copy_answer(const struct answer *answer) {
    struct answer *copy = mem_alloc(sizeof *copy);
    if (!copy) return NULL;
    *copy = *answer;
    copy->waiter = (struct waiter){.answer = send_late};
    waiting++;
    return copy;
}

// Whether another thread answers. Without memory for that this one waits for the disk.
static bool waits_for_sync(struct answer *answer) {
    struct store *store = answer->request.mount->store;
    int err = 0;
    bool is_synced = store_try_sync(store, &err);
    struct answer *copy = is_synced ? NULL : copy_answer(answer);
    if (copy) store_wait_for_sync(store, &copy->waiter);
    else note_err(answer, is_synced ? err : store_sync(store));
    return copy;
}

static bool waits_for_space(struct store *store, const struct answer *answer) {
    struct answer *copy = store_is_full(store) ? copy_answer(answer) : NULL;
    if (!copy) return false;
    if (store_wait_for_space(store, &copy->waiter)) return true;
    free_copy(copy);
    return false;
}

void answer_change(struct answer *answer, bool has_changed) {
    struct store *store = answer->request.mount->store;
    bool waits = false;
    if (store && has_changed && store_syncs_each(store)) waits = waits_for_sync(answer);
    else if (store && has_changed) waits = waits_for_space(store, answer);
    if (!waits) send(answer);
}

void answer_sync(struct answer *answer) {
    if (!waits_for_sync(answer)) send(answer);
}

bool answers_wait(void) { return waiting > 0; }
