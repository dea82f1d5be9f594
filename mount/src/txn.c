// The calls of one request as a transaction, with what undoes each of them.
//
// Invariant: after `txn_end` with an error the tree is as it was before `txn_begin`, mtimes included: undo entries are
// applied in reverse, without the memory limit. No other request runs in between, since the request lock is held.
#include "txn.h"
#include "prune.h"
#include "replica.h"
#include "memlimit.h"
#include "request.h"
#include "text.h"
#include <assert.h>
#include <errno.h>
#include <string.h>

void txn_begin(struct txn *txn, struct mount *mount, uint64_t at) {
    assert(request_lock_is_held(mount));
    txn->mount = mount;
    txn->at = at;
    txn->count = 0;
    txn->read = (struct bytes){NULL};
    txn->read_path[0] = 0;
    replica_change_begins(mount);
}

static struct undo_entry *note(struct txn *txn, enum undo_kind how, const char *path, uint64_t at) {
    struct undo_entry *undo = &txn->undone[txn->count];
    if (txn->count == MAX_UNDO || strlen(path) > LONGEST_PATH) return NULL;
    undo->how = how;
    undo->is_removal = false;
    undo->at = at;
    undo->text = (struct bytes){NULL};
    text_copy(undo->path, sizeof undo->path, path);
    undo->back[0] = 0;
    return undo;
}

// What lies below a directory that is undone as a whole goes with it.
static bool is_below_last(const struct txn *txn, const char *path) {
    if (!txn->count) return false;
    const struct undo_entry *last = &txn->undone[txn->count - 1];
    size_t length = strlen(last->path);
    return last->how == BY_REMOVAL && !strncmp(last->path, path, length) && path[length] == '/';
}

int txn_create(struct txn *txn, enum path_call what, const char *path, uint64_t at, uint64_t back_at) {
    const struct backend *backend = &txn->mount->backend;
    bool is_noted = is_below_last(txn, path);
    if (!is_noted && !note(txn, BY_REMOVAL, path, back_at)) return ENOMEM;
    int err = backend->ops->change(backend->self, what, path, at);
    if (!err && !is_noted) txn->count++;
    return err;
}

int txn_rename(struct txn *txn, const char *from, const char *to, uint64_t at, uint64_t back_at) {
    const struct backend *backend = &txn->mount->backend;
    struct undo_entry *undo = note(txn, BY_RENAME, to, back_at);
    if (!undo || strlen(from) > LONGEST_PATH) return ENAMETOOLONG;
    text_copy(undo->back, sizeof undo->back, from);
    int err = backend->ops->rename(backend->self, from, to, at);
    if (!err) txn->count++;
    return err;
}

static int read_whole(const struct backend *backend, const char *path, struct bytes *out) {
    struct node_stat node_stat;
    struct path_ref ref = {NULL, path};
    int err = backend_stat(backend, ref, &node_stat);
    if (!err && node_stat.length > LARGEST_READ) err = EFBIG;
    if (!err) err = bytes_reserve(out, node_stat.length + 1);
    return err ? err : backend_read(backend, ref, 0, out->at, node_stat.length, &out->length);
}

int txn_read(struct txn *txn, const char *path, const struct bytes **out) {
    int err = read_whole(&txn->mount->backend, path, &txn->read);
    *out = &txn->read;
    text_copy(txn->read_path, sizeof txn->read_path, err ? "" : path);
    return err;
}

// What a file has, where it was read before by that.
static int take_text(struct txn *txn, const char *path, struct bytes *out) {
    if (strcmp(path, txn->read_path)) return read_whole(&txn->mount->backend, path, out);
    *out = txn->read;
    txn->read = (struct bytes){NULL};
    txn->read_path[0] = 0;
    return 0;
}

// Writes over what is there, and cuts what is longer.
static int replace(const struct backend *backend, const char *path, const char *text, size_t length, size_t before,
                   uint64_t at) {
    size_t done = 0;
    int err = backend->ops->write(backend->self, path, 0, text, length, at, &done);
    return err || before <= length ? err : backend->ops->truncate(backend->self, path, length, at);
}

int txn_write(struct txn *txn, const char *path, const char *text, size_t length) {
    const struct backend *backend = &txn->mount->backend;
    struct undo_entry *undo = note(txn, BY_TEXT, path, txn->at);
    int err = undo ? take_text(txn, path, &undo->text) : ENOMEM;
    if (err) {
        if (undo) bytes_free(&undo->text);
        return err;
    }
    txn->count++;
    return replace(backend, path, text, length, undo->text.length, txn->at);
}

int txn_remove(struct txn *txn, const char *path) {
    struct private_path parked;
    int err = private_orphan_path(txn->mount, &parked);
    if (!err) err = txn_rename(txn, path, parked.text, txn->at, txn->at);
    if (!err) txn->undone[txn->count - 1].is_removal = true;
    return err == ENOENT || err == ENOTDIR ? 0 : err;
}

// Notes that a file is removed, with its text.
static int note_text(struct txn *txn, enum undo_kind how, const char *file, struct bytes *text) {
    struct undo_entry *undo = note(txn, how, file, txn->at);
    if (!undo) return ENOMEM;
    if (!text) return read_whole(&txn->mount->backend, file, &undo->text);
    undo->text = *text;
    *text = (struct bytes){NULL};
    return 0;
}

// Counts a removal in that was done; where it was not, its text goes.
static int end_removal(struct txn *txn, int err) {
    if (!err) txn->count++;
    else if (txn->count < MAX_UNDO) bytes_free(&txn->undone[txn->count].text);
    return err;
}

int txn_unlink(struct txn *txn, const char *path, struct bytes *text) {
    const struct backend *backend = &txn->mount->backend;
    int err = note_text(txn, BY_CREATION, path, text);
    if (!err) err = backend->ops->change(backend->self, CALL_UNLINK, path, txn->at);
    err = end_removal(txn, err);
    if (err == EISDIR || err == EFBIG) return txn_remove(txn, path);
    return err == ENOENT || err == ENOTDIR ? 0 : err;
}

int txn_remove_record(struct txn *txn, const char *folder, const char *file, struct bytes *text) {
    const struct backend *backend = &txn->mount->backend;
    int err = note_text(txn, BY_REMAKING, file, text);
    if (!err) err = backend->ops->change(backend->self, CALL_RMTREE, folder, txn->at);
    if (!err) text_copy(txn->undone[txn->count].back, sizeof txn->undone[0].back, folder);
    return end_removal(txn, err);
}

static void create_again(const struct backend *backend, const struct undo_entry *undo) {
    backend->ops->change(backend->self, CALL_CREATE, undo->path, undo->at);
    replace(backend, undo->path, undo->text.at, undo->text.length, 0, undo->at);
}

static void remake(const struct backend *backend, const struct undo_entry *undo) {
    backend->ops->change(backend->self, CALL_MKDIR, undo->back, undo->at);
    create_again(backend, undo);
}

static void undo_one(const struct backend *backend, const struct undo_entry *undo) {
    switch (undo->how) {
    case BY_RENAME: backend->ops->rename(backend->self, undo->path, undo->back, undo->at); break;
    case BY_REMOVAL: backend->ops->change(backend->self, CALL_RMTREE, undo->path, undo->at); break;
    case BY_TEXT: replace(backend, undo->path, undo->text.at, undo->text.length, SIZE_MAX, undo->at); break;
    case BY_CREATION: create_again(backend, undo); break;
    case BY_REMAKING: remake(backend, undo); break;
    }
}

// What is parked is removed, and so are the folders for records that are empty now. What moved is where it moved to.
static void finish_one(const struct txn *txn, struct undo_entry *undo) {
    const struct backend *backend = &txn->mount->backend;
    if (undo->is_removal) backend->ops->change(backend->self, CALL_RMTREE, undo->path, txn->at);
    switch (undo->how) {
    case BY_RENAME: prune_folders(txn->mount, undo->back, undo->is_removal ? "" : undo->path, txn->at); break;
    case BY_REMAKING: prune_folders(txn->mount, undo->back, "", txn->at); break;
    case BY_CREATION: prune_folders(txn->mount, undo->path, "", txn->at); break;
    case BY_REMOVAL:
    case BY_TEXT: break;
    }
}

int txn_end(struct txn *txn, int err) {
    const struct backend *backend = &txn->mount->backend;
    memlimit_suspend();
    for (size_t i = txn->count; i-- > 0;) {
        if (err) undo_one(backend, &txn->undone[i]);
        else finish_one(txn, &txn->undone[i]);
        bytes_free(&txn->undone[i].text);
    }
    bytes_free(&txn->read);
    return replica_change_ends(txn->mount, err);
}
