// A tree beside the live one, to which calls are done and noted, and which then takes its place.
//
// Invariant: `calls` are exactly those that were done to the fork since it began, in order. So they make its tree of any
// tree that is as the live one was then.
#include "branch.h"
#include "request.h"
#include <assert.h>

static struct bytes *note_call(void *self, int *err) {
    struct branch *branch = self;
    (void)err;
    return &branch->calls;
}

// No snapshot is taken, dropped or restored.
static const struct backend_ops noting_ops = {
    .change = wal_layer_change,
    .rename = wal_layer_rename,
    .truncate = wal_layer_truncate,
    .write = wal_layer_write,
    .punch = wal_layer_punch,
    .copy_range = wal_layer_copy_range,
    .apply_edits = wal_layer_apply_edits,
};

// Without a log nothing is noted.
int branch_begin(const struct mount *mount, struct branch *out) {
    assert(request_lock_is_held(mount));
    *out = (struct branch){.layer.begins = note_call};
    int err = backend_fork(&mount->backend, &out->layer.inner);
    out->backend = out->layer.inner;
    if (!err && mount->store) out->backend = (struct backend){&noting_ops, out, out->layer.inner.tree};
    return err;
}

int branch_adopt(const struct mount *mount, struct branch *branch) {
    assert(request_lock_is_held(mount));
    return backend_adopt(&mount->backend, branch->layer.inner.self, &branch->calls);
}

void branch_end(struct branch *branch) {
    struct backend *fork = &branch->layer.inner;
    if (fork->ops) fork->ops->close(fork->self, NULL);
    fork->ops = NULL;
    bytes_free(&branch->calls);
}
