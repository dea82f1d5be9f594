// Appends each call to the WAL before the inner backend does it; shared by a store and a replica.
//
// Invariant: a call that fails leaves no entry, so the entries are exactly the calls that were done, in order.
#include "wal_layer.h"
#include "wal_encode.h"

// A call that is under way.
struct layer_call {
    struct bytes *calls; // where its note goes
    size_t before;       // bytes of those before it
    int err;
};

static bool begin(struct wal_layer *layer, struct layer_call *call) {
    call->err = 0;
    call->calls = layer->begins(layer, &call->err);
    call->before = call->calls ? call->calls->length : 0;
    return call->calls;
}

static int noted(struct wal_layer *layer) { return layer->noted ? layer->noted(layer) : 0; }

static int end(struct wal_layer *layer, const struct layer_call *call) {
    if (call->err) call->calls->length = call->before;
    return layer->ends ? layer->ends(layer, call->err) : call->err;
}

int wal_layer_change(void *self, enum path_call what, const char *path, uint64_t at) {
    struct wal_layer *layer = self;
    struct layer_call call;
    if (!begin(layer, &call)) return 0;
    if (!call.err) call.err = wal_encode_change(call.calls, what, path, at);
    if (!call.err) call.err = noted(layer);
    if (!call.err) call.err = layer->inner.ops->change(layer->inner.self, what, path, at);
    return end(layer, &call);
}

int wal_layer_rename(void *self, const char *from, const char *to, uint64_t at) {
    struct wal_layer *layer = self;
    struct layer_call call;
    if (!begin(layer, &call)) return 0;
    if (!call.err) call.err = wal_encode_rename(call.calls, from, to, at);
    if (!call.err) call.err = noted(layer);
    if (!call.err) call.err = layer->inner.ops->rename(layer->inner.self, from, to, at);
    return end(layer, &call);
}

int wal_layer_truncate(void *self, const char *path, uint64_t length, uint64_t at) {
    struct wal_layer *layer = self;
    struct layer_call call;
    if (!begin(layer, &call)) return 0;
    if (!call.err) call.err = wal_encode_truncate(call.calls, path, length, at);
    if (!call.err) call.err = noted(layer);
    if (!call.err) call.err = layer->inner.ops->truncate(layer->inner.self, path, length, at);
    return end(layer, &call);
}

int wal_layer_write(void *self, const char *path, uint64_t offset, const char *bytes, size_t count, uint64_t at,
                    size_t *done) {
    struct wal_layer *layer = self;
    struct layer_call call;
    *done = 0;
    if (!begin(layer, &call)) return 0;
    if (!call.err) call.err = wal_encode_write(call.calls, path, offset, bytes, count, at);
    if (!call.err) call.err = noted(layer);
    if (!call.err) call.err = layer->inner.ops->write(layer->inner.self, path, offset, bytes, count, at, done);
    int err = end(layer, &call);
    if (err) *done = 0;
    return err;
}

int wal_layer_punch(void *self, const char *path, uint64_t offset, uint64_t count, uint64_t at) {
    struct wal_layer *layer = self;
    struct layer_call call;
    if (!begin(layer, &call)) return 0;
    if (!call.err) call.err = wal_encode_punch(call.calls, path, offset, count, at);
    if (!call.err) call.err = noted(layer);
    if (!call.err) call.err = layer->inner.ops->punch(layer->inner.self, path, offset, count, at);
    return end(layer, &call);
}

int wal_layer_copy_range(void *self, const struct copy_range *range, uint64_t at, uint64_t *copied) {
    struct wal_layer *layer = self;
    struct layer_call call;
    *copied = 0;
    if (!begin(layer, &call)) return 0;
    if (!call.err) call.err = wal_encode_copy_range(call.calls, range, at);
    if (!call.err) call.err = noted(layer);
    if (!call.err) call.err = layer->inner.ops->copy_range(layer->inner.self, range, at, copied);
    int err = end(layer, &call);
    if (err) *copied = 0;
    return err;
}

int wal_layer_apply_edits(void *self, const struct bytes *text, uint64_t *line) {
    struct wal_layer *layer = self;
    struct layer_call call;
    if (!begin(layer, &call)) return 0;
    if (!call.err) call.err = wal_encode_edits(call.calls, text);
    if (!call.err) call.err = noted(layer);
    if (!call.err) call.err = layer->inner.ops->apply_edits(layer->inner.self, text, line);
    return end(layer, &call);
}
