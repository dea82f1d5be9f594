// The backend over the static library, in this process.
//
// Invariant: one call of a volume runs at a time (the request lock, or the one thread that has a fork), and a call that
// fails changes nothing. Steps of the tree that are owed for changes are counted here and done by `compact`.
#include "doorvervain.h"
#include "image.h"
#include "library.h"
#include "backend.h"
#include "memlimit.h"
#include "text.h"
#include <errno.h>
#include <fcntl.h>
#include <inttypes.h>
#include <stdio.h>
#include <stdlib.h>
#include <string.h>
#include <unistd.h>

// Each block of a write is one.
enum { BLOCK = 4096, CHANGES_BEFORE_STEPS = 16, MOST_OWED = 1 << 20, PIECE_OF_IMAGE = 1 << 16 };

struct library {
    struct doorvervain volume;
    unsigned steps;
    size_t changes;     // for which no steps are due yet
    unsigned owed;      // steps that are due
    bool has_backlog;   // a load or edits put changes into the root for which no steps are due
    uint64_t edits;     // how many calls changed the live tree
    uint64_t forked_at; // of a fork: the edits of the volume that it is one of
    // The tree of the snapshot that was looked into last; its name is empty where there is none.
    struct doorvervain_frozen tree;
    char snapshot[LONGEST_SNAPSHOT + 1];
};

// What a call's number says in <errno.h>. After some changes steps of the tree are due: a step that moves one change
// down takes about as long as one that moves many.
static int done_many(struct library *library, uint8_t number, size_t changes) {
    if (number) return doorvervain_errno(number);
    library->edits++;
    library->changes += changes;
    if (library->changes < CHANGES_BEFORE_STEPS) return 0;
    library->changes = 0;
    if (library->owed < MOST_OWED) library->owed += library->steps;
    return 0;
}

static int done(struct library *library, uint8_t number) { return done_many(library, number, 1); }

static int library_change(void *self, enum path_call what, const char *path, uint64_t at) {
    static uint8_t (*const calls[])(struct doorvervain *, const char *, size_t, uint64_t) = {
        [CALL_MKDIR] = doorvervain_mkdir, [CALL_CREATE] = doorvervain_create, [CALL_UNLINK] = doorvervain_unlink,
        [CALL_RMDIR] = doorvervain_rmdir, [CALL_RMTREE] = doorvervain_rmtree, [CALL_SET_MTIME] = doorvervain_set_mtime,
    };
    struct library *library = self;
    return done(library, calls[what](&library->volume, path, strlen(path), at));
}

static int library_rename(void *self, const char *from, const char *to, uint64_t at) {
    struct library *library = self;
    return done(library, doorvervain_rename(&library->volume, from, strlen(from), to, strlen(to), at));
}

static int library_truncate(void *self, const char *path, uint64_t length, uint64_t at) {
    struct library *library = self;
    return done(library, doorvervain_truncate(&library->volume, path, strlen(path), length, at));
}

static int library_write(void *self, const char *path, uint64_t offset, const char *bytes, size_t count, uint64_t at,
                         size_t *written) {
    struct library *library = self;
    uint8_t number = doorvervain_write(&library->volume, path, strlen(path), offset, bytes, count, at);
    int err = done_many(library, number, 1 + count / BLOCK);
    *written = err ? 0 : count;
    return err;
}

static void forget_tree(struct library *library) {
    if (library->snapshot[0]) doorvervain_frozen_close(&library->tree);
    library->snapshot[0] = 0;
}

// The tree of a snapshot, which is kept for the next look into it.
static int look_into(struct library *library, const char *snapshot) {
    if (!strcmp(library->snapshot, snapshot)) return 0;
    if (strlen(snapshot) > LONGEST_SNAPSHOT) return ENOENT;
    forget_tree(library);
    uint8_t number = doorvervain_open_snapshot(&library->volume, snapshot, strlen(snapshot), &library->tree);
    if (number) return doorvervain_errno(number);
    text_copy(library->snapshot, sizeof library->snapshot, snapshot);
    return 0;
}

static int library_read(void *self, struct path_ref ref, uint64_t offset, char *out, size_t capacity, size_t *got) {
    struct library *library = self;
    size_t length = strlen(ref.path);
    int err = ref.snapshot ? look_into(library, ref.snapshot) : 0;
    if (err) return err;
    if (ref.snapshot)
        return doorvervain_errno(
            doorvervain_frozen_read(&library->tree, ref.path, length, offset, (uint8_t *)out, capacity, got));
    return doorvervain_errno(
        doorvervain_read(&library->volume, ref.path, length, offset, (uint8_t *)out, capacity, got));
}

static int library_stat(void *self, struct path_ref ref, struct node_stat *out) {
    struct library *library = self;
    size_t length = strlen(ref.path);
    uint8_t kind = 0, number;
    int err = ref.snapshot ? look_into(library, ref.snapshot) : 0;
    if (err) return err;
    if (ref.snapshot)
        number = doorvervain_frozen_stat(&library->tree, ref.path, length, &kind, &out->length, &out->mtime_ns);
    else number = doorvervain_stat(&library->volume, ref.path, length, &kind, &out->length, &out->mtime_ns);
    out->is_directory = kind == 1;
    return doorvervain_errno(number);
}

// One listing into the room that is there; `size` is what it takes, also where the room is too small.
static uint8_t list_once(struct library *library, struct path_ref ref, struct bytes *out, size_t *size) {
    uint8_t *to = (uint8_t *)out->at + out->length;
    size_t length = strlen(ref.path), capacity = out->capacity - out->length;
    if (ref.snapshot) return doorvervain_frozen_readdir(&library->tree, ref.path, length, to, capacity, size);
    return doorvervain_readdir(&library->volume, ref.path, length, to, capacity, size);
}

static int library_readdir(void *self, struct path_ref ref, struct bytes *out) {
    struct library *library = self;
    size_t size = 4096;
    uint8_t number = DOORVERVAIN_ERANGE;
    int err = ref.snapshot ? look_into(library, ref.snapshot) : 0;
    while (!err && number == DOORVERVAIN_ERANGE) {
        err = bytes_reserve(out, size);
        if (!err) number = list_once(library, ref, out, &size);
    }
    if (!err) err = doorvervain_errno(number);
    if (!err) out->length += size;
    return err;
}

static int library_snapshot(void *self, enum snapshot_call what, const char *snapshot) {
    static uint8_t (*const calls[])(struct doorvervain *, const char *, size_t) = {
        [TAKE_SNAPSHOT] = doorvervain_snapshot,
        [DROP_SNAPSHOT] = doorvervain_drop_snapshot,
        [RESTORE_SNAPSHOT] = doorvervain_restore,
    };
    struct library *library = self;
    uint64_t before = library->edits;
    if (what == DROP_SNAPSHOT && !strcmp(library->snapshot, snapshot)) forget_tree(library);
    int err = done(library, calls[what](&library->volume, snapshot, strlen(snapshot)));
    if (what != RESTORE_SNAPSHOT) library->edits = before;
    return err;
}

static int library_punch(void *self, const char *path, uint64_t offset, uint64_t count, uint64_t at) {
    struct library *library = self;
    return done(library, doorvervain_punch(&library->volume, path, strlen(path), offset, count, at));
}

static int library_copy_range(void *self, const struct copy_range *range, uint64_t at, uint64_t *copied) {
    struct library *library = self;
    *copied = 0;
    uint8_t number =
        doorvervain_copy_range(&library->volume, range->from, strlen(range->from), range->offset, range->to,
                               strlen(range->to), range->target, range->count, at, copied);
    return done_many(library, number, 1 + *copied / BLOCK);
}

static int library_next_extent(void *self, struct path_ref ref, uint64_t offset, struct extent *out) {
    struct library *library = self;
    size_t length = strlen(ref.path);
    int err = ref.snapshot ? look_into(library, ref.snapshot) : 0;
    if (err) return err;
    if (ref.snapshot)
        return doorvervain_errno(
            doorvervain_frozen_next_extent(&library->tree, ref.path, length, offset, &out->from, &out->to));
    return doorvervain_errno(doorvervain_next_extent(&library->volume, ref.path, length, offset, &out->from, &out->to));
}

static int put(void *image, const uint8_t *bytes, size_t count) { return image_put(image, (const char *)bytes, count); }

// The image goes out piece by piece: no memory is taken for all of its text.
static int save(struct library *library, struct image *image) {
    uint8_t piece[PIECE_OF_IMAGE];
    struct doorvervain_frozen live;
    int failed = 0;
    uint8_t number = doorvervain_freeze(&library->volume, &live);
    if (!number) number = doorvervain_image_write(&live, piece, sizeof piece, put, image, &failed);
    return failed ? failed : doorvervain_errno(number);
}

// As behind a load all changes are in the root.
static int library_apply_edits(void *self, const struct bytes *text, uint64_t *line) {
    struct library *library = self;
    int err = done(library, doorvervain_apply_edits(&library->volume, text->at, text->length, line));
    if (!err) library->has_backlog = library->steps;
    return err;
}

static unsigned library_compact(void *self, unsigned steps) {
    struct library *library = self;
    unsigned done = doorvervain_compact(&library->volume, steps);
    library->owed = done < steps || library->owed < steps ? 0 : library->owed - steps;
    if (done < steps) library->has_backlog = false;
    return done;
}

// Of a backlog one step is due at a time: no request waits for it.
static unsigned library_compaction_debt(void *self) {
    const struct library *library = self;
    return library->owed ? library->owed : library->has_backlog;
}

static int library_close(void *self, struct image *image) {
    struct library *library = self;
    int err = image ? save(library, image) : 0;
    forget_tree(library);
    doorvervain_close(&library->volume);
    mem_free(library);
    return err;
}

static int library_fork(void *self, struct backend *out);

// The fork's tree has its steps still to do.
static int library_adopt(void *self, void *fork, struct bytes *calls) {
    struct library *library = self, *from = fork;
    struct doorvervain_frozen tree;
    (void)calls;
    if (library->edits != from->forked_at) return EAGAIN;
    uint8_t number = doorvervain_freeze(&from->volume, &tree);
    if (!number) number = doorvervain_restore_frozen(&library->volume, &tree);
    doorvervain_frozen_close(&tree);
    if (!number) library->owed = from->owed;
    if (!number) library->has_backlog = from->has_backlog;
    return done(library, number);
}

static const struct backend_ops library_ops = {
    .change = library_change,
    .rename = library_rename,
    .truncate = library_truncate,
    .write = library_write,
    .read = library_read,
    .stat = library_stat,
    .readdir = library_readdir,
    .snapshot = library_snapshot,
    .punch = library_punch,
    .copy_range = library_copy_range,
    .next_extent = library_next_extent,
    .compact = library_compact,
    .compaction_debt = library_compaction_debt,
    .fork = library_fork,
    .apply_edits = library_apply_edits,
    .adopt = library_adopt,
    .close = library_close,
};

static int library_fork(void *self, struct backend *out) {
    const struct library *library = self;
    struct library *fork = mem_calloc(1, sizeof *fork);
    *out = (struct backend){NULL};
    if (!fork) return ENOMEM;
    *fork = (struct library){.steps = library->steps, .owed = library->owed, .has_backlog = library->has_backlog};
    fork->forked_at = library->edits;
    int err = doorvervain_errno(doorvervain_fork(&library->volume, &fork->volume));
    if (err) mem_free(fork);
    else *out = (struct backend){&library_ops, fork, &fork->volume};
    return err;
}

struct doorvervain *library_volume(void *self) {
    struct library *library = self;
    return &library->volume;
}

static int open_empty(struct library *library) {
    int err = doorvervain_errno(
        doorvervain_open(&library->volume, DOORVERVAIN_FANOUT, DOORVERVAIN_PENDING, DOORVERVAIN_LEAF));
    if (err) fprintf(stderr, "doorvervain-mount: no volume: %s\n", strerror(err));
    return err;
}

// Where an image is read from.
struct source {
    int file;
    const _Atomic bool *stops;
};

static int get(void *from, uint8_t *out, size_t capacity, size_t *got) {
    const struct source *source = from;
    ssize_t count;
    *got = 0;
    if (source->stops && *source->stops) return ECANCELED;
    do count = read(source->file, out, capacity);
    while (count < 0 && errno == EINTR);
    *got = count < 0 ? 0 : (size_t)count;
    return count < 0 ? errno : 0;
}

// The image comes in piece by piece, as it goes out.
static int load(struct library *library, const struct open_options *options) {
    uint8_t piece[PIECE_OF_IMAGE];
    const char *name = options->image;
    uint64_t line = 0;
    struct source source = {open(name, O_RDONLY | O_CLOEXEC), options->stops};
    int failed = source.file < 0 ? errno : 0;
    uint8_t number = 0;
    if (!failed)
        number = doorvervain_load_read(&library->volume, DOORVERVAIN_FANOUT, DOORVERVAIN_PENDING, DOORVERVAIN_LEAF,
                                       piece, sizeof piece, get, &source, &failed, &line);
    int err = failed ? failed : doorvervain_errno(number);
    if (line) fprintf(stderr, "doorvervain-mount: %s: bad image at line %" PRIu64 "\n", name, line);
    else if (err) fprintf(stderr, "doorvervain-mount: %s: %s\n", name, strerror(err));
    if (source.file >= 0) close(source.file);
    return err;
}

int open_library(const struct open_options *options, struct backend *out) {
    struct library *library = mem_calloc(1, sizeof *library);
    if (!library) return ENOMEM;
    library->steps = options->steps;
    library->has_backlog = options->steps;
    *out = (struct backend){.ops = &library_ops, .self = library, .tree = &library->volume};
    int err = options->image ? load(library, options) : open_empty(library);
    if (err) mem_free(library);
    return err;
}
