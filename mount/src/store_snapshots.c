// The snapshots of a store: which exist, how they are written beside a checkpoint, and how they are restored ("Deltas in
// files" in docs/FORMATS.md).
//
// Validity: `snapshots.N` counts if its SHA-256 digest is that in `tree.N.sum`, and each delta fits the tree before it.
// Invariant: it is on the disk before `tree.N` gets its name, and both trees of a text are taken before it is printed.
#define _GNU_SOURCE
#include "delta.h"
#include "snapshots.h"
#include "store_inside.h"
#include "text.h"
#include <errno.h>
#include <fcntl.h>
#include <pthread.h>
#include <stdio.h>
#include <string.h>
#include <sys/mman.h>
#include <sys/stat.h>
#include <unistd.h>

enum { PIECE = 1 << 18, NANOSECONDS = 1000000000, NANOSECONDS_BETWEEN_TICKS = 5000000 };

static const char kind[] = "snapshots";

// ---- which of them stand

// Where a name stands; after the last where it does not.
static unsigned find(const struct snapshots *all, const char *name) {
    unsigned index = 0;
    while (index < all->count && strcmp(all->at[index].name, name)) index++;
    return index;
}

static void add(struct store *store, struct snapshots *to, const char *name) {
    if (to->count == MAX_SNAPSHOTS) return;
    struct snapshot *last = &to->at[to->count++];
    snprintf(last->name, sizeof last->name, "%s", name);
    last->number = ++store->last_snapshot;
}

static void take_out(struct snapshots *from, unsigned index) {
    from->count--;
    memmove(&from->at[index], &from->at[index + 1], (from->count - index) * sizeof *from->at);
}

void store_note_snapshot(struct store *store, enum snapshot_call what, const char *name) {
    unsigned index = find(&store->snapshots, name);
    if (what == TAKE_SNAPSHOT) add(store, &store->snapshots, name);
    if (what == DROP_SNAPSHOT && index < store->snapshots.count) take_out(&store->snapshots, index);
}

bool store_has_too_many(const struct store *store) { return store->snapshots.count > MAX_STORED_SNAPSHOTS; }

int store_snapshots(struct store *store, struct bytes *out) {
    int err = 0;
    for (unsigned i = 0; !err && i < store->snapshots.count; i++) {
        const char *name = store->snapshots.at[i].name;
        err = bytes_append(out, name, strlen(name) + 1);
    }
    return err;
}

// Those that the volume has, in the order of their names.
static int list(struct store *store, struct snapshots *out) {
    char name[LONGEST_SNAPSHOT + 1];
    uint8_t number = DOORVERVAIN_DONE;
    for (size_t index = 0; !number; index++) {
        size_t size = 0;
        number = doorvervain_snapshot_name(store->volume, index, (uint8_t *)name, LONGEST_SNAPSHOT, &size);
        name[number ? 0 : size] = 0;
        if (!number) add(store, out, name);
    }
    return number == DOORVERVAIN_ENOENT ? 0 : doorvervain_errno(number);
}

// Puts those of some that are among others, or are not.
static void sift(struct store *store, const struct snapshots *some, const struct snapshots *others, bool are) {
    for (unsigned i = 0; i < some->count; i++)
        if ((find(others, some->at[i].name) < others->count) == are) add(store, &store->snapshots, some->at[i].name);
}

int store_find_snapshots(struct store *store) {
    struct snapshots made = store->snapshots, stand = {0};
    int err = list(store, &stand);
    store->snapshots.count = 0;
    sift(store, &made, &stand, true);
    sift(store, &stand, &made, false);
    if (err) store_report(store, "%s", strerror(err));
    return err;
}

// ---- their trees at one moment

// Snapshots do not change: so the text of one is in the last file, where it was told of the same one there.
static const struct snapshot_entry *find_entry(const struct store *store, uint64_t number, uint64_t over) {
    const struct snapshot_index *all = &store->snapshot_index;
    for (unsigned i = 0; over && i < all->count; i++)
        if (all->at[i].number == number && all->at[i].over == over) return &all->at[i];
    return NULL;
}

static uint64_t over(const struct snapshot_edits *snapshots, unsigned index) {
    return index ? snapshots->at[index - 1].number : 0;
}

static int begin_edits(const struct store *store, struct snapshot_edits *snapshots, unsigned index) {
    const char *from = index ? snapshots->at[index - 1].name : "", *to = snapshots->at[index].name;
    if (find_entry(store, snapshots->at[index].number, over(snapshots, index))) return 0;
    return doorvervain_errno(
        doorvervain_edits_begin(&snapshots->edits[index], store->volume, from, strlen(from), to, strlen(to)));
}

int store_begin_snapshots(struct store *store, struct snapshot_edits *out) {
    unsigned count = store->snapshots.count;
    int err = 0;
    for (unsigned i = 0; !err && i < count; i++) {
        out->at[i] = store->snapshots.at[count - 1 - i];
        out->count = i + 1;
        err = begin_edits(store, out, i);
    }
    return err;
}

void store_end_snapshots(struct snapshot_edits *snapshots) {
    for (unsigned i = 0; i < snapshots->count; i++) doorvervain_edits_end(&snapshots->edits[i]);
}

// ---- they are written

// The file that is written.
struct snapshot_writer {
    struct checkpoint_file file;
    struct snapshot_index *index;
    struct sha256 sum; // of the text that is written
};

static int put_text(struct snapshot_writer *writer, const char *bytes, size_t count) {
    int err = sha256_add(&writer->sum, bytes, count);
    if (!err) err = store_put_bytes(&writer->file, bytes, count);
    return err ? err : writeback_tick(&writer->file);
}

// A text that is printed before the first of its bytes is wanted.
struct printing {
    struct doorvervain_edits *edits;
    uint8_t number; // what the call returned
};

static void *print_text(void *self) {
    struct printing *printing = self;
    size_t size;
    printing->number = doorvervain_edits_next(printing->edits, NULL, 0, &size);
    return NULL;
}

// Where there is no thread, nothing is done meanwhile.
static int print_beside(struct snapshot_writer *writer, struct doorvervain_edits *edits) {
    struct printing printing = {edits, DOORVERVAIN_DONE};
    pthread_t thread;
    int err = 0;
    if (!writer->file.meanwhile || pthread_create(&thread, NULL, print_text, &printing)) return 0;
    for (bool ends = false; !ends;) {
        struct timespec until;
        if (!err) err = writeback_tick(&writer->file);
        clock_gettime(CLOCK_REALTIME, &until);
        until.tv_nsec += NANOSECONDS_BETWEEN_TICKS;
        until.tv_sec += until.tv_nsec / NANOSECONDS;
        until.tv_nsec %= NANOSECONDS;
        ends = !pthread_timedjoin_np(thread, NULL, &until);
    }
    return err ? err : doorvervain_errno(printing.number);
}

// The text is in memory until it is written.
static int put_edits(struct snapshot_writer *writer, struct doorvervain_edits *edits) {
    char piece[PIECE];
    size_t size = 1;
    int err = print_beside(writer, edits);
    while (!err && size) {
        err = doorvervain_errno(doorvervain_edits_next(edits, piece, PIECE, &size));
        if (!err && size) err = put_text(writer, piece, size);
    }
    doorvervain_edits_end(edits);
    return err;
}

// The next bytes of the last file: 0, or why there are none.
static int copy_piece(struct snapshot_writer *writer, int file, uint64_t from, uint64_t left, size_t *size) {
    char piece[PIECE];
    ssize_t got;
    do got = pread(file, piece, left < PIECE ? (size_t)left : PIECE, (off_t)from);
    while (got < 0 && errno == EINTR);
    if (got <= 0) return got ? errno : EIO;
    *size = (size_t)got;
    return put_text(writer, piece, *size);
}

static int copy_text(struct snapshot_writer *writer, const struct snapshot_entry *entry) {
    const struct store *store = writer->file.store;
    char name[STORE_NAME];
    uint64_t done = 0;
    store_name(name, kind, store->snapshot_index.file);
    int file = openat(store->directory, name, O_RDONLY | O_CLOEXEC | O_NOFOLLOW), err = file < 0 ? errno : 0;
    while (!err && done < entry->length) {
        size_t size = 0;
        err = copy_piece(writer, file, entry->from + done, entry->length - done, &size);
        done += size;
    }
    if (file >= 0) close(file);
    return err;
}

static int put_body(struct snapshot_writer *writer, struct doorvervain_edits *edits, struct snapshot_entry *entry) {
    struct store *store = writer->file.store;
    const struct snapshot_entry *before = find_entry(store, entry->number, entry->over);
    int err = sha256_begin(&writer->sum);
    if (!err) err = before ? copy_text(writer, before) : put_edits(writer, edits);
    int other = sha256_end(&writer->sum, entry->sum);
    if (!err) err = other;
    if (!err && before && strcmp(before->sum, entry->sum)) err = EIO;
    if (err && before) store->snapshot_index.count = 0; // What could not be copied is printed then.
    return err;
}

static int put_one(struct snapshot_writer *writer, struct snapshot_edits *snapshots, unsigned index) {
    struct snapshot_entry *entry = &writer->index->at[index];
    struct bytes heading = {NULL};
    int err = bytes_print(&heading, "snapshot %s\n", snapshots->at[index].name);
    if (!err) err = store_put_bytes(&writer->file, heading.at, heading.length);
    bytes_free(&heading);
    if (err) return err;
    entry->number = snapshots->at[index].number;
    entry->over = over(snapshots, index);
    entry->from = writer->file.size;
    err = put_body(writer, &snapshots->edits[index], entry);
    entry->length = writer->file.size - entry->from;
    writer->index->count = index + 1;
    return err;
}

static int put_all(struct snapshot_writer *writer, struct snapshot_edits *snapshots) {
    int err = 0;
    for (unsigned i = 0; !err && i < snapshots->count; i++) err = put_one(writer, snapshots, i);
    return err;
}

// What an image of the number left that did not get its name. A checksum without its file would be damage.
static void clear(const struct store *store, uint64_t number) {
    char name[STORE_NAME], sum[STORE_NAME + 8];
    store_name(name, kind, number);
    snprintf(sum, sizeof sum, "%s.sum", name);
    unlinkat(store->directory, sum, 0);
    unlinkat(store->directory, name, 0);
}

int store_put_snapshots(const struct checkpoint_file *tree, uint64_t number, struct snapshot_edits *snapshots,
                        struct snapshot_index *out, char sum[SHA256_DIGITS + 1], uint64_t *size) {
    struct snapshot_writer writer = {.file = {.store = tree->store, .meanwhile = tree->meanwhile}, .index = out};
    clear(tree->store, number);
    *sum = 0;
    if (!snapshots->count) return 0;
    out->file = number;
    int err = store_open_checkpoint_file(&writer.file, kind, number);
    if (err) return err;
    err = put_all(&writer, snapshots);
    *size = writer.file.size;
    if (!err) err = image_sum(&writer.file.image, sum);
    return store_end_checkpoint_file(&writer.file, NULL, err);
}

// ---- they are made again

// What is left of the file, and the snapshot whose text was read from it last.
struct snapshot_reader {
    struct store *store;
    const struct backend *backend;
    const char *at, *end;
    char name[LONGEST_SNAPSHOT + 1];
    struct bytes text; // in the file
    const char *why;   // it was refused; null: the fault tells
};

// Cuts the next line off, with its end: its length, 0 where there is none.
static size_t next_line(struct snapshot_reader *reader) {
    const char *end = memchr(reader->at, '\n', (size_t)(reader->end - reader->at));
    size_t length = end ? (size_t)(end + 1 - reader->at) : 0;
    reader->at += length;
    return length;
}

static bool read_heading(struct snapshot_reader *reader) {
    static const char word[] = "snapshot ";
    const char *line = reader->at;
    size_t length = next_line(reader), front = sizeof word - 1;
    if (length < front + 2 || length > front + LONGEST_SNAPSHOT + 1 || memcmp(line, word, front)) return false;
    memcpy(reader->name, line + front, length - front - 1);
    reader->name[length - front - 1] = 0;
    return true;
}

// Up to the line `end`.
static bool read_text(struct snapshot_reader *reader) {
    const char *from = reader->at, *line;
    size_t length;
    do {
        line = reader->at;
        length = next_line(reader);
    } while (length && (length != 4 || memcmp(line, "end\n", 4)));
    reader->text = (struct bytes){(char *)(uintptr_t)from, (size_t)(reader->at - from), 0};
    return length;
}

static int refuse(struct snapshot_reader *reader, const char *why) {
    reader->why = why;
    return EINVAL;
}

static int call_snapshot(struct snapshot_reader *reader, enum snapshot_call what, const char *name) {
    return reader->backend->ops->snapshot(reader->backend->self, what, name);
}

static int apply(struct snapshot_reader *reader) {
    uint64_t line = 0;
    int err = delta_apply(reader->backend, &reader->text, &line);
    if (err == ENOENT) return refuse(reader, "its text is the difference of another tree");
    if (err == EINVAL) return refuse(reader, line ? "its text is no difference" : "what its text makes is no tree");
    return err;
}

// The live tree becomes that of the next snapshot.
static int make_next(struct snapshot_reader *reader) {
    text_copy(reader->name, sizeof reader->name, "?");
    if (!read_heading(reader) || !read_text(reader)) return refuse(reader, "its text is cut off, or none");
    int err = apply(reader);
    if (!err) err = call_snapshot(reader, TAKE_SNAPSHOT, reader->name);
    if (!err) add(reader->store, &reader->store->snapshots, reader->name);
    return err;
}

static int make_each(struct snapshot_reader *reader) {
    int err = 0;
    while (!err && reader->at < reader->end) err = make_next(reader);
    return err;
}

static int make_all(struct snapshot_reader *reader) {
    int err = call_snapshot(reader, TAKE_SNAPSHOT, SNAPSHOT_SAVEPOINT);
    if (!err) err = make_each(reader);
    if (!err) err = call_snapshot(reader, RESTORE_SNAPSHOT, SNAPSHOT_SAVEPOINT);
    return err ? err : call_snapshot(reader, DROP_SNAPSHOT, SNAPSHOT_SAVEPOINT);
}

// A rescue goes on with the live tree as it was.
static void take_back(struct snapshot_reader *reader) {
    if (call_snapshot(reader, RESTORE_SNAPSHOT, SNAPSHOT_SAVEPOINT)) return;
    call_snapshot(reader, DROP_SNAPSHOT, SNAPSHOT_SAVEPOINT);
}

// The last that is told is the first that was taken.
static void turn(struct snapshots *all) {
    for (unsigned i = 0; i < all->count / 2; i++) {
        struct snapshot one = all->at[i];
        all->at[i] = all->at[all->count - 1 - i];
        all->at[all->count - 1 - i] = one;
    }
}

static int make_of_file(struct snapshot_reader *reader, int file, uint64_t *size) {
    struct stat stat;
    if (fstat(file, &stat)) return errno;
    *size = (uint64_t)stat.st_size;
    if (!*size) return 0;
    void *bytes = mmap(NULL, *size, PROT_READ, MAP_PRIVATE, file, 0);
    if (bytes == MAP_FAILED) return errno;
    reader->at = bytes;
    reader->end = reader->at + *size;
    int err = make_all(reader);
    turn(&reader->store->snapshots);
    munmap(bytes, *size);
    return err;
}

static int open_and_make(struct snapshot_reader *reader, const char *name, uint64_t *size) {
    int file = openat(reader->store->directory, name, O_RDONLY | O_CLOEXEC | O_NOFOLLOW);
    if (file < 0) return errno;
    int err = make_of_file(reader, file, size);
    close(file);
    return err;
}

// A name in a text that was changed has any bytes.
static void report(const struct snapshot_reader *reader, const char *file, int err) {
    struct bytes name = {NULL};
    bool is_shown = !text_escape(&name, reader->name) && !bytes_append(&name, "", 1);
    store_report(reader->store, "%s: the snapshot %s is not made: %s", file, is_shown ? name.at : "?",
                 reader->why ? reader->why : strerror(err));
    bytes_free(&name);
}

int store_make_snapshots(struct store *store, const struct backend *backend, uint64_t number, uint64_t *size) {
    struct snapshot_reader reader = {.store = store, .backend = backend, .name = "?"};
    char name[STORE_NAME];
    *size = 0;
    store_name(name, kind, number);
    int err = open_and_make(&reader, name, size);
    if (err && store->rescues) take_back(&reader);
    if (err) report(&reader, name, err);
    return err;
}
