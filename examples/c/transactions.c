// Commits and rolls back transactions, and tries each call that fails while one is open. It prints what it finds; examples/run
// compares that with transactions.expected, which was written by hand.
//
// Built with -DREFUSE (examples/run does so), it also has each allocation of a call fail in turn.
#include "doorvervain.h"
#include <pthread.h>
#include <stdio.h>
#include <stdlib.h>
#include <string.h>

enum { CAPACITY = 1 << 14, SMALL = 256, THREADS = 8, FILES = 60, CALLS = 10000, SIZE = 16 };

static uint8_t open_usual(struct doorvervain *fs) {
    return doorvervain_open(fs, DOORVERVAIN_FANOUT, DOORVERVAIN_PENDING, DOORVERVAIN_LEAF);
}

static uint8_t mkdir_at(struct doorvervain *fs, const char *path, uint64_t at) {
    return doorvervain_mkdir(fs, path, strlen(path), at);
}

static uint8_t create_at(struct doorvervain *fs, const char *path, uint64_t at) {
    return doorvervain_create(fs, path, strlen(path), at);
}

static uint8_t write_at(struct doorvervain *fs, const char *path, uint64_t offset, const char *text, uint64_t at) {
    return doorvervain_write(fs, path, strlen(path), offset, text, strlen(text), at);
}

// The image of a tree, which has all names, bytes and mtimes.
struct image {
    size_t size;
    uint8_t number, text[CAPACITY];
};

static void image_of(const struct doorvervain *fs, struct image *out) {
    struct doorvervain_frozen tree = {0};
    out->size = 0;
    out->number = doorvervain_freeze(fs, &tree);
    if (!out->number) out->number = doorvervain_image(&tree, out->text, CAPACITY, &out->size);
    doorvervain_frozen_close(&tree);
}

static int is_image(const struct doorvervain *fs, const struct image *other) {
    static struct image now;
    image_of(fs, &now);
    return !now.number && !other->number && now.size == other->size && !memcmp(now.text, other->text, now.size);
}

static const char *likeness(const struct doorvervain *fs, const struct image *before) {
    return is_image(fs, before) ? "as before" : "another tree";
}

// Prints the number of a call.
static void say(const char *what, uint8_t number) { printf("%s: %d\n", what, number); }

// Prints the names in the root, and its mtime.
static void say_root(const char *what, const struct doorvervain *fs) {
    uint8_t listing[SMALL], kind;
    size_t size = 0;
    uint64_t length, modified;
    uint8_t number = doorvervain_readdir(fs, "/", 1, listing, SMALL, &size);
    printf("%s: readdir %d:", what, number);
    for (const uint8_t *at = listing; at < listing + size; at += strlen((const char *)at) + 1)
        printf(" %s", (const char *)at);
    number = doorvervain_stat(fs, "/", 1, &kind, &length, &modified);
    printf("; stat %d, mtime %llu\n", number, (unsigned long long)modified);
}

// ---- commits and rollbacks

static void commits(struct doorvervain *fs) {
    say("open", open_usual(fs));
    say("create", create_at(fs, "/a", 1));
    say("begin", doorvervain_begin(fs));
    say("create", create_at(fs, "/b", 2));
    say_root("before the commit", fs);
    say("commit", doorvervain_commit(fs));
    say_root("after the commit", fs);
    say("begin", doorvervain_begin(fs));
    say("create", create_at(fs, "/c", 3));
    say("unlink", doorvervain_unlink(fs, "/a", 2, 4));
    say_root("before the rollback", fs);
    say("rollback", doorvervain_rollback(fs));
    say_root("after the rollback", fs);
}

// A directory with files and a directory, and a file of three blocks, each with an mtime of its own.
static uint8_t make_tree(struct doorvervain *fs) {
    uint8_t err = mkdir_at(fs, "/d", 1);
    if (!err) err = mkdir_at(fs, "/d/sub", 2);
    if (!err) err = create_at(fs, "/d/sub/h", 3);
    if (!err) err = create_at(fs, "/d/f", 4);
    if (!err) err = write_at(fs, "/d/f", 0, "some rain", 5);
    if (!err) err = create_at(fs, "/big", 6);
    if (!err) err = write_at(fs, "/big", 0, "first block", 7);
    if (!err) err = write_at(fs, "/big", 8192, "third block", 8);
    return err;
}

typedef uint8_t (*change_fn)(struct doorvervain *fs);

static uint8_t renames_directory(struct doorvervain *fs) { return doorvervain_rename(fs, "/d", 2, "/moved", 6, 20); }
static uint8_t removes_tree(struct doorvervain *fs) { return doorvervain_rmtree(fs, "/d", 2, 20); }
static uint8_t removes_file(struct doorvervain *fs) { return doorvervain_unlink(fs, "/d/f", 4, 20); }
static uint8_t makes_directory(struct doorvervain *fs) { return mkdir_at(fs, "/new", 20); }
static uint8_t makes_file(struct doorvervain *fs) { return create_at(fs, "/d/new", 20); }
static uint8_t truncates(struct doorvervain *fs) { return doorvervain_truncate(fs, "/d/f", 4, 2, 20); }
static uint8_t extends(struct doorvervain *fs) { return doorvervain_truncate(fs, "/big", 4, 1 << 20, 20); }
static uint8_t punches(struct doorvervain *fs) { return doorvervain_punch(fs, "/big", 4, 0, 4096, 20); }
static uint8_t writes(struct doorvervain *fs) { return write_at(fs, "/big", 5000, "second block", 20); }
static uint8_t sets_mtime(struct doorvervain *fs) { return doorvervain_set_mtime(fs, "/", 1, 20); }
static uint8_t copies(struct doorvervain *fs) {
    uint64_t copied;
    return doorvervain_copy_range(fs, "/big", 4, 0, "/d/f", 4, 0, 12288, 20, &copied);
}

static uint8_t all_in_turn(struct doorvervain *fs) {
    uint8_t err = renames_directory(fs);
    if (!err) err = doorvervain_rmtree(fs, "/moved/sub", 10, 21);
    if (!err) err = doorvervain_rename(fs, "/moved/f", 8, "/big", 4, 22);
    if (!err) err = doorvervain_rmdir(fs, "/moved", 6, 23);
    if (err) return err;
    err = make_tree(fs);
    return err == DOORVERVAIN_EEXIST ? DOORVERVAIN_DONE : err; // of /big
}

static const struct {
    const char *name;
    change_fn call;
} changes[] = {
    {"rename of a directory", renames_directory},
    {"rmtree", removes_tree},
    {"unlink", removes_file},
    {"mkdir", makes_directory},
    {"create", makes_file},
    {"truncate", truncates},
    {"extension", extends},
    {"punch", punches},
    {"write", writes},
    {"set_mtime", sets_mtime},
    {"copy_range", copies},
    {"all in turn", all_in_turn},
};

enum { CHANGES = sizeof changes / sizeof changes[0] };

// Each change is undone by a rollback, also once messages were moved down in the trees.
static void rollbacks(struct doorvervain *fs) {
    static struct image before;
    say("open", open_usual(fs));
    say("tree", make_tree(fs));
    for (int i = 0; i < CHANGES; i++) {
        image_of(fs, &before);
        printf("%s: begin %d", changes[i].name, doorvervain_begin(fs));
        printf(", change %d", changes[i].call(fs));
        printf(", %s", likeness(fs, &before));
        printf("; rollback %d", doorvervain_rollback(fs));
        printf(", %s\n", likeness(fs, &before));
        if (i == CHANGES / 2) doorvervain_compact(fs, UINT32_MAX);
    }
    say("create", create_at(fs, "/after", 30));
    say_root("after all", fs);
}

// ---- errors

// A log of one record, and its body: the creation of a file.
struct log {
    uint8_t body[SMALL], bytes[SMALL], salted[SMALL];
    size_t body_size, size, salted_size;
};

static void join(struct log *log, const uint8_t *frame, uint8_t *out, size_t *size) {
    memcpy(out, frame, DOORVERVAIN_WAL_HEADER);
    memcpy(out + DOORVERVAIN_WAL_HEADER, log->body, log->body_size);
    memcpy(out + DOORVERVAIN_WAL_HEADER + log->body_size, frame + DOORVERVAIN_WAL_HEADER, DOORVERVAIN_WAL_TRAILER);
    *size = DOORVERVAIN_WAL_HEADER + log->body_size + DOORVERVAIN_WAL_TRAILER;
}

static uint8_t make_log(struct log *log, const char *path) {
    uint8_t frame[SMALL];
    size_t size;
    uint8_t err = doorvervain_wal_create(path, strlen(path), 9, log->body, SMALL, &log->body_size);
    if (!err) err = doorvervain_wal_frame(1, log->body, log->body_size, frame, SMALL, &size);
    if (!err) join(log, frame, log->bytes, &log->size);
    if (!err) err = doorvervain_wal_salted_frame("salt", 4, 1, log->body, log->body_size, frame, SMALL, &size);
    if (!err) join(log, frame, log->salted, &log->salted_size);
    return err;
}

// A volume with the snapshot "s", the delta from it to the tree, a frozen tree, and logs.
struct scene {
    struct doorvervain fs;
    struct doorvervain_frozen tree;
    uint8_t delta[CAPACITY];
    size_t delta_size;
    struct log applied, replayed, salted;
};

static uint8_t set_scene(struct scene *scene) {
    uint8_t err = open_usual(&scene->fs);
    if (!err) err = doorvervain_snapshot(&scene->fs, "s", 1);
    if (!err) err = create_at(&scene->fs, "/x", 1);
    if (!err) err = doorvervain_delta(&scene->fs, "s", 1, "", 0, scene->delta, CAPACITY, &scene->delta_size);
    if (!err) err = doorvervain_freeze(&scene->fs, &scene->tree);
    if (!err) err = make_log(&scene->applied, "/applied");
    if (!err) err = make_log(&scene->replayed, "/replayed");
    return err ? err : make_log(&scene->salted, "/salted");
}

// The calls that an open transaction refuses, in an order in which each succeeds if none is open.
static void say_refused(const char *what, struct scene *scene) {
    struct doorvervain *fs = &scene->fs;
    struct log *log = &scene->replayed, *salted = &scene->salted;
    size_t records, done, size;
    uint64_t line;
    printf("%s: snapshot %d", what, doorvervain_snapshot(fs, "t", 1));
    printf(", drop_snapshot %d", doorvervain_drop_snapshot(fs, "t", 1));
    printf(", restore_frozen %d", doorvervain_restore_frozen(fs, &scene->tree));
    printf(", wal_apply %d", doorvervain_wal_apply(fs, scene->applied.body, scene->applied.body_size, &done));
    printf(", wal_replay %d", doorvervain_wal_replay(fs, log->bytes, log->size, 1, &records, &done, &size));
    printf(" of %zu records", records);
    printf(", wal_salted_replay %d",
        doorvervain_wal_salted_replay(fs, salted->salted, salted->salted_size, "salt", 4, 1, &records, &done, &size));
    printf(" of %zu records", records);
    printf(", restore %d", doorvervain_restore(fs, "s", 1));
    printf(", apply_edits %d", doorvervain_apply_edits(fs, "delta 2\nend\n", 12, &line));
    printf(", apply_delta %d", doorvervain_apply_delta(fs, scene->delta, scene->delta_size, &line));
    printf(" at line %llu\n", (unsigned long long)line);
}

// What goes on while a transaction is open.
static void say_others(struct scene *scene) {
    static struct image image;
    struct doorvervain fork = {0};
    struct doorvervain_frozen tree = {0};
    uint8_t text[CAPACITY];
    size_t size;
    say("fork", doorvervain_fork(&scene->fs, &fork));
    say("commit of the fork", doorvervain_commit(&fork));
    say("snapshot of the fork", doorvervain_snapshot(&fork, "f", 1));
    image_of(&scene->fs, &image);
    say("image", image.number);
    say("open_snapshot", doorvervain_open_snapshot(&scene->fs, "s", 1, &tree));
    say("snapshot_name", doorvervain_snapshot_name(&scene->fs, 0, text, CAPACITY, &size));
    say("delta", doorvervain_delta(&scene->fs, "s", 1, "", 0, text, CAPACITY, &size));
    doorvervain_frozen_close(&tree);
    doorvervain_close(&fork);
}

static void busy(void) {
    static struct scene scene;
    static struct image before;
    say("scene", set_scene(&scene));
    say("begin", doorvervain_begin(&scene.fs));
    image_of(&scene.fs, &before);
    say_refused("in a transaction", &scene);
    say("begin", doorvervain_begin(&scene.fs));
    printf("compact: %u; %s\n", doorvervain_compact(&scene.fs, 9), likeness(&scene.fs, &before));
    say_others(&scene);
    say("create", create_at(&scene.fs, "/y", 2));
    say("commit", doorvervain_commit(&scene.fs));
    say_refused("after the commit", &scene);
    say_root("volume", &scene.fs);
    say("create", create_at(&scene.fs, "/z", 3));
    printf("compact: %s\n", doorvervain_compact(&scene.fs, 9) ? "some steps" : "none");
    doorvervain_frozen_close(&scene.tree);
    doorvervain_close(&scene.fs);
}

static void say_ends(const char *what, struct doorvervain *fs) {
    printf("%s: commit %d, rollback %d\n", what, doorvervain_commit(fs), doorvervain_rollback(fs));
}

static void lacks(struct doorvervain *fs) {
    struct doorvervain closed = {0};
    struct doorvervain_frozen shut = {0};
    size_t records, done, size;
    say_ends("a null volume", NULL);
    say_ends("a closed volume", &closed);
    say("begin of a null volume", doorvervain_begin(NULL));
    say("begin of a closed volume", doorvervain_begin(&closed));
    say("open", open_usual(fs));
    say_ends("without a begin", fs);
    say("begin", doorvervain_begin(fs));
    say("commit", doorvervain_commit(fs));
    say_ends("after the commit", fs);
    say("begin", doorvervain_begin(fs));
    say("rollback", doorvervain_rollback(fs));
    say_ends("after the rollback", fs);
    say("begin", doorvervain_begin(fs));
    say("a null name", doorvervain_snapshot(fs, NULL, 1));
    say("a null tree", doorvervain_restore_frozen(fs, NULL));
    say("a closed tree", doorvervain_restore_frozen(fs, &shut));
    say("a null salt", doorvervain_wal_salted_replay(fs, "", 0, NULL, 4, 1, &records, &done, &size));
}

// ---- structs

static void say_new(const char *what, uint8_t number, struct doorvervain *fs) {
    printf("%s: %d, %s", what, number, fs->before ? "a transaction" : "no transaction");
    printf(", begin %d", doorvervain_begin(fs));
    printf(", commit %d\n", doorvervain_commit(fs));
    doorvervain_close(fs);
    fs->ptr = fs->before = fs;
}

static int no_bytes(void *context, uint8_t *buffer, size_t capacity, size_t *got) {
    (void)context, (void)buffer, (void)capacity;
    *got = 0;
    return 0;
}

// A volume has no open transaction at first, whatever its struct held before.
static void new_volumes(void) {
    struct doorvervain of = {0}, fs = {&fs, &fs};
    struct doorvervain_frozen tree = {0};
    struct doorvervain_loader loader = {0};
    uint8_t buffer[SMALL];
    uint64_t line;
    int failed;
    say("open", open_usual(&of));
    say("freeze", doorvervain_freeze(&of, &tree));
    say("begin", doorvervain_begin(&of));
    say_new("open", open_usual(&fs), &fs);
    say_new("load", doorvervain_load(&fs, 16, 256, 256, "D / 0\n", 6, &line), &fs);
    say_new("fork", doorvervain_fork(&of, &fs), &fs);
    say_new("fork of a tree", doorvervain_frozen_fork(&tree, &fs), &fs);
    (void)doorvervain_load_begin(&loader, 16, 256, 256);
    (void)doorvervain_load_feed(&loader, "D / 0\n", 6, &line);
    say_new("load in pieces", doorvervain_load_finish(&fs, &loader, &line), &fs);
    say_new("no shape", doorvervain_open(&fs, 3, 256, 256), &fs);
    say_new("no callback", doorvervain_load_read(&fs, 16, 256, 256, buffer, SMALL, NULL, NULL, &failed, &line), &fs);
    say_new("no image", doorvervain_load_read(&fs, 16, 256, 256, buffer, SMALL, no_bytes, NULL, &failed, &line), &fs);
    doorvervain_frozen_close(&tree);
    doorvervain_close(&of);
}

// A close ends an open transaction, and frees its tree; forks and frozen trees that were made in it stay.
static void closes(struct doorvervain *fs) {
    struct doorvervain fork = {0};
    struct doorvervain_frozen tree = {0};
    uint8_t kind;
    uint64_t size, modified;
    say("open", open_usual(fs));
    say("tree", make_tree(fs));
    say("begin", doorvervain_begin(fs));
    say("rmtree", removes_tree(fs));
    say("create", create_at(fs, "/c", 21));
    say("fork", doorvervain_fork(fs, &fork));
    say("freeze", doorvervain_freeze(fs, &tree));
    doorvervain_close(fs);
    printf("closed: %s, %s\n", fs->ptr ? "open" : "closed", fs->before ? "a transaction" : "no transaction");
    say_root("fork", &fork);
    say("frozen tree", doorvervain_frozen_stat(&tree, "/c", 2, &kind, &size, &modified));
    doorvervain_frozen_close(&tree);
    doorvervain_close(&fork);
}

// A frozen tree that was made in a transaction outlives a rollback.
static void outlives(struct doorvervain *fs) {
    struct doorvervain_frozen tree = {0};
    uint8_t kind;
    uint64_t size, modified;
    say("open", open_usual(fs));
    say("begin", doorvervain_begin(fs));
    say("tree", make_tree(fs));
    say("freeze", doorvervain_freeze(fs, &tree));
    say("rollback", doorvervain_rollback(fs));
    say_root("volume", fs);
    say("frozen tree", doorvervain_frozen_stat(&tree, "/d/f", 4, &kind, &size, &modified));
    printf("its file: %llu bytes, mtime %llu\n", (unsigned long long)size, (unsigned long long)modified);
    doorvervain_frozen_close(&tree);
}

// ---- allocations that fail

#ifdef REFUSE
#include "refused_memory.h"

// A begin without memory begins nothing.
static void refused_begin(struct doorvervain *fs) {
    uint8_t number;
    long count = 0;
    int right = 1;
    do {
        refused_request = ++count;
        number = doorvervain_begin(fs);
        refused_request = 0;
        if (number) right = right && number == DOORVERVAIN_ENOMEM && !fs->before;
    } while (number && right);
    printf("a begin with each request refused: %d, %s\n", number, right && count > 1 ? "as it should be" : "not so");
}

// A call without memory changes nothing in a transaction: neither the tree, nor what a rollback restores, which asks for none.
static void refused_change(struct doorvervain *fs, int i, const struct image *before) {
    uint8_t number;
    long count = 0;
    int right = 1;
    do {
        right = right && !doorvervain_begin(fs) && is_image(fs, before);
        refused_request = ++count;
        number = changes[i].call(fs);
        refused_request = 0;
        if (number) right = right && number == DOORVERVAIN_ENOMEM && (i == CHANGES - 1 || is_image(fs, before));
        refused_request = ALL_REQUESTS;
        right = right && !doorvervain_rollback(fs);
        refused_request = 0;
        right = right && is_image(fs, before);
    } while (number && right);
    right = right && count > 1;
    printf("%s with each request refused: %d, %s\n", changes[i].name, number, right ? "as it should be" : "not so");
}

static void refused_memory(struct doorvervain *fs) {
    static struct image before;
    say("open", open_usual(fs));
    say("tree", make_tree(fs));
    image_of(fs, &before);
    refused_begin(fs);
    refused_request = ALL_REQUESTS;
    const uint8_t number = doorvervain_commit(fs);
    refused_request = 0;
    say("a commit without memory", number);
    for (int i = 0; i < CHANGES; i++)
        refused_change(fs, i, &before);
}
#else
static void refused_memory(struct doorvervain *fs) { (void)fs; }
#endif

// ---- random calls of forks in threads, beside a plain model

struct file {
    int there;
    uint64_t modified;
    size_t length;
    uint8_t bytes[SIZE];
};

struct model {
    uint64_t modified; // of the root
    struct file files[FILES];
};

// A thread's own fork; what it should have, and what it should have after a rollback, if a transaction is open.
struct work {
    struct doorvervain fs;
    struct model now, before;
    int is_open;
    uint64_t at;
    unsigned seed;
    int commits, rollbacks, wrong;
};

static size_t name_of(int file, char *out) { return (size_t)snprintf(out, SIZE, "/f%02d", file); }

static unsigned drawn(struct work *work, unsigned below) {
    work->seed = work->seed * 1103515245 + 12345;
    return (work->seed >> 8) % below;
}

static void check(struct work *work, uint8_t number, uint8_t expected) { work->wrong += number != expected; }

static void create_file(struct work *work, int i) {
    struct file *file = &work->now.files[i];
    char name[SIZE];
    uint8_t number = doorvervain_create(&work->fs, name, name_of(i, name), work->at);
    check(work, number, file->there ? DOORVERVAIN_EEXIST : DOORVERVAIN_DONE);
    if (file->there) return;
    *file = (struct file){.there = 1, .modified = work->at};
    work->now.modified = work->at;
}

static void unlink_file(struct work *work, int i) {
    struct file *file = &work->now.files[i];
    char name[SIZE];
    uint8_t number = doorvervain_unlink(&work->fs, name, name_of(i, name), work->at);
    check(work, number, file->there ? DOORVERVAIN_DONE : DOORVERVAIN_ENOENT);
    if (!file->there) return;
    file->there = 0;
    work->now.modified = work->at;
}

static void write_file(struct work *work, int i) {
    struct file *file = &work->now.files[i];
    char name[SIZE];
    uint8_t bytes[SIZE];
    size_t offset = drawn(work, SIZE), count = 1 + drawn(work, (unsigned)(SIZE - offset));
    memset(bytes, (int)drawn(work, 256), SIZE);
    uint8_t number = doorvervain_write(&work->fs, name, name_of(i, name), offset, bytes, count, work->at);
    check(work, number, file->there ? DOORVERVAIN_DONE : DOORVERVAIN_ENOENT);
    if (!file->there) return;
    memcpy(file->bytes + offset, bytes, count);
    if (file->length < offset + count) file->length = offset + count;
    file->modified = work->at;
}

static void truncate_file(struct work *work, int i) {
    struct file *file = &work->now.files[i];
    char name[SIZE];
    size_t length = drawn(work, SIZE + 1);
    uint8_t number = doorvervain_truncate(&work->fs, name, name_of(i, name), length, work->at);
    check(work, number, file->there ? DOORVERVAIN_DONE : DOORVERVAIN_ENOENT);
    if (!file->there) return;
    if (length < file->length) memset(file->bytes + length, 0, SIZE - length);
    file->length = length;
    file->modified = work->at;
}

static void rename_file(struct work *work, int i) {
    struct file *file = &work->now.files[i];
    char name[SIZE], other[SIZE];
    int to = (int)drawn(work, FILES);
    size_t length = name_of(i, name), other_length = name_of(to, other);
    uint8_t number = doorvervain_rename(&work->fs, name, length, other, other_length, work->at);
    check(work, number, file->there ? DOORVERVAIN_DONE : DOORVERVAIN_ENOENT);
    if (!file->there || to == i) return;
    work->now.files[to] = *file;
    file->there = 0;
    work->now.modified = work->at;
}

static void begin(struct work *work) {
    check(work, doorvervain_begin(&work->fs), work->is_open ? DOORVERVAIN_EBUSY : DOORVERVAIN_DONE);
    if (!work->is_open) work->before = work->now;
    work->is_open = 1;
}

static void end(struct work *work, int keeps) {
    uint8_t number = keeps ? doorvervain_commit(&work->fs) : doorvervain_rollback(&work->fs);
    check(work, number, work->is_open ? DOORVERVAIN_DONE : DOORVERVAIN_EINVAL);
    if (!work->is_open) return;
    if (!keeps) work->now = work->before;
    work->commits += keeps;
    work->rollbacks += !keeps;
    work->is_open = 0;
}

// A snapshot is taken and dropped again, and trees are compacted, if no transaction is open.
static void outside(struct work *work) {
    uint8_t expected = work->is_open ? DOORVERVAIN_EBUSY : DOORVERVAIN_DONE;
    check(work, doorvervain_snapshot(&work->fs, "s", 1), expected);
    check(work, doorvervain_drop_snapshot(&work->fs, "s", 1), expected);
    work->wrong += work->is_open && doorvervain_compact(&work->fs, 9);
    if (!work->is_open) doorvervain_compact(&work->fs, 9);
}

// Compares kind, length, mtime and bytes of a file, or that it is not there.
static void compare(struct work *work, int i) {
    const struct file *file = &work->now.files[i];
    char name[SIZE];
    uint8_t kind, bytes[SIZE];
    uint64_t size, modified;
    size_t got, length = name_of(i, name);
    uint8_t number = doorvervain_stat(&work->fs, name, length, &kind, &size, &modified);
    check(work, number, file->there ? DOORVERVAIN_DONE : DOORVERVAIN_ENOENT);
    if (!file->there) return;
    work->wrong += kind != DOORVERVAIN_FILE || size != file->length || modified != file->modified;
    check(work, doorvervain_read(&work->fs, name, length, 0, bytes, SIZE, &got), DOORVERVAIN_DONE);
    work->wrong += got != file->length || memcmp(bytes, file->bytes, got) != 0;
}

static void compare_all(struct work *work) {
    uint8_t kind;
    uint64_t size, modified;
    for (int i = 0; i < FILES; i++)
        compare(work, i);
    check(work, doorvervain_stat(&work->fs, "/", 1, &kind, &size, &modified), DOORVERVAIN_DONE);
    work->wrong += modified != work->now.modified;
}

// Makes a random call of the fork.
static void change(struct work *work) {
    int file = (int)drawn(work, FILES);
    work->at++;
    switch (drawn(work, 40)) {
    case 0: begin(work); break;
    case 1: end(work, 1); break;
    case 2: end(work, 0); break;
    case 3: outside(work); break;
    default:
        switch (drawn(work, 6)) {
        case 0: create_file(work, file); break;
        case 1: unlink_file(work, file); break;
        case 2: write_file(work, file); break;
        case 3: truncate_file(work, file); break;
        case 4: rename_file(work, file); break;
        default: compare(work, file);
        }
    }
}

// At the end a transaction may be open: the close frees its tree.
static void *do_work(void *argument) {
    struct work *work = argument;
    for (int i = 0; i < CALLS; i++) {
        int was_open = work->is_open;
        change(work);
        if (was_open && !work->is_open) compare_all(work);
    }
    compare_all(work);
    doorvervain_close(&work->fs);
    return NULL;
}

// Forks of one volume, which share its nodes, have transactions in threads of their own. The shape is small, so that trees have
// levels.
static void threads(void) {
    static struct work work[THREADS], first;
    pthread_t thread[THREADS];
    int wrong = 0, few = 0;
    say("open", doorvervain_open(&first.fs, 4, 8, 4));
    for (int i = 0; i < CALLS; i++) {
        first.at++;
        create_file(&first, i % FILES);
        write_file(&first, i % FILES);
    }
    doorvervain_compact(&first.fs, 1000);
    for (int i = 0; i < THREADS; i++) {
        work[i] = first;
        work[i].seed = (unsigned)i;
        wrong += doorvervain_fork(&first.fs, &work[i].fs) != DOORVERVAIN_DONE;
    }
    for (int i = 0; i < THREADS; i++)
        wrong += pthread_create(&thread[i], NULL, do_work, &work[i]) != 0;
    for (int i = 0; i < THREADS; i++) {
        wrong += pthread_join(thread[i], NULL) != 0;
        wrong += work[i].wrong;
        few += work[i].commits < 50 || work[i].rollbacks < 50;
    }
    compare_all(&first);
    doorvervain_close(&first.fs);
    printf("threads with fewer than 50 commits or rollbacks: %d\n", few);
    printf("wrong answers in %d threads: %d\n", THREADS, wrong + first.wrong);
}

int main(void) {
    struct doorvervain fs = {0};
    void (*const parts[])(struct doorvervain *) = {commits, rollbacks, lacks, closes, outlives, refused_memory};
    for (size_t i = 0; i < sizeof parts / sizeof parts[0]; i++) {
        parts[i](&fs);
        doorvervain_close(&fs);
    }
    busy();
    new_volumes();
    threads();
    return 0;
}
