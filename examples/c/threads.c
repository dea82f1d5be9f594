// Calls forks and frozen trees of one volume from many threads without a lock, and a live volume beneath a read-write lock. Each call
// is random, and its result is compared with that of a plain model (threads_model.h). It prints what it finds, which
// examples/run compares with threads.expected.
//
//     threads          tries what may run at the same time
//     threads race     does what may not: two threads change one volume without a lock. Only a sanitizer of threads makes sense of it.
#define _XOPEN_SOURCE 700 // pthread_rwlock_t, which std=c11 alone does not have
#include "threads_model.h"
#include <pthread.h>
#include <stdio.h>
#include <stdlib.h>

enum { THREADS = 8, CALLS = 2000, TREES = 6, CALLS_BETWEEN = 400, LOCKED_CALLS = 1000, WRITERS = 2 };

// ---- calls that are compared with the model

// Random numbers, the calls that did not return what the model says, and how often each error was returned.
struct run {
    uint64_t seed;
    long wrong, returned[16];
};

static uint64_t drawn(struct run *run, uint64_t below) {
    run->seed = run->seed * 6364136223846793005u + 1442695040888963407u;
    return (run->seed >> 33) % below;
}

// Counts the number that a call returned, and whether it is wrong. Returns whether the call was done.
static int check(struct run *run, uint8_t number, uint8_t expected) {
    run->wrong += number != expected;
    run->returned[number % 16]++;
    return number == DOORVERVAIN_DONE && number == expected;
}

enum { PATH = 16 };

static size_t path_of(struct place it, char *out) {
    if (is_root(it)) return (size_t)sprintf(out, "/");
    if (!it.file) return (size_t)sprintf(out, "/n%02d", it.folder);
    return (size_t)sprintf(out, "/n%02d/n%02d", it.folder, it.file);
}

static struct place draw_place(struct run *run) {
    struct place it = {(int)drawn(run, 1 + FOLDERS), (int)drawn(run, 1 + FILES)};
    if (!it.folder) it.file = 0;
    return it;
}

static void do_rename(struct run *run, struct doorvervain *fs, struct model *model, struct place from, uint64_t at) {
    char old[PATH], new[PATH];
    struct place to = draw_place(run);
    size_t old_size = path_of(from, old), new_size = path_of(to, new);
    if (!has_a_place(model, from, to)) return;
    check(run, doorvervain_rename(fs, old, old_size, new, new_size, at), model_rename(model, from, to, at));
}

static void do_write(struct run *run, struct doorvervain *fs, struct model *model, struct place it, uint64_t at) {
    char path[PATH];
    uint8_t bytes[CELL];
    size_t size = path_of(it, path), count = drawn(run, 1 + CELL);
    int cell = (int)drawn(run, CELLS);
    for (int i = 0; i < CELL; i++)
        bytes[i] = (uint8_t)drawn(run, 256);
    uint8_t number = doorvervain_write(fs, path, size, (uint64_t)cell * STRIDE, bytes, count, at);
    check(run, number, model_write(model, it, cell, bytes, count, at));
}

static void do_punch(struct run *run, struct doorvervain *fs, struct model *model, struct place it, uint64_t at) {
    char path[PATH];
    uint64_t offset = drawn(run, MOST), count = drawn(run, MOST);
    size_t size = path_of(it, path);
    check(run, doorvervain_punch(fs, path, size, offset, count, at), model_punch(model, it, offset, count, at));
}

static void do_copy(struct run *run, struct doorvervain *fs, struct model *model, struct place from, uint64_t at) {
    char old[PATH], new[PATH];
    struct place to = drawn(run, 4) ? draw_place(run) : from;
    int cell = (int)drawn(run, CELLS), target = (int)drawn(run, CELLS);
    uint64_t count = drawn(run, 1 + CELL), copied, expected;
    size_t old_size = path_of(from, old), new_size = path_of(to, new);
    uint8_t number = doorvervain_copy_range(
        fs, old, old_size, (uint64_t)cell * STRIDE, new, new_size, (uint64_t)target * STRIDE, count, at, &copied);
    check(run, number, model_copy(model, from, cell, to, target, count, at, &expected));
    run->wrong += copied != expected;
}

// Creates each folder of the model and each file below it.
static void fill(struct run *run, struct doorvervain *fs, struct model *model) {
    char path[PATH];
    for (int i = 0; i < FOLDERS * (1 + FILES); i++) {
        struct place it = {1 + i / (1 + FILES), i % (1 + FILES)};
        size_t size = path_of(it, path);
        uint8_t kind = it.file ? DOORVERVAIN_FILE : DOORVERVAIN_DIRECTORY;
        uint8_t number = it.file ? doorvervain_create(fs, path, size, 1) : doorvervain_mkdir(fs, path, size, 1);
        check(run, number, model_create(model, it, kind, 1));
    }
}

// Makes a random call that changes the volume.
static void change(struct run *run, struct doorvervain *fs, struct model *model) {
    char path[PATH];
    struct place it = draw_place(run);
    size_t size = path_of(it, path);
    uint64_t at = drawn(run, 1000), length = drawn(run, MOST);
    switch (drawn(run, 18)) {
    case 0: check(run, doorvervain_unlink(fs, path, size, at), model_unlink(model, it, at)); break;
    case 1: check(run, doorvervain_rmdir(fs, path, size, at), model_rmdir(model, it, at)); break;
    case 2:
        if (drawn(run, 4)) break;
        check(run, doorvervain_rmtree(fs, path, size, at), model_rmtree(model, it, at));
        break;
    case 3: check(run, doorvervain_truncate(fs, path, size, length, at), model_truncate(model, it, length, at)); break;
    case 4: do_punch(run, fs, model, it, at); break;
    case 5:
    case 6: do_rename(run, fs, model, it, at); break;
    case 7: doorvervain_compact(fs, (uint32_t)drawn(run, 8)); break;
    case 8:
    case 9:
        check(run, doorvervain_mkdir(fs, path, size, at), model_create(model, it, DOORVERVAIN_DIRECTORY, at));
        break;
    case 10:
    case 11:
    case 12: check(run, doorvervain_create(fs, path, size, at), model_create(model, it, DOORVERVAIN_FILE, at)); break;
    case 13: check(run, doorvervain_set_mtime(fs, path, size, at), model_set_mtime(model, it, at)); break;
    case 14: do_copy(run, fs, model, it, at); break;
    default: do_write(run, fs, model, it, at);
    }
}

// The read-only calls of a volume, or of a frozen tree if that is not null.
struct tree {
    const struct doorvervain *fs;
    const struct doorvervain_frozen *frozen;
};

static void look_stat(struct run *run, struct tree tree, struct model *model, struct place it) {
    char path[PATH];
    uint8_t kind;
    uint64_t bytes, modified;
    size_t size = path_of(it, path);
    struct entry *entry = entry_of(model, it);
    uint8_t number = tree.frozen ? doorvervain_frozen_stat(tree.frozen, path, size, &kind, &bytes, &modified)
                                 : doorvervain_stat(tree.fs, path, size, &kind, &bytes, &modified);
    if (!check(run, number, path_fault(model, it))) return;
    run->wrong += kind != entry->kind || bytes != entry->size || modified != entry->modified;
}

static void look_read(struct run *run, struct tree tree, struct model *model, struct place it) {
    char path[PATH];
    uint8_t has[MOST], expected[MOST];
    uint64_t offset = drawn(run, MOST), length = entry_of(model, it)->size;
    size_t size = path_of(it, path), got, capacity = drawn(run, MOST);
    uint8_t number = tree.frozen ? doorvervain_frozen_read(tree.frozen, path, size, offset, has, capacity, &got)
                                 : doorvervain_read(tree.fs, path, size, offset, has, capacity, &got);
    if (!check(run, number, file_fault(model, it))) return;
    uint64_t left = offset < length ? length - offset : 0;
    bytes_of(entry_of(model, it), expected);
    run->wrong += got != (left < capacity ? left : capacity) || memcmp(has, expected + offset, got) != 0;
}

static void look_readdir(struct run *run, struct tree tree, struct model *model, struct place it) {
    char path[PATH], expected[PATH * (1 + FILES)], has[PATH * (1 + FILES)];
    size_t size = path_of(it, path), got;
    uint8_t fault = path_fault(model, it);
    uint8_t number = tree.frozen ? doorvervain_frozen_readdir(tree.frozen, path, size, has, sizeof has, &got)
                                 : doorvervain_readdir(tree.fs, path, size, has, sizeof has, &got);
    if (!check(run, number, fault ? fault : is_dir(model, it) ? DOORVERVAIN_DONE : DOORVERVAIN_ENOTDIR)) return;
    run->wrong += got != listing_of(model, it, expected) || memcmp(has, expected, got) != 0;
}

// What is before an extent is zeros, and the extent is within the file.
static void look_extent(struct run *run, struct tree tree, struct model *model, struct place it) {
    char path[PATH];
    uint8_t bytes[MOST];
    uint64_t offset = drawn(run, MOST), length = entry_of(model, it)->size, from, to;
    size_t size = path_of(it, path);
    uint8_t number = tree.frozen ? doorvervain_frozen_next_extent(tree.frozen, path, size, offset, &from, &to)
                                 : doorvervain_next_extent(tree.fs, path, size, offset, &from, &to);
    if (!check(run, number, file_fault(model, it))) return;
    run->wrong += from > to || to > length || (offset <= length && from < offset);
    bytes_of(entry_of(model, it), bytes);
    for (uint64_t i = offset; i < from && i < MOST; i++)
        run->wrong += bytes[i] != 0;
}

// Makes a random call that only reads.
static void look(struct run *run, struct tree tree, struct model *model) {
    struct place it = draw_place(run);
    switch (drawn(run, 5)) {
    case 0: look_read(run, tree, model, it); break;
    case 1: look_readdir(run, tree, model, it); break;
    case 2: look_extent(run, tree, model, it); break;
    default: look_stat(run, tree, model, it);
    }
}

// Compares all entries with the model.
static void look_at_all(struct run *run, struct tree tree, struct model *model) {
    for (int folder = 0; folder <= FOLDERS; folder++) {
        for (int file = 0; file <= (folder ? FILES : 0); file++) {
            look_stat(run, tree, model, (struct place){folder, file});
            look_read(run, tree, model, (struct place){folder, file});
        }
        look_readdir(run, tree, model, (struct place){folder, 0});
    }
}

// ---- forks and frozen trees, without a lock

// A frozen tree that all threads read at the same time, with its model and its image, which are not changed either.
struct shared_tree {
    struct doorvervain_frozen frozen;
    struct model model;
    char *image;
    size_t size;
};

static struct shared_tree shared[TREES];

// A volume that one thread gives and another takes, each beneath the lock.
static struct {
    pthread_mutex_t lock;
    struct doorvervain fs;
    struct model model;
} passed = {.lock = PTHREAD_MUTEX_INITIALIZER};

// A thread with a volume of its own, and the model of it. `kept` is the model of its snapshot "s".
struct worker {
    struct run run;
    struct doorvervain fs;
    struct model model, kept;
    int has_kept;
};

static struct tree live(const struct doorvervain *fs) { return (struct tree){fs, NULL}; }

static struct tree of(const struct doorvervain_frozen *frozen) { return (struct tree){NULL, frozen}; }

static struct shared_tree *draw_tree(struct run *run) { return &shared[drawn(run, TREES)]; }

// Goes on with a fork of a tree that others read and fork at this time.
static void fork_shared(struct worker *it) {
    struct shared_tree *tree = draw_tree(&it->run);
    doorvervain_close(&it->fs);
    check(&it->run, doorvervain_frozen_fork(&tree->frozen, &it->fs), DOORVERVAIN_DONE);
    it->model = tree->model;
    it->has_kept = 0;
}

// Restores a tree that others read and fork at this time.
static void restore_shared(struct worker *it) {
    struct shared_tree *tree = draw_tree(&it->run);
    check(&it->run, doorvervain_restore_frozen(&it->fs, &tree->frozen), DOORVERVAIN_DONE);
    it->model = tree->model;
}

// Prints a tree that others read at this time.
static void print_shared(struct worker *it) {
    struct shared_tree *tree = draw_tree(&it->run);
    char *image = malloc(tree->size);
    size_t size;
    check(&it->run, doorvervain_image(&tree->frozen, image, tree->size, &size), DOORVERVAIN_DONE);
    it->run.wrong += size != tree->size || memcmp(image, tree->image, size) != 0;
    free(image);
}

// Gives a fork to another thread, and takes the one that another gave, with its model.
static void pass(struct worker *it) {
    struct doorvervain fork = {0}, old = {0};
    check(&it->run, doorvervain_fork(&it->fs, &fork), DOORVERVAIN_DONE);
    struct model model = it->model;
    pthread_mutex_lock(&passed.lock);
    old = passed.fs;
    if (old.ptr) it->model = passed.model;
    passed.fs = fork;
    passed.model = model;
    pthread_mutex_unlock(&passed.lock);
    if (!old.ptr) return;
    doorvervain_close(&it->fs);
    it->fs = old;
    it->has_kept = 0;
}

static void use_snapshot(struct worker *it) {
    struct run *run = &it->run;
    if (!it->has_kept) {
        check(run, doorvervain_snapshot(&it->fs, "s", 1), DOORVERVAIN_DONE);
        it->kept = it->model;
    } else if (drawn(run, 2)) {
        check(run, doorvervain_restore(&it->fs, "s", 1), DOORVERVAIN_DONE);
        it->model = it->kept;
        return;
    } else {
        check(run, doorvervain_drop_snapshot(&it->fs, "s", 1), DOORVERVAIN_DONE);
    }
    it->has_kept = !it->has_kept;
}

// Freezes the own tree, changes the volume, and finds the frozen tree as it was.
static void freeze_own(struct worker *it) {
    struct doorvervain_frozen frozen = {0};
    struct model model = it->model;
    check(&it->run, doorvervain_freeze(&it->fs, &frozen), DOORVERVAIN_DONE);
    for (int i = 0; i < 20; i++) {
        change(&it->run, &it->fs, &it->model);
        look(&it->run, of(&frozen), &model);
    }
    doorvervain_frozen_close(&frozen);
}

static void step(struct worker *it) {
    struct shared_tree *tree = draw_tree(&it->run);
    switch (drawn(&it->run, 64)) {
    case 0: fork_shared(it); break;
    case 1: restore_shared(it); break;
    case 2: print_shared(it); break;
    case 3: pass(it); break;
    case 4: freeze_own(it); break;
    case 5: use_snapshot(it); break;
    default:
        change(&it->run, &it->fs, &it->model);
        look(&it->run, live(&it->fs), &it->model);
        look(&it->run, of(&tree->frozen), &tree->model);
    }
}

static void *work(void *argument) {
    struct worker *it = argument;
    fork_shared(it);
    for (int i = 0; i < CALLS; i++)
        step(it);
    look_at_all(&it->run, live(&it->fs), &it->model);
    doorvervain_close(&it->fs);
    return NULL;
}

// Freezes the trees that all threads read: of one volume, with some calls between them.
static void freeze_shared(struct worker *it) {
    for (int i = 0; i < TREES; i++) {
        struct shared_tree *tree = &shared[i];
        for (int call = 0; call < CALLS_BETWEEN; call++)
            change(&it->run, &it->fs, &it->model);
        check(&it->run, doorvervain_freeze(&it->fs, &tree->frozen), DOORVERVAIN_DONE);
        tree->model = it->model;
        check(&it->run, doorvervain_image(&tree->frozen, NULL, 0, &tree->size), DOORVERVAIN_DONE);
        tree->image = malloc(tree->size);
        check(&it->run, doorvervain_image(&tree->frozen, tree->image, tree->size, &tree->size), DOORVERVAIN_DONE);
    }
}

static void close_shared(void) {
    for (int i = 0; i < TREES; i++) {
        doorvervain_frozen_close(&shared[i].frozen);
        free(shared[i].image);
    }
    doorvervain_close(&passed.fs);
}

// Prints how many calls were wrong, and whether all errors were returned that these calls can meet.
static void say(const char *what, struct run *const *runs, int count) {
    long wrong = 0, returned[16] = {0};
    for (int i = 0; i < count; i++) {
        wrong += runs[i]->wrong;
        for (int number = 0; number < 16; number++)
            returned[number] += runs[i]->returned[number];
    }
    printf("%s: wrong results in %d threads: %ld; returned:", what, count, wrong);
    for (int number = 0; number < 16; number++)
        if (returned[number]) printf(" %d", number);
    printf("\n");
}

static void without_a_lock(const char *what, uint16_t fanout, uint16_t pending, uint16_t leaf) {
    static struct worker workers[THREADS], first;
    struct run *runs[THREADS + 1] = {[THREADS] = &first.run};
    pthread_t threads[THREADS];
    memset(&first, 0, sizeof first);
    begin_model(&first.model);
    check(&first.run, doorvervain_open(&first.fs, fanout, pending, leaf), DOORVERVAIN_DONE);
    fill(&first.run, &first.fs, &first.model);
    freeze_shared(&first);
    for (int i = 0; i < THREADS; i++) {
        memset(&workers[i], 0, sizeof workers[i]);
        workers[i].run.seed = (uint64_t)i + 1;
        runs[i] = &workers[i].run;
        if (pthread_create(&threads[i], NULL, work, &workers[i])) exit(1);
    }
    // the volume itself changes meanwhile
    for (int i = 0; i < CALLS; i++)
        change(&first.run, &first.fs, &first.model);
    look_at_all(&first.run, live(&first.fs), &first.model);
    doorvervain_close(&first.fs);
    for (int i = 0; i < THREADS; i++)
        pthread_join(threads[i], NULL);
    close_shared();
    say(what, runs, THREADS + 1);
}

// ---- a live volume beneath a read-write lock

// The volume, with its model and that of its snapshot "s". Who changes them has the lock alone.
static struct {
    pthread_rwlock_t lock;
    struct doorvervain fs;
    struct model model, kept;
} guarded = {.lock = PTHREAD_RWLOCK_INITIALIZER};

// Opens a tree while others read the volume, and reads it when the volume may be changed again.
static void open_tree(struct run *run, int of_snapshot) {
    struct doorvervain_frozen frozen = {0};
    struct model model;
    pthread_rwlock_rdlock(&guarded.lock);
    uint8_t number = of_snapshot ? doorvervain_open_snapshot(&guarded.fs, "s", 1, &frozen) : doorvervain_freeze(&guarded.fs, &frozen);
    model = of_snapshot ? guarded.kept : guarded.model;
    pthread_rwlock_unlock(&guarded.lock);
    check(run, number, DOORVERVAIN_DONE);
    for (int i = 0; i < 20; i++)
        look(run, of(&frozen), &model);
    doorvervain_frozen_close(&frozen);
}

// Forks the volume while others read it, and changes the fork when the volume may be changed again.
static void fork_guarded(struct run *run) {
    struct doorvervain fork = {0};
    struct model model;
    pthread_rwlock_rdlock(&guarded.lock);
    uint8_t number = doorvervain_fork(&guarded.fs, &fork);
    model = guarded.model;
    pthread_rwlock_unlock(&guarded.lock);
    check(run, number, DOORVERVAIN_DONE);
    for (int i = 0; i < 20; i++) {
        change(run, &fork, &model);
        look(run, live(&fork), &model);
    }
    doorvervain_close(&fork);
}

// Asks for the sizes of the delta from the snapshot to the tree and of the list of paths that differ, and for the names of the
// snapshots, while others read the volume; and for edits, which are printed while others change it.
static void look_at_snapshots(struct run *run) {
    struct doorvervain_edits edits = {0};
    char name[64];
    size_t size, bytes;
    pthread_rwlock_rdlock(&guarded.lock);
    check(run, doorvervain_delta(&guarded.fs, "s", 1, "", 0, NULL, 0, &bytes), DOORVERVAIN_DONE);
    check(run, doorvervain_changed_paths(&guarded.fs, "s", 1, "", 0, NULL, 0, &size), DOORVERVAIN_DONE);
    check(run, doorvervain_snapshot_name(&guarded.fs, 0, name, sizeof name, &size), DOORVERVAIN_DONE);
    run->wrong += size != 1 || name[0] != 's' || !bytes;
    check(run, doorvervain_snapshot_name(&guarded.fs, 1, name, sizeof name, &size), DOORVERVAIN_ENOENT);
    check(run, doorvervain_edits_begin(&edits, &guarded.fs, "s", 1, "", 0), DOORVERVAIN_DONE);
    pthread_rwlock_unlock(&guarded.lock);
    check(run, doorvervain_edits_next(&edits, name, sizeof name, &size), DOORVERVAIN_DONE);
    run->wrong += size < 8 || memcmp(name, "delta 2\n", 8);
    doorvervain_edits_end(&edits);
}

static void look_beneath(struct run *run) {
    pthread_rwlock_rdlock(&guarded.lock);
    for (int i = 0; i < 8; i++)
        look(run, live(&guarded.fs), &guarded.model);
    pthread_rwlock_unlock(&guarded.lock);
}

static void *read_guarded(void *argument) {
    struct run *run = argument;
    for (int i = 0; i < LOCKED_CALLS; i++) {
        switch (drawn(run, 64)) {
        case 0: open_tree(run, 0); break;
        case 1: open_tree(run, 1); break;
        case 2: fork_guarded(run); break;
        case 3: look_at_snapshots(run); break;
        default: look_beneath(run);
        }
    }
    return NULL;
}

// Takes the snapshot anew, or restores it, beneath the lock.
static void change_snapshot(struct run *run) {
    if (drawn(run, 2)) {
        check(run, doorvervain_restore(&guarded.fs, "s", 1), DOORVERVAIN_DONE);
        guarded.model = guarded.kept;
        return;
    }
    check(run, doorvervain_drop_snapshot(&guarded.fs, "s", 1), DOORVERVAIN_DONE);
    check(run, doorvervain_snapshot(&guarded.fs, "s", 1), DOORVERVAIN_DONE);
    guarded.kept = guarded.model;
}

static void *change_guarded(void *argument) {
    struct run *run = argument;
    for (int i = 0; i < LOCKED_CALLS; i++) {
        pthread_rwlock_wrlock(&guarded.lock);
        if (drawn(run, 64)) {
            change(run, &guarded.fs, &guarded.model);
        } else {
            change_snapshot(run);
        }
        pthread_rwlock_unlock(&guarded.lock);
    }
    return NULL;
}

static void beneath_a_lock(void) {
    static struct run run[THREADS + 1];
    struct run *runs[THREADS + 1];
    pthread_t threads[THREADS];
    begin_model(&guarded.model);
    check(&run[THREADS], doorvervain_open(&guarded.fs, 4, 4, 4), DOORVERVAIN_DONE);
    fill(&run[THREADS], &guarded.fs, &guarded.model);
    for (int i = 0; i < 2 * CALLS_BETWEEN; i++)
        change(&run[THREADS], &guarded.fs, &guarded.model);
    check(&run[THREADS], doorvervain_snapshot(&guarded.fs, "s", 1), DOORVERVAIN_DONE);
    guarded.kept = guarded.model;
    for (int i = 0; i <= THREADS; i++) {
        runs[i] = &run[i];
        run[i].seed = (uint64_t)i + 100;
        if (i < THREADS && pthread_create(&threads[i], NULL, i < WRITERS ? change_guarded : read_guarded, &run[i])) exit(1);
    }
    for (int i = 0; i < THREADS; i++)
        pthread_join(threads[i], NULL);
    look_at_all(&run[THREADS], live(&guarded.fs), &guarded.model);
    doorvervain_close(&guarded.fs);
    say("a read-write lock", runs, THREADS + 1);
}

// ---- what may not be done

static void *create_without_a_lock(void *name) {
    char path[PATH];
    for (int i = 0; i < 100; i++) {
        size_t size = (size_t)snprintf(path, PATH, "/%s%d", (const char *)name, i);
        doorvervain_create(&guarded.fs, path, size, 0);
    }
    return NULL;
}

static void race(void) {
    pthread_t other;
    if (doorvervain_open(&guarded.fs, DOORVERVAIN_FANOUT, DOORVERVAIN_PENDING, DOORVERVAIN_LEAF)) exit(1);
    if (pthread_create(&other, NULL, create_without_a_lock, "a")) exit(1);
    create_without_a_lock("b");
    pthread_join(other, NULL);
    doorvervain_close(&guarded.fs);
}

int main(int count, char **words) {
    if (count > 1 && !strcmp(words[1], "race")) {
        race();
        return 0;
    }
    without_a_lock("nodes of 4", 4, 4, 4);
    without_a_lock("the default shape", DOORVERVAIN_FANOUT, DOORVERVAIN_PENDING, DOORVERVAIN_LEAF);
    beneath_a_lock();
    return 0;
}
