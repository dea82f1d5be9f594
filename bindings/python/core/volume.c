// Volumes: calls that change them, snapshots, transactions and compaction.
//
// Invariant: a call that changes the volume holds its lock alone, and `kept` has the shape of each snapshot.
#include "core.h"

#include <stdlib.h>
#include <string.h>

// The numbers of a shape. A number out of C's range is replaced by another that is not valid. -1 with an exception if they are
// not three numbers.
static int shape_of(PyObject *given, uint16_t *shape) {
    if (PySequence_Size(given) != 3) {
        if (!PyErr_Occurred()) PyErr_SetString(PyExc_ValueError, "a shape is three numbers");
        return -1;
    }
    for (Py_ssize_t place = 0; place < 3; place++) {
        PyObject *number = PySequence_GetItem(given, place);
        uint64_t value = 0;
        int below = 0, failed = !number || bytes_of(number, &value, &below);
        Py_XDECREF(number);
        if (failed) return -1;
        shape[place] = below ? 0 : value > UINT16_MAX ? UINT16_MAX : (uint16_t)value;
    }
    return 0;
}

static void refuse_shape(uint8_t number, PyObject *shape) {
    PyObject *sentence = PyUnicode_FromFormat("no volume of the shape %R", shape);
    PyObject *value = sentence ? Py_BuildValue("iN", doorvervain_errno(number), sentence) : NULL;
    if (value) PyErr_SetObject(PyExc_OSError, value);
    Py_XDECREF(value);
}

// Takes ownership of an opened volume, and keeps its shape and its clock.
static void volume_begins(Tree *tree, struct doorvervain opened, const uint16_t *shape, PyObject *clock) {
    tree->volume = opened;
    memcpy(tree->shape, shape, sizeof tree->shape);
    if (clock == known.time_ns || clock == Py_None) return;
    Py_INCREF(clock);
    tree->clock = clock;
}

static int volume_init(PyObject *self, PyObject *words, PyObject *named) {
    static char *names[] = {"shape", "clock", NULL};
    PyObject *shape = NULL, *clock = Py_None;
    uint16_t numbers[3] = {DOORVERVAIN_FANOUT, DOORVERVAIN_PENDING, DOORVERVAIN_LEAF};
    struct doorvervain opened = {0};
    if (!PyArg_ParseTupleAndKeywords(words, named, "|OO:Volume", names, &shape, &clock)) return -1;
    if ((shape && shape_of(shape, numbers)) || begin((Tree *)self)) return -1;
    uint8_t number = doorvervain_open(&opened, numbers[0], numbers[1], numbers[2]);
    if (number) {
        refuse_shape(number, shape);
        return -1;
    }
    volume_begins((Tree *)self, opened, numbers, clock);
    return 0;
}

// Raises the exception of a text with a first bad line.
static void refuse_text(PyObject *kind, uint64_t line) {
    PyObject *value = PyObject_CallFunction(kind, "K", (unsigned long long)line);
    if (value) PyErr_SetObject(kind, value);
    Py_XDECREF(value);
}

static PyObject *volume_load(PyObject *self, PyObject *words) {
    PyObject *shape, *clock;
    const char *text;
    Py_ssize_t length;
    uint16_t numbers[3];
    struct doorvervain opened = {0};
    uint64_t line = 0;
    uint8_t number;
    if (!PyArg_ParseTuple(words, "y#OO:load", &text, &length, &shape, &clock)) return NULL;
    if (shape_of(shape, numbers) || begin((Tree *)self)) return NULL;
    Py_BEGIN_ALLOW_THREADS
    number = doorvervain_load(
        &opened, numbers[0], numbers[1], numbers[2], (const uint8_t *)text, (size_t)length, &line);
    Py_END_ALLOW_THREADS
    if (number && line) refuse_text(known.bad_image, line);
    else if (number) refuse_shape(number, shape);
    if (number) return NULL;
    volume_begins((Tree *)self, opened, numbers, clock);
    Py_RETURN_NONE;
}

static PyObject *volume_clock(PyObject *self, void *unused) {
    (void)unused;
    PyObject *clock = ((Tree *)self)->clock;
    if (!clock) clock = known.time_ns;
    Py_INCREF(clock);
    return clock;
}

typedef uint8_t (*path_fn)(struct doorvervain *fs, const char *path, size_t length, uint64_t at);

// Makes a call that changes the entry at one path.
static PyObject *path_call(
    PyObject *self, PyObject *const *words, Py_ssize_t count, PyObject *named, const char *name, path_fn call) {
    const struct signature signature = {name, 1, 1, {"path", "at"}};
    Tree *tree = (Tree *)self;
    PyObject *args[4];
    struct text path;
    uint64_t timestamp;
    if (words_of(&signature, words, count, named, args) || timestamp_of(tree, args[1], &timestamp)) return NULL;
    if (text_of(args[0], &path)) return NULL;
    PyObject *done = NULL;
    if (!enter(tree)) {
        uint8_t number = call(&tree->volume, path.at, path.length, timestamp);
        leave(tree);
        done = answer(number, args[0]);
    }
    Py_DECREF(path.owner);
    return done;
}

static PyObject *volume_mkdir(PyObject *self, PyObject *const *words, Py_ssize_t count, PyObject *named) {
    return path_call(self, words, count, named, "mkdir", doorvervain_mkdir);
}

static PyObject *volume_create(PyObject *self, PyObject *const *words, Py_ssize_t count, PyObject *named) {
    return path_call(self, words, count, named, "create", doorvervain_create);
}

static PyObject *volume_unlink(PyObject *self, PyObject *const *words, Py_ssize_t count, PyObject *named) {
    return path_call(self, words, count, named, "unlink", doorvervain_unlink);
}

static PyObject *volume_rmdir(PyObject *self, PyObject *const *words, Py_ssize_t count, PyObject *named) {
    return path_call(self, words, count, named, "rmdir", doorvervain_rmdir);
}

static PyObject *volume_rmtree(PyObject *self, PyObject *const *words, Py_ssize_t count, PyObject *named) {
    return path_call(self, words, count, named, "rmtree", doorvervain_rmtree);
}

static PyObject *volume_utime(PyObject *self, PyObject *const *words, Py_ssize_t count, PyObject *named) {
    return path_call(self, words, count, named, "utime", doorvervain_set_mtime);
}

// Creates an empty file, or truncates the one that exists.
static uint8_t emptied(struct doorvervain *fs, const char *path, size_t length, uint64_t at) {
    uint8_t number = doorvervain_create(fs, path, length, at);
    return number == DOORVERVAIN_EEXIST ? doorvervain_truncate(fs, path, length, 0, at) : number;
}

static PyObject *volume_empty(PyObject *self, PyObject *const *words, Py_ssize_t count, PyObject *named) {
    return path_call(self, words, count, named, "_empty", emptied);
}

static const struct signature rename_signature = {"rename", 2, 2, {"old", "new", "at"}};

static PyObject *volume_rename(PyObject *self, PyObject *const *words, Py_ssize_t count, PyObject *named) {
    Tree *tree = (Tree *)self;
    PyObject *args[4], *done = NULL;
    struct text old = {NULL, NULL, 0}, new = {NULL, NULL, 0};
    uint64_t timestamp;
    if (words_of(&rename_signature, words, count, named, args) || timestamp_of(tree, args[2], &timestamp)) return NULL;
    if (!text_of(args[0], &old) && !text_of(args[1], &new) && !enter(tree)) {
        uint8_t number;
        Py_BEGIN_ALLOW_THREADS
        number = doorvervain_rename(&tree->volume, old.at, old.length, new.at, new.length, timestamp);
        Py_END_ALLOW_THREADS
        leave(tree);
        done = number ? refuse(number, args[0], args[1]) : answer(0, NULL);
    }
    Py_XDECREF(old.owner);
    Py_XDECREF(new.owner);
    return done;
}

static const struct signature truncate_signature = {"truncate", 2, 2, {"path", "size", "at"}};

static PyObject *volume_truncate(PyObject *self, PyObject *const *words, Py_ssize_t count, PyObject *named) {
    Tree *tree = (Tree *)self;
    PyObject *args[4], *done = NULL;
    struct text path;
    uint64_t size, timestamp;
    if (words_of(&truncate_signature, words, count, named, args) || timestamp_of(tree, args[2], &timestamp)) return NULL;
    if (place_of_bytes(args[1], args[0], &size) || text_of(args[0], &path)) return NULL;
    if (!enter(tree)) {
        uint8_t number = doorvervain_truncate(&tree->volume, path.at, path.length, size, timestamp);
        leave(tree);
        done = answer(number, args[0]);
    }
    Py_DECREF(path.owner);
    return done;
}

// The arguments of a copy.
struct copy {
    struct text from, to;
    uint64_t offset, target, count, timestamp;
};

static uint8_t copy_locked(Tree *tree, const struct copy *it, uint64_t *copied) {
    uint8_t number;
    Py_BEGIN_ALLOW_THREADS
    number = doorvervain_copy_range(&tree->volume, it->from.at, it->from.length, it->offset, it->to.at, it->to.length,
        it->target, it->count, it->timestamp, copied);
    Py_END_ALLOW_THREADS
    return number;
}

// Reads the numbers of a copy from its arguments. -1 with an exception.
static int numbers_of_copy(const Tree *tree, PyObject *const *args, struct copy *it) {
    if (place_of_bytes(args[1], args[0], &it->offset) || place_of_bytes(args[3], args[2], &it->target)) return -1;
    if (place_of_bytes(args[4], args[0], &it->count)) return -1;
    return timestamp_of(tree, args[5], &it->timestamp);
}

static const struct signature copy_range_signature = {
    "copy_range", 5, 5, {"src", "offset", "dst", "target", "count", "at"}};

static PyObject *volume_copy_range(PyObject *self, PyObject *const *words, Py_ssize_t count, PyObject *named) {
    Tree *tree = (Tree *)self;
    PyObject *args[MOST_NAMES], *done = NULL;
    struct copy it = {.from = {NULL, NULL, 0}, .to = {NULL, NULL, 0}};
    if (words_of(&copy_range_signature, words, count, named, args) || numbers_of_copy(tree, args, &it)) return NULL;
    if (!text_of(args[0], &it.from) && !text_of(args[2], &it.to) && !enter(tree)) {
        uint64_t copied;
        uint8_t number = copy_locked(tree, &it, &copied);
        leave(tree);
        done = number ? refuse(number, args[0], args[2]) : PyLong_FromUnsignedLongLong(copied);
    }
    Py_XDECREF(it.from.owner);
    Py_XDECREF(it.to.owner);
    return done;
}

// The bytes of an object that has a buffer.
static PyObject *plain_bytes(PyObject *data) {
    if (PyBytes_Check(data)) {
        Py_INCREF(data);
        return data;
    }
    PyObject *view = PyMemoryView_FromObject(data);
    PyObject *bytes = view ? PyBytes_FromObject(view) : NULL;
    Py_XDECREF(view);
    return bytes;
}

// The arguments of a write.
struct write {
    struct text path;
    uint64_t offset, timestamp;
    PyObject *bytes;
};

typedef uint8_t (*write_fn)(struct doorvervain *fs, const struct write *it);

static uint8_t write_at(struct doorvervain *fs, const struct write *it) {
    return doorvervain_write(fs, it->path.at, it->path.length, it->offset, (const uint8_t *)PyBytes_AsString(it->bytes),
        (size_t)PyBytes_Size(it->bytes), it->timestamp);
}

static uint8_t cut(struct doorvervain *fs, const struct write *it, uint64_t size) {
    return doorvervain_truncate(fs, it->path.at, it->path.length, size, it->timestamp);
}

// Replaces the content of a file, with as few calls as possible.
static uint8_t replace(struct doorvervain *fs, const struct write *it) {
    uint8_t kind;
    uint64_t size, modified, count = (uint64_t)PyBytes_Size(it->bytes);
    uint8_t number = doorvervain_stat(fs, it->path.at, it->path.length, &kind, &size, &modified);
    int is_new = number == DOORVERVAIN_ENOENT;
    if (is_new) number = doorvervain_create(fs, it->path.at, it->path.length, it->timestamp);
    if (!number && count) number = write_at(fs, it);
    return number || is_new || (count && size <= count) ? number : cut(fs, it, count);
}

// Makes a write under the lock, without the interpreter's lock if it is long.
static uint8_t write_locked(Tree *tree, const struct write *it, write_fn call) {
    uint8_t number;
    if (PyBytes_Size(it->bytes) < FEW) return call(&tree->volume, it);
    Py_BEGIN_ALLOW_THREADS
    number = call(&tree->volume, it);
    Py_END_ALLOW_THREADS
    return number;
}

// Writes, and returns how many bytes.
static PyObject *write_bytes_of(Tree *tree, PyObject *path, PyObject *data, struct write *it, write_fn call) {
    if (text_of(path, &it->path)) return NULL;
    it->bytes = plain_bytes(data);
    PyObject *done = NULL;
    if (it->bytes && !enter(tree)) {
        uint8_t number = write_locked(tree, it, call);
        leave(tree);
        done = number ? refuse(number, path, NULL) : PyLong_FromSsize_t(PyBytes_Size(it->bytes));
    }
    Py_XDECREF(it->bytes);
    Py_DECREF(it->path.owner);
    return done;
}

static const struct signature write_signature = {"write", 2, 3, {"path", "data", "offset", "at"}};

static PyObject *volume_write(PyObject *self, PyObject *const *words, Py_ssize_t count, PyObject *named) {
    Tree *tree = (Tree *)self;
    PyObject *args[4];
    struct write it;
    if (words_of(&write_signature, words, count, named, args) || timestamp_of(tree, args[3], &it.timestamp)) return NULL;
    if (place_of_bytes(args[2], args[0], &it.offset)) return NULL;
    return write_bytes_of(tree, args[0], args[1], &it, write_at);
}

static const struct signature write_bytes_signature = {"write_bytes", 2, 2, {"path", "data", "at"}};

static PyObject *volume_write_bytes(PyObject *self, PyObject *const *words, Py_ssize_t count, PyObject *named) {
    Tree *tree = (Tree *)self;
    PyObject *args[4];
    struct write it = {.offset = 0};
    if (words_of(&write_bytes_signature, words, count, named, args)) return NULL;
    if (timestamp_of(tree, args[2], &it.timestamp)) return NULL;
    return write_bytes_of(tree, args[0], args[1], &it, replace);
}

// ---- snapshots

static struct kept *kept_of(const Tree *tree, const uint8_t *name, size_t length) {
    for (size_t place = 0; tree->kept && place < SNAPSHOTS; place++) {
        struct kept *it = &tree->kept[place];
        if (it->length == length && memcmp(it->name, name, length) == 0) return it;
    }
    return NULL;
}

const uint16_t *shape_of_snapshot(const Tree *tree, const uint8_t *name, size_t length) {
    const struct kept *it = length ? kept_of(tree, name, length) : NULL;
    return it ? it->shape : tree->shape;
}

// The calls that take the name of a snapshot, each with the shape of what it keeps or restores.
static uint8_t take_snapshot(Tree *tree, const struct text *name) {
    if (!tree->kept) tree->kept = calloc(SNAPSHOTS, sizeof *tree->kept);
    if (!tree->kept) return DOORVERVAIN_ENOMEM;
    uint8_t number = doorvervain_snapshot(&tree->volume, name->at, name->length);
    struct kept *it = number ? NULL : kept_of(tree, (const uint8_t *)"", 0);
    if (!it) return number;
    memcpy(it->name, name->at, name->length);
    memcpy(it->shape, tree->shape, sizeof it->shape);
    it->length = name->length;
    return number;
}

static uint8_t drop_snapshot(Tree *tree, const struct text *name) {
    uint8_t number = doorvervain_drop_snapshot(&tree->volume, name->at, name->length);
    struct kept *it = number ? NULL : kept_of(tree, (const uint8_t *)name->at, name->length);
    if (it) it->length = 0;
    return number;
}

static uint8_t restore_snapshot(Tree *tree, const struct text *name) {
    uint8_t number = doorvervain_restore(&tree->volume, name->at, name->length);
    if (!number) memcpy(tree->shape, shape_of_snapshot(tree, (const uint8_t *)name->at, name->length), sizeof tree->shape);
    return number;
}

typedef uint8_t (*snapshot_fn)(Tree *tree, const struct text *name);

// Makes a call that takes the name of a snapshot, without the interpreter's lock if it may free a tree.
static PyObject *snapshot_call(PyObject *self, PyObject *name, snapshot_fn call, int is_long) {
    Tree *tree = (Tree *)self;
    struct text text;
    PyObject *done = NULL;
    if (text_of(name, &text)) return NULL;
    if (!enter(tree)) {
        PyThreadState *state = is_long ? PyEval_SaveThread() : NULL;
        uint8_t number = call(tree, &text);
        if (state) PyEval_RestoreThread(state);
        leave(tree);
        done = number ? refuse_name(number, name, NULL) : answer(0, NULL);
    }
    Py_DECREF(text.owner);
    return done;
}

static PyObject *volume_snapshot(PyObject *self, PyObject *name) { return snapshot_call(self, name, take_snapshot, 0); }
static PyObject *volume_drop_snapshot(PyObject *self, PyObject *name) { return snapshot_call(self, name, drop_snapshot, 1); }

// Restores a frozen tree, which may be one of another volume, with its shape. The tree that was there may be freed.
static PyObject *restore_frozen(Tree *tree, Tree *frozen) {
    uint8_t number;
    if (enter(tree)) return NULL;
    if (enter_to_look(frozen)) {
        leave(tree);
        return NULL;
    }
    Py_BEGIN_ALLOW_THREADS
    number = doorvervain_restore_frozen(&tree->volume, &frozen->frozen);
    Py_END_ALLOW_THREADS
    if (!number) memcpy(tree->shape, frozen->shape, sizeof tree->shape);
    leave(frozen);
    leave(tree);
    return answer(number, NULL);
}

static PyObject *volume_restore(PyObject *self, PyObject *from) {
    if (PyObject_TypeCheck(from, known.frozen)) return restore_frozen((Tree *)self, (Tree *)from);
    return snapshot_call(self, from, restore_snapshot, 1);
}

// Initialises a volume as the fork of a volume or a frozen tree.
static PyObject *volume_fork_of(PyObject *self, PyObject *words) {
    PyObject *given, *clock;
    struct doorvervain made = {0};
    if (!PyArg_ParseTuple(words, "O!O:fork", known.tree, &given, &clock)) return NULL;
    Tree *from = (Tree *)given;
    uint16_t shape[3];
    if (begin((Tree *)self) || enter_to_look(from)) return NULL;
    uint8_t number =
        from->frozen.ptr ? doorvervain_frozen_fork(&from->frozen, &made) : doorvervain_fork(&from->volume, &made);
    memcpy(shape, from->shape, sizeof shape);
    leave(from);
    if (number) return refuse(number, NULL, NULL);
    volume_begins((Tree *)self, made, shape, clock == Py_None && from->clock ? from->clock : clock);
    Py_RETURN_NONE;
}

// The names of all snapshots, each of which has at most NAME bytes.
struct names {
    size_t count, length[SNAPSHOTS];
    char name[SNAPSHOTS][NAME];
};

// Reads all names, under the lock: 0, or the number of the call that failed.
static uint8_t read_names(const struct doorvervain *fs, struct names *names) {
    uint8_t number = 0;
    for (names->count = 0; !number && names->count < SNAPSHOTS; names->count += !number)
        number = doorvervain_snapshot_name(fs, names->count, names->name[names->count], NAME, &names->length[names->count]);
    return number == DOORVERVAIN_ENOENT ? DOORVERVAIN_DONE : number;
}

static PyObject *volume_snapshots(PyObject *self, PyObject *unused) {
    (void)unused;
    Tree *tree = (Tree *)self;
    struct names names;
    if (enter_to_look(tree)) return NULL;
    uint8_t number = read_names(&tree->volume, &names);
    leave(tree);
    if (number) return refuse(number, NULL, NULL);
    PyObject *list = PyList_New((Py_ssize_t)names.count);
    for (size_t place = 0; list && place < names.count; place++) {
        PyObject *name = PyUnicode_FromStringAndSize(names.name[place], (Py_ssize_t)names.length[place]);
        if (!name || PyList_SetItem(list, (Py_ssize_t)place, name)) Py_CLEAR(list);
    }
    return list;
}

// ---- what differs between two trees

// A call about two trees, which are named.
struct between {
    struct signature signature;
    fill call;
    PyObject *(*result)(const struct listing *it);
};

static uint8_t look_delta(Tree *tree, const struct text *names, uint8_t *out, size_t capacity, size_t *size) {
    return doorvervain_delta(
        &tree->volume, names[0].at, names[0].length, names[1].at, names[1].length, out, capacity, size);
}

static uint8_t look_changed(Tree *tree, const struct text *names, uint8_t *out, size_t capacity, size_t *size) {
    return doorvervain_changed_paths(
        &tree->volume, names[0].at, names[0].length, names[1].at, names[1].length, out, capacity, size);
}

static PyObject *bytes_in(const struct listing *it) {
    return PyBytes_FromStringAndSize((const char *)it->at, (Py_ssize_t)it->size);
}

// The texts, each of which ends with a byte 0, as a list.
static PyObject *texts_in(const struct listing *it) {
    const char *at = (const char *)it->at, *end = at + it->size;
    PyObject *list = PyList_New(0);
    while (list && at < end) {
        size_t length = strlen(at);
        PyObject *text = PyUnicode_DecodeUTF8(at, (Py_ssize_t)length, "surrogateescape");
        if (!text || PyList_Append(list, text)) Py_CLEAR(list);
        Py_XDECREF(text);
        at += length + 1;
    }
    return list;
}

// What a call says of the trees of two names. `given` has them as the caller gave them, for errors.
static PyObject *ask_between(
    Tree *tree, const struct between *between, const struct text *names, PyObject *const *given) {
    struct listing it;
    uint8_t number;
    PyObject *result = NULL;
    it.at = it.few;
    if (enter_to_look(tree)) return NULL;
    Py_BEGIN_ALLOW_THREADS
    number = filled(tree, names, between->call, &it);
    Py_END_ALLOW_THREADS
    leave(tree);
    if (number) refuse_name(number, given[0], given[1]);
    else result = between->result(&it);
    listing_free(&it);
    return result;
}

static PyObject *between_names(
    PyObject *self, const struct between *between, PyObject *const *words, Py_ssize_t count, PyObject *named) {
    PyObject *args[4], *result = NULL;
    struct text names[2] = {{NULL, NULL, 0}, {NULL, NULL, 0}};
    if (words_of(&between->signature, words, count, named, args) || text_of(args[0], &names[0])) return NULL;
    if (!args[1] || !text_of(args[1], &names[1])) result = ask_between((Tree *)self, between, names, args);
    Py_DECREF(names[0].owner);
    Py_XDECREF(names[1].owner);
    return result;
}

static PyObject *volume_delta(PyObject *self, PyObject *const *words, Py_ssize_t count, PyObject *named) {
    static const struct between delta = {{"delta", 1, 2, {"old", "new"}}, look_delta, bytes_in};
    return between_names(self, &delta, words, count, named);
}

static PyObject *volume_changed_paths(PyObject *self, PyObject *const *words, Py_ssize_t count, PyObject *named) {
    static const struct between changed = {{"changed_paths", 1, 2, {"old", "new"}}, look_changed, texts_in};
    return between_names(self, &changed, words, count, named);
}

static PyObject *volume_apply_delta(PyObject *self, PyObject *given) {
    Tree *tree = (Tree *)self;
    char *text;
    Py_ssize_t length;
    uint64_t line = 0;
    uint8_t number;
    if (PyBytes_AsStringAndSize(given, &text, &length) || enter(tree)) return NULL;
    Py_BEGIN_ALLOW_THREADS
    number = doorvervain_apply_delta(&tree->volume, (const uint8_t *)text, (size_t)length, &line);
    Py_END_ALLOW_THREADS
    if (!number && tree->kept) memset(tree->kept, 0, SNAPSHOTS * sizeof *tree->kept);
    leave(tree);
    if (number == DOORVERVAIN_ENOENT) return refuse_as(number, "the delta begins with another tree", NULL, NULL);
    if (number != DOORVERVAIN_EINVAL) return answer(number, NULL);
    refuse_text(known.bad_delta, line);
    return NULL;
}

// ---- edits

// Doubles the memory of a listing. ENOMEM if an allocation fails.
static uint8_t grow(struct listing *it, size_t *capacity) {
    uint8_t *more = malloc(2 * *capacity);
    if (!more) return DOORVERVAIN_ENOMEM;
    memcpy(more, it->at, it->size);
    listing_free(it);
    it->at = more;
    *capacity *= 2;
    return DOORVERVAIN_DONE;
}

// Fills a listing with the text of a printer.
static uint8_t take_edits(struct doorvervain_edits *edits, struct listing *it) {
    size_t capacity = FEW, got;
    uint8_t number;
    it->size = 0;
    do {
        number = doorvervain_edits_next(edits, it->at + it->size, capacity - it->size, &got);
        it->size += got;
        if (!number && it->size == capacity) number = grow(it, &capacity);
    } while (!number && got);
    return number;
}

// The edits between the trees of two names, which are taken under the lock. `given` has the names as the caller gave them, for errors.
static PyObject *edits_of(Tree *tree, const struct text *names, PyObject *const *given) {
    struct doorvervain_edits edits;
    struct listing it;
    uint8_t number;
    PyObject *result = NULL;
    it.at = it.few;
    if (enter_to_look(tree)) return NULL;
    Py_BEGIN_ALLOW_THREADS
    number = doorvervain_edits_begin(
        &edits, &tree->volume, names[0].at, names[0].length, names[1].at, names[1].length);
    Py_END_ALLOW_THREADS
    leave(tree);
    Py_BEGIN_ALLOW_THREADS
    if (!number) number = take_edits(&edits, &it);
    doorvervain_edits_end(&edits);
    Py_END_ALLOW_THREADS
    if (number) refuse_name(number, given[0] ? given[0] : given[1], given[0] ? given[1] : NULL);
    else result = bytes_in(&it);
    listing_free(&it);
    return result;
}

static PyObject *volume_edits(PyObject *self, PyObject *const *words, Py_ssize_t count, PyObject *named) {
    static const struct signature signature = {"edits", 0, 2, {"old", "new"}};
    PyObject *args[4], *result = NULL;
    struct text names[2] = {{NULL, NULL, 0}, {NULL, NULL, 0}};
    if (words_of(&signature, words, count, named, args) || (args[0] && text_of(args[0], &names[0]))) return NULL;
    if (!args[1] || !text_of(args[1], &names[1])) result = edits_of((Tree *)self, names, args);
    Py_XDECREF(names[0].owner);
    Py_XDECREF(names[1].owner);
    return result;
}

static PyObject *refuse_edits(uint8_t number, uint64_t line) {
    char unfit[64];
    if (number == DOORVERVAIN_ENOENT) {
        snprintf(unfit, sizeof unfit, "the edit in line %llu does not fit the tree", (unsigned long long)line);
        return refuse_as(number, unfit, NULL, NULL);
    }
    if (number != DOORVERVAIN_EINVAL) return answer(number, NULL);
    refuse_text(known.bad_delta, line);
    return NULL;
}

static PyObject *volume_apply_edits(PyObject *self, PyObject *given) {
    Tree *tree = (Tree *)self;
    char *text;
    Py_ssize_t length;
    uint64_t line = 0;
    uint8_t number;
    if (PyBytes_AsStringAndSize(given, &text, &length) || enter(tree)) return NULL;
    Py_BEGIN_ALLOW_THREADS
    number = doorvervain_apply_edits(&tree->volume, text, (size_t)length, &line);
    Py_END_ALLOW_THREADS
    leave(tree);
    return refuse_edits(number, line);
}

// ---- transactions

static PyObject *volume_begin(PyObject *self, PyObject *unused) {
    (void)unused;
    Tree *tree = (Tree *)self;
    if (enter(tree)) return NULL;
    uint8_t number = doorvervain_begin(&tree->volume);
    leave(tree);
    return answer(number, NULL);
}

// Ends a transaction, without the interpreter's lock: it may free a tree.
static PyObject *end_transaction(Tree *tree, uint8_t (*call)(struct doorvervain *fs)) {
    uint8_t number;
    if (enter(tree)) return NULL;
    Py_BEGIN_ALLOW_THREADS
    number = call(&tree->volume);
    Py_END_ALLOW_THREADS
    leave(tree);
    return number == DOORVERVAIN_EINVAL ? refuse_as(number, "no transaction is open", NULL, NULL) : answer(number, NULL);
}

static PyObject *volume_commit(PyObject *self, PyObject *unused) {
    (void)unused;
    return end_transaction((Tree *)self, doorvervain_commit);
}

static PyObject *volume_rollback(PyObject *self, PyObject *unused) {
    (void)unused;
    return end_transaction((Tree *)self, doorvervain_rollback);
}

// ---- compaction

// How many steps are done between two looks at signals: some milliseconds.
enum { STEPS_AT_ONCE = 1000 };

// Compacts piece by piece, under the lock; handlers of signals run in between. -1 with the exception of one.
static int compact_pieces(Tree *tree, uint64_t steps, uint64_t *done) {
    uint32_t piece, got;
    *done = 0;
    do {
        piece = steps - *done < STEPS_AT_ONCE ? (uint32_t)(steps - *done) : STEPS_AT_ONCE;
        Py_BEGIN_ALLOW_THREADS
        got = doorvervain_compact(&tree->volume, piece);
        Py_END_ALLOW_THREADS
        *done += got;
        if (PyErr_CheckSignals()) return -1;
    } while (got == piece && *done < steps);
    return 0;
}

static const struct signature compact_signature = {"compact", 0, 1, {"steps"}};

static PyObject *volume_compact(PyObject *self, PyObject *const *words, Py_ssize_t count, PyObject *named) {
    Tree *tree = (Tree *)self;
    PyObject *args[4];
    uint64_t steps = UINT64_MAX, done = 0;
    int below = 0;
    if (words_of(&compact_signature, words, count, named, args) || enter(tree)) return NULL;
    if (args[0] && args[0] != Py_None && bytes_of(args[0], &steps, &below)) {
        leave(tree);
        return NULL;
    }
    int open = is_open(tree), interrupted = compact_pieces(tree, steps, &done);
    leave(tree);
    if (interrupted) return NULL;
    return open ? PyLong_FromUnsignedLongLong(done) : refuse(DOORVERVAIN_CLOSED, NULL, NULL);
}

// ---- the type

static PyMethodDef volume_methods[] = {
    {"_load", volume_load, METH_VARARGS, "Initialises the volume from an image."},
    {"_fork_of", volume_fork_of, METH_VARARGS, "Initialises the volume as the fork of a volume or a frozen tree."},
    {"mkdir", FAST(volume_mkdir), "mkdir($self, /, path, *, at=None)\n--\n\nCreates an empty directory."},
    {"create", FAST(volume_create),
        "create($self, /, path, *, at=None)\n--\n\nCreates an empty file."},
    {"unlink", FAST(volume_unlink),
        "unlink($self, /, path, *, at=None)\n--\n\nRemoves a file. A directory is a PermissionError."},
    {"rmdir", FAST(volume_rmdir), "rmdir($self, /, path, *, at=None)\n--\n\nRemoves an empty directory."},
    {"rmtree", FAST(volume_rmtree),
        "rmtree($self, /, path, *, at=None)\n--\n\nRemoves a file, or a directory with everything below it."},
    {"rename", FAST(volume_rename),
        "rename($self, /, old, new, *, at=None)\n--\n\n"
        "Moves the entry at the first path, with everything below it, to the second. A file replaces a file there, and a\n"
        "directory an empty directory."},
    {"utime", FAST(volume_utime),
        "utime($self, /, path, *, at=None)\n--\n\n"
        "Sets the mtime of a file or directory, and changes nothing else.\n\n"
        ">>> volume = Volume()\n"
        ">>> volume.mkdir(\"/a\")\n"
        ">>> volume.utime(\"/a\", at=7)\n"
        ">>> volume.stat(\"/a\").modified\n"
        "7"},
    {"truncate", FAST(volume_truncate),
        "truncate($self, /, path, size, *, at=None)\n--\n\n"
        "Truncates a file to `size` bytes, or extends it to them with zeros."},
    {"write", FAST(volume_write),
        "write($self, /, path, data, offset=0, *, at=None)\n--\n\n"
        "Writes bytes to a file at the offset, and extends it if they reach past its end. The write is atomic. Returns how\n"
        "many bytes."},
    {"copy_range", FAST(volume_copy_range),
        "copy_range($self, /, src, offset, dst, target, count, *, at=None)\n--\n\n"
        "Copies `count` bytes of a file from `offset` on, as far as it has them, to the file `dst` from `target` on, which exists\n"
        "and may be the same one. The tree is the same as after a write of these bytes. If both offsets are multiples of 4,096,\n"
        "whole blocks are shared. The copy is atomic. Returns how many bytes.\n\n"
        ">>> volume = Volume()\n"
        ">>> _ = volume.write_bytes(\"/a\", b\"some rain\")\n"
        ">>> volume.create(\"/b\")\n"
        ">>> volume.copy_range(\"/a\", 5, \"/b\", 0, 100)\n"
        "4\n"
        ">>> volume.read(\"/b\")\n"
        "b'rain'"},
    {"write_bytes", FAST(volume_write_bytes),
        "write_bytes($self, /, path, data, *, at=None)\n--\n\n"
        "Replaces the content of a file, which is created if it does not exist."},
    {"_empty", FAST(volume_empty),
        "_empty($self, /, path, *, at=None)\n--\n\nCreates an empty file, or truncates the one that exists."},
    {"snapshot", volume_snapshot, METH_O,
        "snapshot($self, name, /)\n--\n\n"
        "Takes a snapshot under a name: 1 to 64 letters, digits, `.`, `_` and `-`. A volume has at most 64, and one more is an\n"
        "OSError with ENOSPC. Frozen trees and forks have no such limit.\n\n"
        ">>> volume = Volume()\n"
        ">>> volume.snapshot(\"empty\")\n"
        ">>> volume.create(\"/x\")\n"
        ">>> volume.restore(\"empty\")\n"
        ">>> volume.listdir(), volume.snapshots()\n"
        "([], ['empty'])\n"},
    {"drop_snapshot", volume_drop_snapshot, METH_O, "drop_snapshot($self, name, /)\n--\n\nDrops a snapshot."},
    {"restore", volume_restore, METH_O,
        "restore($self, source, /)\n--\n\n"
        "Restores the volume's tree from the snapshot of that name, or from a frozen tree, also one of another volume. Either is\n"
        "kept."},
    {"snapshots", volume_snapshots, METH_NOARGS, "snapshots($self, /)\n--\n\nThe names of the snapshots, in order."},
    {"changed_paths", FAST(volume_changed_paths),
        "changed_paths($self, /, old, new='')\n--\n\n"
        "The paths at which two trees differ, a directory before what is below it. Each tree is the snapshot of that name; an empty\n"
        "name is the current tree. A path is listed if its entry came or went, or has another kind, mtime or size, or other bytes.\n"
        "It takes as long as what was changed, whatever the size of the tree.\n\n"
        ">>> volume = Volume()\n"
        ">>> volume.create(\"/x\")\n"
        ">>> volume.snapshot(\"yesterday\")\n"
        ">>> volume.create(\"/y\")\n"
        ">>> volume.changed_paths(\"yesterday\")\n"
        "['/', '/y']\n"},
    {"delta", FAST(volume_delta),
        "delta($self, /, old, new='')\n--\n\n"
        "The delta from one tree to another, as text for `apply_delta`. Each is the snapshot of that name; an empty name is the\n"
        "current tree.\n\n"
        ">>> near, far = Volume(), Volume()\n"
        ">>> near.snapshot(\"sent\")\n"
        ">>> near.create(\"/x\")\n"
        ">>> far.apply_delta(near.delta(\"sent\"))\n"
        ">>> far.listdir()\n"
        "['x']\n"},
    {"apply_delta", volume_apply_delta, METH_O,
        "apply_delta($self, text, /)\n--\n\n"
        "Applies a delta to the tree. Afterwards the volume is like one that was just loaded: its snapshots are dropped. The delta\n"
        "of another tree is a FileNotFoundError, and a text that is not a delta a `BadDelta`."},
    {"edits", FAST(volume_edits),
        "edits($self, /, old='', new='')\n--\n\n"
        "The edits from one tree to another, as text for `apply_edits`. Each is the snapshot of that name; an empty name is the\n"
        "current tree. It takes as long as what was changed, whatever the size of the tree.\n\n"
        ">>> near, far = Volume(), Volume()\n"
        ">>> near.snapshot(\"sent\")\n"
        ">>> near.create(\"/x\")\n"
        ">>> far.apply_edits(near.edits(\"sent\"))\n"
        ">>> far.listdir()\n"
        "['x']\n"},
    {"apply_edits", volume_apply_edits, METH_O,
        "apply_edits($self, text, /)\n--\n\n"
        "Applies edits to the tree, all of them or none. Snapshots stay. An edit that does not fit the tree is a FileNotFoundError,\n"
        "and a text that is not one of edits a `BadDelta`; either names the line."},
    {"begin", volume_begin, METH_NOARGS,
        "begin($self, /)\n--\n\n"
        "Begins a transaction, in constant time, which `commit` or `rollback` ends. `transaction` does all three, and says what\n"
        "fails meanwhile.\n\n"
        ">>> volume = Volume()\n"
        ">>> volume.begin()\n"
        ">>> volume.create(\"/x\")\n"
        ">>> volume.rollback()\n"
        ">>> volume.listdir()\n"
        "[]\n"},
    {"commit", volume_commit, METH_NOARGS,
        "commit($self, /)\n--\n\n"
        "Ends a transaction, and keeps its changes. If none is open, that is an OSError with EINVAL."},
    {"rollback", volume_rollback, METH_NOARGS,
        "rollback($self, /)\n--\n\n"
        "Ends a transaction, and undoes its changes. If none is open, that is an OSError with EINVAL."},
    {"compact", FAST(volume_compact),
        "compact($self, /, steps=None)\n--\n\n"
        "Compacts the trees: moves pending changes down, by at most `steps` steps, or all of them. Returns how many steps it did:\n"
        "fewer if nothing is pending, or if no step has room, and none while a transaction is open. No result changes, but later\n"
        "read-only calls take less time."},
    {NULL, NULL, 0, NULL},
};

static PyGetSetDef volume_properties[] = {
    {"_clock", volume_clock, NULL, "Its clock.", NULL},
    {NULL, NULL, NULL, NULL, NULL},
};

static PyType_Slot volume_slots[] = {
    {Py_tp_doc, "A tree of directories and files in memory, with snapshots."},
    {Py_tp_init, volume_init},
    {Py_tp_methods, volume_methods},
    {Py_tp_getset, volume_properties},
    {0, NULL},
};

PyType_Spec volume_spec = {"doorvervain._core.Volume", sizeof(Tree), 0, MORE, volume_slots};
