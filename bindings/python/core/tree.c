// What a volume and a frozen tree have in common, the read-only calls; and frozen trees.
//
// Invariant: of the two handles at most one is open. It is used only under the lock (`enter`, `enter_to_look`), and a call
// on a closed one raises an error.
#include "core.h"

#include <stdlib.h>
#include <string.h>

// The most bytes that one call reads.
enum { MOST = 1 << 20 };

static int was_begun(const Tree *tree) {
    if (!tree->lock) refuse(DOORVERVAIN_CLOSED, NULL, NULL);
    return tree->lock != NULL;
}

int enter(Tree *tree) { return was_begun(tree) ? lock_take(tree->lock) : -1; }

int enter_to_look(Tree *tree) { return was_begun(tree) ? lock_share(tree->lock) : -1; }

void leave(Tree *tree) { lock_give(tree->lock); }

int is_open(const Tree *tree) { return tree->volume.ptr || tree->frozen.ptr; }

static uint8_t look_read(
    Tree *tree, const struct text *path, uint64_t offset, uint8_t *out, size_t capacity, size_t *got) {
    return tree->frozen.ptr ? doorvervain_frozen_read(&tree->frozen, path->at, path->length, offset, out, capacity, got)
                           : doorvervain_read(&tree->volume, path->at, path->length, offset, out, capacity, got);
}

// What stat returns.
struct stat_of {
    uint8_t kind;
    uint64_t size, modified;
};

static uint8_t look_stat(Tree *tree, const struct text *path, struct stat_of *it) {
    return tree->frozen.ptr
               ? doorvervain_frozen_stat(&tree->frozen, path->at, path->length, &it->kind, &it->size, &it->modified)
               : doorvervain_stat(&tree->volume, path->at, path->length, &it->kind, &it->size, &it->modified);
}

static uint8_t look_readdir(Tree *tree, const struct text *path, uint8_t *out, size_t capacity, size_t *size) {
    return tree->frozen.ptr ? doorvervain_frozen_readdir(&tree->frozen, path->at, path->length, out, capacity, size)
                           : doorvervain_readdir(&tree->volume, path->at, path->length, out, capacity, size);
}

// ---- reading

// Reads into a buffer until it is full or the file ends, piece by piece, without the interpreter's lock. `*done` is how many
// bytes; the number of the call.
static uint8_t read_pieces(
    Tree *tree, const struct text *path, uint64_t offset, uint8_t *out, size_t size, size_t *done) {
    size_t got = 0, piece = 0;
    uint8_t number = 0;
    *done = 0;
    Py_BEGIN_ALLOW_THREADS
    while (*done < size) {
        piece = size - *done < MOST ? size - *done : MOST;
        number = look_read(tree, path, offset + *done, out + *done, piece, &got);
        *done += got;
        if (number || got < piece) break;
    }
    Py_END_ALLOW_THREADS
    return number;
}

// What is read of a file: the number of the call, and the bytes, which are null without memory for them.
struct read {
    uint8_t number;
    PyObject *bytes;
};

// The bytes of a file from `offset` on, of which the first `has` were read, at most `size` of them.
static struct read read_many(
    Tree *tree, const struct text *path, uint64_t offset, uint64_t size, const uint8_t *front, size_t has) {
    struct stat_of it;
    struct read read = {look_stat(tree, path, &it), NULL};
    if (!read.number && it.kind == DOORVERVAIN_DIRECTORY) read.number = DOORVERVAIN_EISDIR;
    if (read.number) return read;
    uint64_t there = it.size > offset ? it.size - offset : 0;
    uint64_t want = there < size ? there : size;
    read.bytes = PyBytes_FromStringAndSize(NULL, (Py_ssize_t)want);
    if (!read.bytes) return read;
    uint8_t *out = (uint8_t *)PyBytes_AsString(read.bytes);
    if (has) memcpy(out, front, has);
    size_t got;
    read.number = read_pieces(tree, path, offset + has, out + has, (size_t)want - has, &got);
    if (read.number) Py_CLEAR(read.bytes);
    return read;
}

// The bytes of a file from `offset` on, at most `size` of them: under the lock. Of a file whose size is not known the first
// LONG_READ bytes are read with the interpreter's lock.
static struct read read_locked(Tree *tree, const struct text *path, uint64_t offset, uint64_t size) {
    uint8_t few[FEW];
    int is_short = size < LONG_READ || size >= BEYOND;
    size_t first = !is_short ? 0 : size < LONG_READ ? (size_t)size : LONG_READ, got = 0, more = 0;
    struct read read = {0, NULL};
    // A greater length is read into its result at once.
    if (size > FEW && size < BEYOND) return read_many(tree, path, offset, size, NULL, 0);
    if (is_short) read.number = look_read(tree, path, offset, few, first, &got);
    if (!read.number && got == first && got < size) {
        size_t rest = size < FEW ? (size_t)size - got : FEW - got;
        read.number = read_pieces(tree, path, offset + got, few + got, rest, &more);
        if (!read.number && more == rest && got + more < size)
            return read_many(tree, path, offset, size, few, got + more);
    }
    if (!read.number) read.bytes = PyBytes_FromStringAndSize((const char *)few, (Py_ssize_t)(got + more));
    return read;
}

static const struct signature read_signature = {"read", 1, 3, {"path", "size", "offset"}};

static PyObject *tree_read(PyObject *self, PyObject *const *words, Py_ssize_t count, PyObject *named) {
    Tree *tree = (Tree *)self;
    PyObject *args[4];
    struct text path;
    uint64_t size = BEYOND, offset = 0;
    int all = 1;
    if (words_of(&read_signature, words, count, named, args)) return NULL;
    if (args[1] && bytes_of(args[1], &size, &all)) return NULL;
    if (all) size = BEYOND;
    if (place_of_bytes(args[2], args[0], &offset) || text_of(args[0], &path)) return NULL;
    struct read read = {0, NULL};
    if (!enter_to_look(tree)) {
        read = read_locked(tree, &path, offset, size);
        leave(tree);
    }
    Py_DECREF(path.owner);
    return read.number ? refuse(read.number, args[0], NULL) : read.bytes;
}

static uint8_t look_extent(Tree *tree, const struct text *path, uint64_t offset, uint64_t *from, uint64_t *to) {
    return tree->frozen.ptr ? doorvervain_frozen_next_extent(&tree->frozen, path->at, path->length, offset, from, to)
                            : doorvervain_next_extent(&tree->volume, path->at, path->length, offset, from, to);
}

static const struct signature extent_signature = {"_next_extent", 2, 2, {"path", "offset"}};

static PyObject *tree_next_extent(PyObject *self, PyObject *const *words, Py_ssize_t count, PyObject *named) {
    Tree *tree = (Tree *)self;
    PyObject *args[4], *done = NULL;
    struct text path;
    uint64_t offset, from, to;
    if (words_of(&extent_signature, words, count, named, args) || place_of_bytes(args[1], args[0], &offset)) return NULL;
    if (text_of(args[0], &path)) return NULL;
    if (!enter_to_look(tree)) {
        uint8_t number = look_extent(tree, &path, offset, &from, &to);
        leave(tree);
        done = number ? refuse(number, args[0], NULL) : Py_BuildValue("KK", (unsigned long long)from, (unsigned long long)to);
    }
    Py_DECREF(path.owner);
    return done;
}

// ---- looking

// Calls stat: -1 with an exception, or the number of the call.
static int ask_stat(Tree *tree, PyObject *given, struct stat_of *it) {
    struct text path;
    if (text_of(given, &path)) return -1;
    int number = -1;
    if (!enter_to_look(tree)) {
        number = look_stat(tree, &path, it);
        leave(tree);
    }
    Py_DECREF(path.owner);
    return number;
}

// A tuple of one of the types of `_types.py`, which takes the references of its items. If one of them is null, the result is
// null, and the items are released.
static PyObject *tuple_of(PyObject *type, PyObject **items, Py_ssize_t count) {
    PyObject *tuple = PyType_GenericAlloc((PyTypeObject *)type, count);
    int well = tuple != NULL;
    for (Py_ssize_t place = 0; place < count; place++) {
        well = well && items[place];
        if (well) {
            PyTuple_SetItem(tuple, place, items[place]);
        } else {
            Py_XDECREF(items[place]);
        }
    }
    if (well) return tuple;
    Py_XDECREF(tuple);
    return NULL;
}

static PyObject *tree_stat(PyObject *self, PyObject *given) {
    struct stat_of it;
    int number = ask_stat((Tree *)self, given, &it);
    if (number) return number < 0 ? NULL : refuse((uint8_t)number, given, NULL);
    PyObject *items[] = {
        PyBool_FromLong(it.kind == DOORVERVAIN_DIRECTORY),
        PyLong_FromUnsignedLongLong(it.size),
        PyLong_FromUnsignedLongLong(it.modified),
    };
    return tuple_of(known.stat, items, 3);
}

// Whether the entry at a path has one of two kinds. An invalid path is an error.
static PyObject *has_kind(PyObject *self, PyObject *given, uint8_t kind, uint8_t other) {
    struct stat_of it;
    int number = ask_stat((Tree *)self, given, &it);
    if (number < 0) return NULL;
    if (number == DOORVERVAIN_ENOENT || number == DOORVERVAIN_ENOTDIR) Py_RETURN_FALSE;
    if (number) return refuse((uint8_t)number, given, NULL);
    return PyBool_FromLong(it.kind == kind || it.kind == other);
}

static PyObject *tree_exists(PyObject *self, PyObject *given) {
    return has_kind(self, given, DOORVERVAIN_DIRECTORY, DOORVERVAIN_FILE);
}

static PyObject *tree_is_dir(PyObject *self, PyObject *given) {
    return has_kind(self, given, DOORVERVAIN_DIRECTORY, DOORVERVAIN_DIRECTORY);
}

static PyObject *tree_is_file(PyObject *self, PyObject *given) {
    return has_kind(self, given, DOORVERVAIN_FILE, DOORVERVAIN_FILE);
}

// ---- listings

void listing_free(struct listing *it) {
    if (it->at != it->few) free(it->at);
}

uint8_t filled(Tree *tree, const struct text *words, fill call, struct listing *it) {
    size_t capacity = FEW;
    it->at = it->few;
    for (;;) {
        uint8_t number = call(tree, words, it->at, capacity, &it->size);
        if (number != DOORVERVAIN_ERANGE) return number;
        capacity = it->size;
        listing_free(it);
        it->at = malloc(capacity);
        if (!it->at) return DOORVERVAIN_ENOMEM;
    }
}

// Fills a listing under the lock, without the interpreter's lock. -1 with an exception.
static int ask_filled(Tree *tree, PyObject *given, fill call, struct listing *it) {
    struct text path = {NULL, NULL, 0};
    uint8_t number = 0;
    if ((given && text_of(given, &path))) return -1;
    it->at = it->few;
    int begun = !enter_to_look(tree);
    if (begun) {
        Py_BEGIN_ALLOW_THREADS
        number = filled(tree, &path, call, it);
        Py_END_ALLOW_THREADS
        leave(tree);
    }
    Py_XDECREF(path.owner);
    if (begun && !number) return 0;
    if (begun) refuse(number, given, NULL);
    listing_free(it);
    return -1;
}

// The name of an entry of a listing, and the entry after it.
static PyObject *name_at(const uint8_t **at) {
    const char *name = (const char *)*at + 1;
    size_t length = strlen(name);
    *at += length + 2;
    return PyUnicode_DecodeUTF8(name, (Py_ssize_t)length, "surrogateescape");
}

static PyObject *entry_at(const uint8_t **at) {
    PyObject *is_dir = **at == 'd' ? known.yes : known.no;
    Py_INCREF(is_dir);
    PyObject *items[] = {name_at(at), is_dir};
    return tuple_of(known.entry, items, 2);
}

static Py_ssize_t entries_in(const struct listing *it) {
    Py_ssize_t count = 0;
    for (const uint8_t *at = it->at; at < it->at + it->size; at += strlen((const char *)at) + 1) count++;
    return count;
}

// The listing of a directory as a list.
static PyObject *list_of(PyObject *self, PyObject *given, PyObject *(*item)(const uint8_t **)) {
    struct listing it;
    PyObject *path = given ? given : PyUnicode_FromString("/");
    if (!path) return NULL;
    int refused = ask_filled((Tree *)self, path, look_readdir, &it);
    if (!given) Py_DECREF(path);
    if (refused) return NULL;
    PyObject *list = PyList_New(entries_in(&it));
    const uint8_t *at = it.at;
    for (Py_ssize_t place = 0; list && at < it.at + it.size; place++) {
        PyObject *made = item(&at);
        if (made) {
            PyList_SetItem(list, place, made);
        } else {
            Py_CLEAR(list);
        }
    }
    listing_free(&it);
    return list;
}

static const struct signature listdir_signature = {"listdir", 0, 1, {"path"}};

static PyObject *tree_listdir(PyObject *self, PyObject *const *words, Py_ssize_t count, PyObject *named) {
    PyObject *args[4];
    return words_of(&listdir_signature, words, count, named, args) ? NULL : list_of(self, args[0], name_at);
}

static const struct signature scandir_signature = {"scandir", 0, 1, {"path"}};

static PyObject *tree_scandir(PyObject *self, PyObject *const *words, Py_ssize_t count, PyObject *named) {
    PyObject *args[4];
    return words_of(&scandir_signature, words, count, named, args) ? NULL : list_of(self, args[0], entry_at);
}

// ---- closing

// Frees a tree under its lock, which it holds alone, without the interpreter's lock. A closed one is left unchanged. What is
// lost by a fork is not freed: the parent's threads may be in the middle of it.
static void close_tree(Tree *tree) {
    if (!is_open(tree)) return;
    int is_lost = lock_is_lost(tree->lock);
    if (!is_lost) lock_take(tree->lock);
    struct doorvervain volume = tree->volume;
    struct doorvervain_frozen frozen = tree->frozen;
    tree->volume = (struct doorvervain){0};
    tree->frozen.ptr = NULL;
    if (is_lost) return;
    Py_BEGIN_ALLOW_THREADS
    doorvervain_close(&volume);
    doorvervain_frozen_close(&frozen);
    Py_END_ALLOW_THREADS
    leave(tree);
}

static PyObject *tree_close(PyObject *self, PyObject *unused) {
    (void)unused;
    close_tree((Tree *)self);
    Py_RETURN_NONE;
}

static PyObject *tree_closed(PyObject *self, void *unused) {
    (void)unused;
    return PyBool_FromLong(!is_open((Tree *)self));
}

static PyObject *tree_lock(PyObject *self, void *unused) {
    (void)unused;
    Lock *lock = ((Tree *)self)->lock;
    if (!lock) return refuse(DOORVERVAIN_CLOSED, NULL, NULL);
    Py_INCREF(lock);
    return (PyObject *)lock;
}

static PyObject *tree_shape(PyObject *self, void *unused) {
    (void)unused;
    const uint16_t *shape = ((Tree *)self)->shape;
    return Py_BuildValue("iii", shape[0], shape[1], shape[2]);
}

static int tree_traverse(PyObject *self, visitproc visit, void *arg) {
    Py_VISIT(Py_TYPE(self));
    Py_VISIT(((Tree *)self)->clock);
    return 0;
}

static int tree_clear(PyObject *self) {
    Py_CLEAR(((Tree *)self)->clock);
    return 0;
}

static void tree_dealloc(PyObject *self) {
    PyTypeObject *type = Py_TYPE(self);
    Tree *tree = (Tree *)self;
    PyObject_GC_UnTrack(self);
    close_tree(tree);
    tree_clear(self);
    free(tree->kept);
    Py_CLEAR(tree->lock);
    ((freefunc)PyType_GetSlot(type, Py_tp_free))(self);
    Py_DECREF(type);
}

int begin(Tree *tree) {
    if (tree->lock) {
        PyErr_SetString(PyExc_RuntimeError, "a volume or tree is begun once");
        return -1;
    }
    tree->lock = (Lock *)PyObject_CallObject((PyObject *)known.lock, NULL);
    return tree->lock ? 0 : -1;
}

// ---- frozen trees

// Freezes the tree of a volume, or that of a snapshot.
static int frozen_of(Tree *frozen, Tree *volume, PyObject *name) {
    struct text text = {NULL, NULL, 0};
    if (begin(frozen) || (name && text_of(name, &text))) return -1;
    uint8_t number = 0;
    int failed = enter_to_look(volume);
    if (!failed) {
        const uint16_t *shape = name ? shape_of_snapshot(volume, (const uint8_t *)text.at, text.length) : volume->shape;
        number = name ? doorvervain_open_snapshot(&volume->volume, text.at, text.length, &frozen->frozen)
                      : doorvervain_freeze(&volume->volume, &frozen->frozen);
        memcpy(frozen->shape, shape, sizeof frozen->shape);
        leave(volume);
        if (number) refuse_name(number, name, NULL);
    }
    Py_XDECREF(text.owner);
    return failed || number ? -1 : 0;
}

static int frozen_init(PyObject *self, PyObject *words, PyObject *named) {
    static char *names[] = {"volume", "name", NULL};
    PyObject *volume, *name = Py_None;
    if (!PyArg_ParseTupleAndKeywords(words, named, "O!|O:Frozen", names, known.volume, &volume, &name)) return -1;
    return frozen_of((Tree *)self, (Tree *)volume, name == Py_None ? NULL : name);
}

static uint8_t look_image(Tree *tree, const struct text *unused, uint8_t *out, size_t capacity, size_t *size) {
    (void)unused;
    return doorvervain_image(&tree->frozen, out, capacity, size);
}

static PyObject *frozen_image(PyObject *self, PyObject *unused) {
    (void)unused;
    struct listing it;
    if (ask_filled((Tree *)self, NULL, look_image, &it)) return NULL;
    PyObject *image = PyBytes_FromStringAndSize((const char *)it.at, (Py_ssize_t)it.size);
    listing_free(&it);
    return image;
}

// ---- the types

static PyMethodDef tree_methods[] = {
    {"read", FAST(tree_read),
        "read($self, /, path, size=-1, offset=0)\n--\n\n"
        "The bytes of a file from the offset on: at most `size` of them, or all if that is negative.\n\n"
        ">>> volume = Volume()\n"
        ">>> _ = volume.write_bytes(\"/greeting\", b\"hello, world\")\n"
        ">>> volume.read(\"/greeting\"), volume.read(\"/greeting\", 5, 7)\n"
        "(b'hello, world', b'world')\n"},
    {"_next_extent", FAST(tree_next_extent),
        "_next_extent($self, /, path, offset)\n--\n\n"
        "The bytes of a file that are stored from the offset on, up to the next hole: the first, and that after the last. Both are\n"
        "the file's size if there are none."},
    {"stat", tree_stat, METH_O,
        "stat($self, path, /)\n--\n\n"
        "The kind, size and mtime of the entry at a path.\n\n"
        ">>> volume = Volume(clock=lambda: 7)\n"
        ">>> volume.mkdir(\"/d\")\n"
        ">>> volume.stat(\"/d\")\n"
        "Stat(is_dir=True, size=0, modified=7)\n"},
    {"exists", tree_exists, METH_O, "exists($self, path, /)\n--\n\nWhether a path exists."},
    {"is_dir", tree_is_dir, METH_O, "is_dir($self, path, /)\n--\n\nWhether a path is a directory."},
    {"is_file", tree_is_file, METH_O, "is_file($self, path, /)\n--\n\nWhether a path is a file."},
    {"listdir", FAST(tree_listdir),
        "listdir($self, /, path='/')\n--\n\n"
        "The names in a directory, in the order of their bytes.\n\n"
        ">>> volume = Volume()\n"
        ">>> volume.mkdir(\"/d\"); volume.create(\"/a\")\n"
        ">>> volume.listdir()\n"
        "['a', 'd']\n"},
    {"scandir", FAST(tree_scandir),
        "scandir($self, /, path='/')\n--\n\nThe entries of a directory, in the order of their names' bytes."},
    {"close", tree_close, METH_NOARGS,
        "close($self, /)\n--\n\n"
        "Frees the tree. Later calls raise an OSError with EBADF; a second close does nothing."},
    {NULL, NULL, 0, NULL},
};

static PyGetSetDef tree_properties[] = {
    {"closed", tree_closed, NULL, "Whether it is closed.", NULL},
    {"_shape", tree_shape, NULL, "The shape of its trees.", NULL},
    {"_lock", tree_lock, NULL, "The lock that each of its calls holds: alone, or beside others that only look.", NULL},
    {NULL, NULL, NULL, NULL, NULL},
};

static PyType_Slot tree_slots[] = {
    {Py_tp_doc, "What a volume and a frozen tree have in common: the read-only calls."},
    {Py_tp_new, PyType_GenericNew},
    {Py_tp_dealloc, tree_dealloc},
    {Py_tp_traverse, tree_traverse},
    {Py_tp_clear, tree_clear},
    {Py_tp_methods, tree_methods},
    {Py_tp_getset, tree_properties},
    {0, NULL},
};

static PyMethodDef frozen_methods[] = {
    {"image", frozen_image, METH_NOARGS, "image($self, /)\n--\n\nThe tree as text."},
    {NULL, NULL, 0, NULL},
};

static PyType_Slot frozen_slots[] = {
    {Py_tp_doc, "A tree that later changes of its volume do not affect."},
    {Py_tp_init, frozen_init},
    {Py_tp_methods, frozen_methods},
    {0, NULL},
};

PyType_Spec tree_spec = {"doorvervain._core.Tree", sizeof(Tree), 0, COMMON, tree_slots};
PyType_Spec frozen_spec = {"doorvervain._core.Frozen", sizeof(Tree), 0, MORE, frozen_slots};
