// The calls of a volume as a module of Python, over the library for C: the types `Volume` and `Frozen`, and their locks. It
// keeps to the stable interface of Python 3.9, so that one build serves every later version.
//
// A volume has a read-write lock: a call that changes it holds the lock alone, and one that only looks holds it beside others
// that only look. A frozen tree has a lock of its own, which only its close holds alone. A call whose time grows with bytes or
// entries releases the interpreter's lock meanwhile; all others keep it, since releasing it takes about as long as they do.
//
// Who holds a lock beside others runs no code of Python, and makes no object that the collector knows: a finalizer might want
// the lock again, and a thread that waits to hold it alone would be in between.
#ifndef DOORVERVAIN_CORE_H
#define DOORVERVAIN_CORE_H

#define PY_SSIZE_T_CLEAN
#define Py_LIMITED_API 0x03090000
#include <Python.h>
#include <pthread.h>

#include <doorvervain.h>

// A flag of the stable interface since 3.10, which has meant the same since 3.7.
#ifndef METH_FASTCALL
#define METH_FASTCALL 0x0080
#endif

// A method that takes its arguments as an array, and some of them by name.
#define FAST(call) (PyCFunction)(void (*)(void))(call), METH_FASTCALL | METH_KEYWORDS

// How many bytes are read on the stack, and written without releasing the interpreter's lock; and from how many bytes on a
// read releases it.
enum { FEW = 1 << 14, LONG_READ = 1 << 12 };

// Volumes and frozen trees are visited as what they have in common says.
enum { MORE = Py_TPFLAGS_DEFAULT | Py_TPFLAGS_BASETYPE, COMMON = MORE | Py_TPFLAGS_HAVE_GC };

// The types of `_types.py` for results and errors, its two truth values, `time.time_ns`, the type of paths, and the types of
// the module. They live as long as the module, which is never unloaded.
struct known {
    PyObject *stat, *entry, *yes, *no, *bad_image, *bad_delta, *time_ns, *path;
    PyTypeObject *lock, *tree, *volume, *frozen;
};
extern struct known known;

// A read-write lock, reentrant for who holds it alone. `depth` says how often `holder` holds it, `readers` how many threads hold
// it beside each other: one of the two is 0. These fields are read and written by who holds the interpreter. A thread that has
// to wait notes `turn` and releases the interpreter; whoever gives the lock back while others wait makes it the next turn. New
// readers wait behind who waits to hold it alone.
//
// In the forked child of a process with threads a lock of the parent may be held by a thread that the child does not have,
// and its volume may be in the middle of a call. So each lock knows how many forks lie above the process that last took it:
// in such a child the locks of before raise an error, for good.
typedef struct {
    PyObject_HEAD
    pthread_mutex_t gate;
    pthread_cond_t next;
    unsigned long turn, holder;
    size_t depth, readers, waiting, waiting_alone, forks;
} Lock;

// Takes the lock alone, or beside others that only look. -1 with a RuntimeError if the lock is of before such a fork.
int lock_take(Lock *lock);
int lock_share(Lock *lock);

// Gives back what the one or the other took.
void lock_give(Lock *lock);

// Whether a lock is of before such a fork.
int lock_is_lost(Lock *lock);

// Has this module told of each fork of the process. -1 with an exception.
int watch_forks(PyObject *module);

// The shape of the trees of a snapshot. There is none if the name has no bytes.
enum { NAME = 64, SNAPSHOTS = 64 };
struct kept {
    uint8_t name[NAME];
    size_t length;
    uint16_t shape[3];
};

// A volume, or a tree that was frozen from one: one of the two handles is closed. `lock` is null until it is begun. `clock`
// is null for the system's. `kept` has the shapes of all snapshots, and is null until the first is taken.
typedef struct {
    PyObject_HEAD
    struct doorvervain volume;
    struct doorvervain_frozen frozen;
    Lock *lock;
    PyObject *clock;
    uint16_t shape[3];
    struct kept *kept;
} Tree;

// Takes the lock of a tree, alone or beside others that only look. -1 with an exception if the tree was never begun, or is
// lost by a fork.
int enter(Tree *tree);
int enter_to_look(Tree *tree);
void leave(Tree *tree);
int is_open(const Tree *tree);

// Initialises a tree: it gets a lock. -1 with an exception.
int begin(Tree *tree);

// The shape of the trees of a snapshot of that name; of the volume's own if there is none.
const uint16_t *shape_of_snapshot(const Tree *tree, const uint8_t *name, size_t length);

// ---- arguments and results of calls

// The bytes of a path or a name, which `owner` owns.
struct text {
    PyObject *owner;
    const char *at;
    size_t length;
};

// The bytes of a path or a name: those of `str` in UTF-8, whatever the locale, with lone surrogates for bytes that are not
// text; those of `bytes`; those of a path of a tree; and those of what os.fspath returns. -1 with an exception if there are
// none.
int text_of(PyObject *given, struct text *text);

// The parameters of a call: how many are required, how many may be given by position, and the names of all.
enum { MOST_NAMES = 6 };

struct signature {
    const char *call;
    Py_ssize_t needed, by_position;
    const char *names[MOST_NAMES];
};

// Sorts the arguments of a call by their parameters; one that is not given is null. -1 with a TypeError if they do not
// match.
int words_of(const struct signature *it, PyObject *const *words, Py_ssize_t count, PyObject *named, PyObject **out);

// The timestamp of a call: the argument, or what the clock returns. -1 with an exception.
int timestamp_of(const Tree *tree, PyObject *given, uint64_t *timestamp);

// An offset that no file reaches. With greater ones a call fails, or reads nothing, as with this one.
#define BEYOND ((uint64_t)1 << 62)

// A count or an offset of bytes. `*below` is whether it is negative, and `*bytes` is 0 then. -1 with an exception if it is
// not a number.
int bytes_of(PyObject *given, uint64_t *bytes, int *below);

// An offset: EINVAL if it is negative, and 0 if it is not given.
int place_of_bytes(PyObject *given, PyObject *path, uint64_t *place);

// Raises the exception of an error: an OSError of the subclass of its number, with the path or both paths if they are not
// null. Its text says what is wrong with a path, if that is the reason, and is else the system's. Returns null.
PyObject *refuse(uint8_t number, PyObject *path, PyObject *other);

// The same for the names of snapshots.
PyObject *refuse_name(uint8_t number, PyObject *name, PyObject *other);

// The same with a text of the caller's.
PyObject *refuse_as(uint8_t number, const char *text, PyObject *path, PyObject *other);

// None for DOORVERVAIN_DONE, else the exception of the error.
PyObject *answer(uint8_t number, PyObject *path);

// ---- texts of any size

// A listing, an image or a delta, in `few` or in memory of its own.
struct listing {
    uint8_t few[FEW];
    uint8_t *at;
    size_t size;
};

void listing_free(struct listing *it);

// A call that fills a listing; `words` are its own arguments.
typedef uint8_t (*fill)(Tree *tree, const struct text *words, uint8_t *out, size_t capacity, size_t *size);

// Fills a listing by a call that returns the capacity that it needs. The number of the call; ENOMEM if an allocation fails.
uint8_t filled(Tree *tree, const struct text *words, fill call, struct listing *it);

extern PyType_Spec lock_spec, tree_spec, frozen_spec, volume_spec;

#endif
