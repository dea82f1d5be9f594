// The read-write lock of a volume or of a frozen tree.
//
// Invariant: either one thread holds it alone, `depth` times, or `readers` threads hold it beside each other, or nobody does.
// All fields but `gate` and `next` belong to who holds the interpreter. A lock of before a fork of a process with threads
// raises an error for good (core.h).
#include "core.h"

// How many forks lie above this process; the last of them that a process with other threads made, or 0; and whether the
// process has other threads as it forks.
static size_t forks, last_lost;
static int has_threads;

static int lock_is_mine(const Lock *lock) {
    return lock->depth && lock->holder == PyThread_get_thread_ident();
}

int lock_is_lost(Lock *lock) {
    if (lock->forks == forks) return 0;
    // (a thread that began after it was asked whether there are others)
    if (lock->forks < last_lost || lock->readers || lock->waiting || (lock->depth && !lock_is_mine(lock))) return 1;
    lock->forks = forks;
    return 0;
}

static int refuses_lost(Lock *lock) {
    if (!lock_is_lost(lock)) return 0;
    PyErr_SetString(PyExc_RuntimeError,
        "the volume is of before a fork of this process, which had other threads then: use it in the parent, and here "
        "a volume that is made here, or run the child by the start method 'spawn' or 'forkserver'");
    return 1;
}

// Waits without the interpreter until the lock was given back. It may be taken by another thread again.
static void wait_for_turn(Lock *lock) {
    unsigned long turn = lock->turn;
    lock->waiting++;
    Py_BEGIN_ALLOW_THREADS
    pthread_mutex_lock(&lock->gate);
    while (lock->turn == turn) pthread_cond_wait(&lock->next, &lock->gate);
    pthread_mutex_unlock(&lock->gate);
    Py_END_ALLOW_THREADS
    lock->waiting--;
}

int lock_take(Lock *lock) {
    if (refuses_lost(lock)) return -1;
    if (lock_is_mine(lock)) {
        lock->depth++;
        return 0;
    }
    lock->waiting_alone++;
    while (lock->depth || lock->readers) wait_for_turn(lock);
    lock->waiting_alone--;
    lock->holder = PyThread_get_thread_ident();
    lock->depth = 1;
    return 0;
}

int lock_share(Lock *lock) {
    if (refuses_lost(lock)) return -1;
    if (lock_is_mine(lock)) {
        lock->depth++;
        return 0;
    }
    while (lock->depth || lock->waiting_alone) wait_for_turn(lock);
    lock->readers++;
    return 0;
}

void lock_give(Lock *lock) {
    if (lock->depth) lock->depth--;
    else lock->readers--;
    if (lock->depth || lock->readers || !lock->waiting) return;
    pthread_mutex_lock(&lock->gate);
    lock->turn++;
    pthread_cond_broadcast(&lock->next);
    pthread_mutex_unlock(&lock->gate);
}

// ---- forks

// Whether other threads of Python are there, which may be in a call.
static PyObject *before_fork(PyObject *module, PyObject *unused) {
    (void)module, (void)unused;
    PyObject *sys = PyImport_ImportModule("sys");
    PyObject *frames = sys ? PyObject_CallMethod(sys, "_current_frames", NULL) : NULL;
    has_threads = !frames || PyDict_Size(frames) > 1;
    Py_XDECREF(sys);
    Py_XDECREF(frames);
    if (!frames) return NULL;
    Py_RETURN_NONE;
}

static PyObject *after_fork(PyObject *module, PyObject *unused) {
    (void)module, (void)unused;
    forks++;
    if (has_threads) last_lost = forks;
    Py_RETURN_NONE;
}

static PyMethodDef before = {"before_fork", before_fork, METH_NOARGS, NULL};
static PyMethodDef after = {"after_fork", after_fork, METH_NOARGS, NULL};

int watch_forks(PyObject *module) {
    PyObject *os = PyImport_ImportModule("os"), *done = NULL;
    PyObject *registers = os ? PyObject_GetAttrString(os, "register_at_fork") : NULL, *none = PyTuple_New(0);
    PyObject *named = Py_BuildValue("{sNsN}", "before", PyCFunction_NewEx(&before, module, NULL), "after_in_child",
        PyCFunction_NewEx(&after, module, NULL));
    if (registers && none && named) done = PyObject_Call(registers, none, named);
    Py_XDECREF(os);
    Py_XDECREF(registers);
    Py_XDECREF(none);
    Py_XDECREF(named);
    Py_XDECREF(done);
    return done ? 0 : -1;
}

// ---- the type

static PyObject *lock_new(PyTypeObject *type, PyObject *words, PyObject *named) {
    (void)words, (void)named;
    allocfunc allocate = (allocfunc)PyType_GetSlot(type, Py_tp_alloc);
    Lock *lock = (Lock *)allocate(type, 0);
    if (!lock) return NULL;
    lock->forks = forks;
    pthread_mutex_init(&lock->gate, NULL);
    pthread_cond_init(&lock->next, NULL);
    return (PyObject *)lock;
}

static void lock_dealloc(PyObject *self) {
    PyTypeObject *type = Py_TYPE(self);
    Lock *lock = (Lock *)self;
    // (one that threads of the parent hold or wait for stays as it is)
    if (!lock_is_lost(lock)) {
        pthread_cond_destroy(&lock->next);
        pthread_mutex_destroy(&lock->gate);
    }
    ((freefunc)PyType_GetSlot(type, Py_tp_free))(self);
    Py_DECREF(type);
}

static PyObject *lock_enter(PyObject *self, PyObject *unused) {
    (void)unused;
    if (lock_take((Lock *)self)) return NULL;
    Py_INCREF(self);
    return self;
}

static PyObject *lock_exit(PyObject *self, PyObject *unused) {
    (void)unused;
    if (!lock_is_mine((Lock *)self)) {
        PyErr_SetString(PyExc_RuntimeError, "the lock is not held by this thread");
        return NULL;
    }
    lock_give((Lock *)self);
    Py_RETURN_NONE;
}

static PyMethodDef lock_methods[] = {
    {"__enter__", lock_enter, METH_NOARGS, "Acquires the lock alone."},
    {"__exit__", lock_exit, METH_VARARGS, "Releases the lock."},
    {NULL, NULL, 0, NULL},
};

static PyType_Slot lock_slots[] = {
    {Py_tp_doc, "A reentrant lock, which calls that only look hold beside each other."},
    {Py_tp_new, lock_new},
    {Py_tp_dealloc, lock_dealloc},
    {Py_tp_methods, lock_methods},
    {0, NULL},
};

PyType_Spec lock_spec = {"doorvervain._core.Lock", sizeof(Lock), 0, Py_TPFLAGS_DEFAULT, lock_slots};
