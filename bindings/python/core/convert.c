// Converts arguments and results of calls, and raises errors.
//
// Invariant: each function that fails sets an exception, and leaves no reference behind. A text is borrowed from the object
// in `owner`, which lives as long as the text is used.
#include "core.h"

#include <string.h>
#include <time.h>

// A path or a name as `str` or `bytes`: a path of a tree by its text, all else by os.fspath. Null with an exception.
static PyObject *plain_of(PyObject *given) {
    int is_path = PyUnicode_CheckExact(given) ? 0 : PyObject_IsInstance(given, known.path);
    return is_path < 0 ? NULL : is_path ? PyObject_Str(given) : PyOS_FSPath(given);
}

int text_of(PyObject *given, struct text *text) {
    PyObject *plain = plain_of(given);
    if (!plain) return -1;
    if (PyUnicode_Check(plain)) {
        PyObject *encoded = PyUnicode_AsUTF8String(plain);
        if (!encoded && PyErr_ExceptionMatches(PyExc_UnicodeEncodeError)) {
            PyErr_Clear();
            encoded = PyUnicode_AsEncodedString(plain, "utf-8", "surrogateescape");
        }
        Py_DECREF(plain);
        if (!encoded) return -1;
        plain = encoded;
    }
    text->owner = plain;
    text->at = PyBytes_AsString(plain);
    text->length = (size_t)PyBytes_Size(plain);
    return 0;
}

// ---- errors

// What is wrong with a name of a path for that error; null if nothing is.
static const char *name_fault(uint8_t number, const char *name, size_t length) {
    if (number == DOORVERVAIN_ENAMETOOLONG) return length > 255 ? "a name has at most 255 bytes" : NULL;
    if (!length) return "a path has no empty name";
    if (length == 1 && name[0] == '.') return "a path has no name '.'";
    if (length == 2 && name[0] == '.' && name[1] == '.') return "a path has no name '..'";
    return memchr(name, 0, length) ? "a path has no null byte" : NULL;
}

// What is wrong with the text of a path, if that is why it was refused by EINVAL or ENAMETOOLONG; null if nothing is.
static const char *path_fault(uint8_t number, const struct text *path) {
    const char *at = path->at, *end = at + path->length;
    if (path->length == 1 && *at == '/') return NULL;
    if (number == DOORVERVAIN_EINVAL && path->length && *at != '/') return "a path begins with '/'";
    if (number == DOORVERVAIN_EINVAL && path->length && end[-1] == '/') return "a path does not end with '/'";
    while (at < end) {
        const char *name = at + 1, *slash = memchr(name, '/', (size_t)(end - name));
        at = slash ? slash : end;
        const char *fault = name_fault(number, name, (size_t)(at - name));
        if (fault) return fault;
    }
    return number == DOORVERVAIN_ENAMETOOLONG && path->length > 1023 ? "a path has at most 1023 bytes" : NULL;
}

// What is wrong with one path of a call; null if the system's text for the number says it, or the path is not why.
static const char *fault_of(uint8_t number, PyObject *given) {
    struct text path;
    const char *fault = NULL;
    if (!given) return NULL;
    if (text_of(given, &path)) {
        PyErr_Clear();
        return NULL;
    }
    if (number == DOORVERVAIN_ENOENT && !path.length) fault = "the path is empty";
    if (number == DOORVERVAIN_EBUSY && path.length == 1 && *path.at == '/') fault = "the root is neither removed nor moved";
    if (number == DOORVERVAIN_EINVAL || number == DOORVERVAIN_ENAMETOOLONG) fault = path_fault(number, &path);
    Py_DECREF(path.owner);
    return fault;
}

// What is wrong with two paths that are each well; null if the system's text for the number says it.
static const char *fault_of_both(uint8_t number) {
    if (number == DOORVERVAIN_EINVAL) return "a directory is not moved below itself";
    return number == DOORVERVAIN_ENAMETOOLONG ? "a path below the new one would have more than 1023 bytes" : NULL;
}

// Raises an OSError of a number and a text, or the system's text if that is null, with the paths that are not null.
static void raise_os_error(int number, const char *text, PyObject *first, PyObject *second) {
    errno = number;
    if (!text) {
        PyErr_SetFromErrnoWithFilenameObjects(PyExc_OSError, first, second);
        return;
    }
    PyObject *error = second ? PyObject_CallFunction(PyExc_OSError, "isOOO", number, text, first, Py_None, second)
                    : first  ? PyObject_CallFunction(PyExc_OSError, "isO", number, text, first)
                             : PyObject_CallFunction(PyExc_OSError, "is", number, text);
    if (error) PyErr_SetObject((PyObject *)Py_TYPE(error), error);
    Py_XDECREF(error);
}

PyObject *refuse_as(uint8_t number, const char *text, PyObject *path, PyObject *other) {
    PyObject *first = path ? plain_of(path) : NULL, *second = other ? plain_of(other) : NULL;
    if ((!path || first) && (!other || second)) raise_os_error(doorvervain_errno(number), text, first, second);
    Py_XDECREF(first);
    Py_XDECREF(second);
    return NULL;
}

PyObject *refuse(uint8_t number, PyObject *path, PyObject *other) {
    if (number == DOORVERVAIN_CLOSED) {
        raise_os_error(EBADF, "the volume or tree is closed", NULL, NULL);
        return NULL;
    }
    if (number == DOORVERVAIN_EBUSY && !path) return refuse_as(number, "a transaction is open", NULL, NULL);
    const char *fault = fault_of(number, path);
    if (!fault) fault = fault_of(number, other);
    if (!fault && other) fault = fault_of_both(number);
    return refuse_as(number, fault, path, other);
}

PyObject *refuse_name(uint8_t number, PyObject *name, PyObject *other) {
    switch (number) {
    case DOORVERVAIN_EINVAL:
        return refuse_as(number, "a snapshot's name has 1 to 64 letters, digits, '.', '_' and '-'", name, other);
    case DOORVERVAIN_ENOENT: return refuse_as(number, "no such snapshot", name, other);
    case DOORVERVAIN_EEXIST: return refuse_as(number, "a snapshot of that name exists", name, other);
    case DOORVERVAIN_EBUSY: return refuse_as(number, "a transaction is open", name, other);
    case DOORVERVAIN_ENOSPC:
        return refuse_as(
            number, "a volume has at most 64 named snapshots; frozen trees and forks have no such limit", name, other);
    default: return refuse(number, name, other);
    }
}

PyObject *answer(uint8_t number, PyObject *path) {
    if (number) return refuse(number, path, NULL);
    Py_RETURN_NONE;
}

static Py_ssize_t place_of(const struct signature *it, PyObject *name) {
    for (Py_ssize_t place = 0; place < MOST_NAMES && it->names[place]; place++) {
        if (PyUnicode_CompareWithASCIIString(name, it->names[place]) == 0) return place;
    }
    return -1;
}

int words_of(const struct signature *it, PyObject *const *words, Py_ssize_t count, PyObject *named, PyObject **out) {
    if (count > it->by_position) {
        PyErr_Format(PyExc_TypeError, "%s() takes at most %zd arguments by position", it->call, it->by_position);
        return -1;
    }
    for (Py_ssize_t place = 0; place < MOST_NAMES && it->names[place]; place++)
        out[place] = place < count ? words[place] : NULL;
    Py_ssize_t more = named ? PyTuple_Size(named) : 0;
    for (Py_ssize_t number = 0; number < more; number++) {
        PyObject *name = PyTuple_GetItem(named, number);
        Py_ssize_t place = place_of(it, name);
        if (place < 0 || out[place]) {
            PyErr_Format(PyExc_TypeError, "%s() got an unexpected or a second argument '%U'", it->call, name);
            return -1;
        }
        out[place] = words[count + number];
    }
    for (Py_ssize_t place = 0; place < it->needed; place++) {
        if (!out[place]) {
            PyErr_Format(PyExc_TypeError, "%s() lacks the argument '%s'", it->call, it->names[place]);
            return -1;
        }
    }
    return 0;
}

// A timestamp as the library has it. -1 with a TypeError if it is no whole number, as of the clock `time.time`, and with a
// ValueError if the number is out of range.
static int timestamp_of_number(PyObject *given, uint64_t *timestamp) {
    PyObject *number = PyNumber_Index(given);
    if (!number && PyErr_ExceptionMatches(PyExc_TypeError)) {
        PyErr_Clear();
        PyErr_Format(PyExc_TypeError, "a timestamp is a whole number, as time.time_ns() returns it, and not %R", given);
    }
    if (!number) return -1;
    *timestamp = PyLong_AsUnsignedLongLong(number);
    Py_DECREF(number);
    if (!PyErr_Occurred()) return 0;
    if (PyErr_ExceptionMatches(PyExc_OverflowError)) {
        PyErr_Clear();
        PyErr_Format(PyExc_ValueError, "a timestamp is a number from 0 to 2^64 - 1, and not %S", given);
    }
    return -1;
}

int timestamp_of(const Tree *tree, PyObject *given, uint64_t *timestamp) {
    if (given && given != Py_None) return timestamp_of_number(given, timestamp);
    if (!tree->clock) {
        struct timespec now;
        clock_gettime(CLOCK_REALTIME, &now);
        *timestamp = (uint64_t)now.tv_sec * 1000000000u + (uint64_t)now.tv_nsec;
        return 0;
    }
    PyObject *value = PyObject_CallObject(tree->clock, NULL);
    if (!value) return -1;
    int done = timestamp_of_number(value, timestamp);
    Py_DECREF(value);
    return done;
}

int bytes_of(PyObject *given, uint64_t *bytes, int *below) {
    PyObject *number = PyNumber_Index(given);
    if (!number) return -1;
    int over = 0;
    long long value = PyLong_AsLongLongAndOverflow(number, &over);
    Py_DECREF(number);
    if (value == -1 && PyErr_Occurred()) return -1;
    *below = over < 0 || (!over && value < 0);
    *bytes = *below ? 0 : over || (uint64_t)value > BEYOND ? BEYOND : (uint64_t)value;
    return 0;
}

int place_of_bytes(PyObject *given, PyObject *path, uint64_t *place) {
    int below = 0;
    *place = 0;
    if (given && bytes_of(given, place, &below)) return -1;
    if (below) refuse_as(DOORVERVAIN_EINVAL, "an offset or a size is not negative", path, NULL);
    return below ? -1 : 0;
}
