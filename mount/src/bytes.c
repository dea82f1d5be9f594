// A buffer of bytes that grows.
//
// Invariant: `length` is at most `capacity`, and a function that fails leaves the bytes as they were.
#include "bytes.h"
#include "memlimit.h"
#include <errno.h>
#include <stdarg.h>
#include <stdio.h>
#include <stdlib.h>
#include <string.h>
#include <unistd.h>

int bytes_reserve(struct bytes *bytes, size_t more) {
    if (bytes->capacity - bytes->length >= more) return 0;
    size_t capacity = bytes->capacity * 2 > bytes->length + more ? bytes->capacity * 2 : bytes->length + more;
    char *at = mem_realloc(bytes->at, capacity);
    if (!at) return ENOMEM;
    bytes->at = at;
    bytes->capacity = capacity;
    return 0;
}

int bytes_append(struct bytes *bytes, const void *more, size_t count) {
    if (bytes_reserve(bytes, count)) return ENOMEM;
    if (count) memcpy(bytes->at + bytes->length, more, count);
    bytes->length += count;
    return 0;
}

int bytes_print(struct bytes *bytes, const char *form, ...) {
    char text[256];
    va_list words;
    va_start(words, form);
    int length = vsnprintf(text, sizeof text, form, words);
    va_end(words);
    return length < 0 || (size_t)length >= sizeof text ? ENOMEM : bytes_append(bytes, text, (size_t)length);
}

int bytes_read_all(struct bytes *bytes, int file) {
    for (;;) {
        if (bytes_reserve(bytes, 1 << 16)) return ENOMEM;
        ssize_t got = read(file, bytes->at + bytes->length, bytes->capacity - bytes->length);
        if (got < 0 && errno == EINTR) continue;
        if (got < 0) return errno;
        if (got == 0) return 0;
        bytes->length += (size_t)got;
    }
}

void bytes_fit(struct bytes *bytes) {
    char *at = mem_realloc(bytes->at, bytes->length ? bytes->length : 1);
    if (!at) return;
    bytes->at = at;
    bytes->capacity = bytes->length ? bytes->length : 1;
}

void bytes_free(struct bytes *bytes) {
    mem_free(bytes->at);
    *bytes = (struct bytes){NULL};
}
