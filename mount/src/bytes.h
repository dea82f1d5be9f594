// A growable buffer of bytes.
#ifndef BYTES_H
#define BYTES_H
#include <stddef.h>

struct bytes {
    char *at;
    size_t length, capacity;
};

// Makes room for so many more bytes after those that are there: 0 or ENOMEM.
int bytes_reserve(struct bytes *bytes, size_t more);
// Puts bytes after those that are there: 0 or ENOMEM.
int bytes_append(struct bytes *bytes, const void *more, size_t count);
// Puts formatted text after those that are there, without a byte 0: 0 or ENOMEM.
int bytes_print(struct bytes *bytes, const char *form, ...) __attribute__((format(printf, 2, 3)));
// Appends what is left of a file that is open: 0, or a number of <errno.h>.
int bytes_read_all(struct bytes *bytes, int file);
// Gives the room back that is left.
void bytes_fit(struct bytes *bytes);
// Frees them, and leaves none.
void bytes_free(struct bytes *bytes);
#endif
