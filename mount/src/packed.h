// Extended attributes, as the library encodes them in a record: each as its name, a byte 0, four little-endian bytes of
// its length, and its value, in ascending order of names.
#ifndef PACKED_H
#define PACKED_H
#include "bytes.h"
#include <stdbool.h>

// One of those that are packed. It takes the bytes from `at` to `end`.
struct packed {
    size_t at, end;
    const char *name, *value;
    size_t length;
};

struct packed packed_read(const struct bytes *all, size_t at);
// The one of a name: false where there is none, and then `out` is an empty one, in the place where it would stand.
bool packed_find(const struct bytes *all, const char *name, struct packed *out);
bool packed_has(const struct bytes *all, const char *name);
// All of them but one, in whose place another value stands, or none where that is null.
int packed_exchange(const struct bytes *all, const struct packed *gone, const char *name, const char *value,
                    size_t length, struct bytes *out);
// Takes the one of a name out, if it is there.
void packed_take_out(struct bytes *all, const char *name);
#endif
