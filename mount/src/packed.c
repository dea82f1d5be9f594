// Finds, puts and takes out extended attributes as the library packs them.
//
// Invariant: names rise in byte order, so each is there once.
#include "packed.h"
#include <string.h>

enum { BYTES_OF_LENGTH = 4 };

struct packed packed_read(const struct bytes *all, size_t at) {
    struct packed one = {.at = at, .name = all->at + at};
    const unsigned char *length = (const unsigned char *)one.name + strlen(one.name) + 1;
    for (int i = BYTES_OF_LENGTH; i-- > 0;) one.length = one.length << 8 | length[i];
    one.value = (const char *)length + BYTES_OF_LENGTH;
    one.end = (size_t)(one.value - all->at) + one.length;
    return one;
}

bool packed_find(const struct bytes *all, const char *name, struct packed *out) {
    size_t at = 0;
    for (; at < all->length; at = out->end) {
        *out = packed_read(all, at);
        int order = strcmp(out->name, name);
        if (order == 0) return true;
        if (order > 0) break;
    }
    *out = (struct packed){.at = at, .end = at};
    return false;
}

bool packed_has(const struct bytes *all, const char *name) {
    struct packed one;
    return packed_find(all, name, &one);
}

static int append(struct bytes *out, const char *name, const char *value, size_t length) {
    char digits[BYTES_OF_LENGTH];
    for (int i = 0; i < BYTES_OF_LENGTH; i++) digits[i] = (char)(length >> 8 * i);
    int err = bytes_append(out, name, strlen(name) + 1);
    if (!err) err = bytes_append(out, digits, sizeof digits);
    return err ? err : bytes_append(out, value, length);
}

int packed_exchange(const struct bytes *all, const struct packed *gone, const char *name, const char *value,
                    size_t length, struct bytes *out) {
    int err = bytes_append(out, all->at, gone->at);
    if (!err && value) err = append(out, name, value, length);
    return err ? err : bytes_append(out, all->at + gone->end, all->length - gone->end);
}

void packed_take_out(struct bytes *all, const char *name) {
    struct packed one;
    if (!packed_find(all, name, &one)) return;
    memmove(all->at + one.at, all->at + one.end, all->length - one.end);
    all->length -= one.end - one.at;
}
