// Bytes as text: percent form of paths and names, and hexadecimal digits ("Script" in docs/FORMATS.md).
#include "text.h"
#include <errno.h>
#include <stdbool.h>
#include <string.h>

void text_copy(char *out, size_t capacity, const char *text) {
    if (!memccpy(out, text, 0, capacity)) out[capacity - 1] = 0;
}

static void put_digits(struct bytes *out, unsigned char byte, const char *digits) {
    out->at[out->length++] = digits[byte / 16];
    out->at[out->length++] = digits[byte % 16];
}

int text_escape(struct bytes *out, const char *path) {
    if (bytes_reserve(out, 3 * strlen(path))) return ENOMEM;
    for (; *path; path++) {
        unsigned char byte = (unsigned char)*path;
        bool stands = byte > 32 && byte < 127 && byte != '%';
        out->at[out->length++] = stands ? *path : '%';
        if (!stands) put_digits(out, byte, "0123456789ABCDEF");
    }
    return 0;
}

int text_hex(struct bytes *out, const char *bytes, size_t count) {
    if (count == 0) return bytes_append(out, "-", 1);
    if (bytes_reserve(out, 2 * count)) return ENOMEM;
    for (size_t i = 0; i < count; i++) put_digits(out, (unsigned char)bytes[i], "0123456789abcdef");
    return 0;
}
