// Bytes as text: percent form for paths and names, hexadecimal digits for the bytes of files.
#ifndef TEXT_H
#define TEXT_H
#include "bytes.h"

// Copies a text into so much room, cut where it is longer, and ends it with a byte 0.
void text_copy(char *out, size_t capacity, const char *text);
// Each puts something after what `out` has: 0 or ENOMEM.
int text_escape(struct bytes *out, const char *path);
// `-` stands for no bytes.
int text_hex(struct bytes *out, const char *bytes, size_t count);
#endif
