// The SHA-256 digest of a file, as sha256sum(1) prints it.
#ifndef SHA256_H
#define SHA256_H
#include <stdbool.h>
#include <stddef.h>

enum { SHA256_DIGITS = 64 };

// A checksum that is under way.
struct sha256 {
    void *context;
};

// Each answers 0 or ENOMEM. `digits` has room for a byte 0 after them. What was begun has to be ended.
int sha256_begin(struct sha256 *sum);
int sha256_add(struct sha256 *sum, const void *bytes, size_t count);
int sha256_end(struct sha256 *sum, char digits[SHA256_DIGITS + 1]);
// That of all that was added so far, to which more may be added.
int sha256_so_far(const struct sha256 *sum, char digits[SHA256_DIGITS + 1]);

// The digest of many short texts, each of some parts: libcrypto looks its function up once, which takes longer than the
// digest of a short text. Any thread may use it.
struct sha256_function {
    void *digest; // null: there is none
};
struct sha256_part {
    const void *bytes;
    size_t count;
};
void sha256_function_begin(struct sha256_function *out);
void sha256_function_end(struct sha256_function *function);
int sha256_of_parts(const struct sha256_function *function, const struct sha256_part *parts, size_t count,
                    unsigned char out[SHA256_DIGITS / 2]);

// The checksum of what a file has: 0, or a number of <errno.h>.
int sha256_of_file(const char *file, char digits[SHA256_DIGITS + 1]);
#endif
