// SHA-256 digests, by libcrypto.
//
// Invariant: a digest that was begun is ended exactly once, also after an error, since that frees its context.
#include "sha256.h"
#include <errno.h>
#include <fcntl.h>
#include <openssl/evp.h>
#include <stdio.h>
#include <unistd.h>

int sha256_begin(struct sha256 *sum) {
    sum->context = EVP_MD_CTX_new();
    return sum->context && EVP_DigestInit_ex(sum->context, EVP_sha256(), NULL) ? 0 : ENOMEM;
}

int sha256_add(struct sha256 *sum, const void *bytes, size_t count) {
    return EVP_DigestUpdate(sum->context, bytes, count) ? 0 : ENOMEM;
}

int sha256_end(struct sha256 *sum, char digits[SHA256_DIGITS + 1]) {
    unsigned char bytes[SHA256_DIGITS / 2];
    unsigned count = 0;
    bool is_done = sum->context && EVP_DigestFinal_ex(sum->context, bytes, &count) && count == sizeof bytes;
    for (size_t i = 0; i < sizeof bytes && is_done; i++) snprintf(digits + 2 * i, 3, "%02x", bytes[i]);
    EVP_MD_CTX_free(sum->context);
    sum->context = NULL;
    return is_done ? 0 : ENOMEM;
}

int sha256_so_far(const struct sha256 *sum, char digits[SHA256_DIGITS + 1]) {
    struct sha256 copy = {EVP_MD_CTX_new()};
    bool is_copied = copy.context && EVP_MD_CTX_copy_ex(copy.context, sum->context);
    int err = sha256_end(&copy, digits);
    return is_copied ? err : ENOMEM;
}

void sha256_function_begin(struct sha256_function *out) { out->digest = EVP_MD_fetch(NULL, "SHA256", NULL); }

void sha256_function_end(struct sha256_function *function) {
    EVP_MD_free(function->digest);
    function->digest = NULL;
}

int sha256_of_parts(const struct sha256_function *function, const struct sha256_part *parts, size_t count,
                    unsigned char out[SHA256_DIGITS / 2]) {
    EVP_MD_CTX *context = function->digest ? EVP_MD_CTX_new() : NULL;
    bool is = context && EVP_DigestInit_ex2(context, function->digest, NULL);
    for (size_t i = 0; is && i < count; i++) is = EVP_DigestUpdate(context, parts[i].bytes, parts[i].count);
    if (is) is = EVP_DigestFinal_ex(context, out, NULL);
    EVP_MD_CTX_free(context);
    return is ? 0 : ENOMEM;
}

static int add_all(struct sha256 *sum, int file) {
    char part[1 << 16];
    for (;;) {
        ssize_t got = read(file, part, sizeof part);
        if (got < 0 && errno == EINTR) continue;
        if (got <= 0) return got < 0 ? errno : 0;
        int err = sha256_add(sum, part, (size_t)got);
        if (err) return err;
    }
}

int sha256_of_file(const char *name, char digits[SHA256_DIGITS + 1]) {
    struct sha256 sum;
    int file = open(name, O_RDONLY | O_CLOEXEC);
    if (file < 0) return errno;
    int err = sha256_begin(&sum);
    if (!err) err = add_all(&sum, file);
    int other = sha256_end(&sum, digits);
    close(file);
    return err ? err : other;
}
