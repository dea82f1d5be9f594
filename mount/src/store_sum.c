// The file tree.N.sum of a checkpoint ("Store" in docs/FORMATS.md).
//
// Validity: its text is exactly what is printed of its parts, and its last line has the SHA-256 digest of the lines
// before. It gets its name last: a checkpoint without it is not complete.
#include "store_inside.h"
#include <errno.h>
#include <fcntl.h>
#include <inttypes.h>
#include <stdio.h>
#include <string.h>
#include <unistd.h>

enum { LONGEST_SUM = 4096 };
static const char first_line[] = "doorvervain checkpoint 2\n";

int store_put_digest(struct bytes *out) {
    char digits[SHA256_DIGITS + 1];
    struct sha256 sum;
    int err = sha256_begin(&sum);
    if (!err) err = sha256_add(&sum, out->at, out->length);
    int other = sha256_end(&sum, digits);
    if (!err) err = other;
    return err ? err : bytes_print(out, "end %s\n", digits);
}

int store_put_salt(struct bytes *out, const struct wal_salt *salt) {
    int err = 0;
    for (size_t i = 0; !err && i < salt->length; i++) err = bytes_print(out, "%02x", salt->bytes[i]);
    return err ? err : bytes_print(out, "\n");
}

int store_print_sum(struct bytes *out, uint64_t number, const struct checkpoint_sum *sum) {
    int err = bytes_print(out, "%s%s  tree.%" PRIu64 "\n", first_line, sum->tree, number);
    if (!err && *sum->snapshots) err = bytes_print(out, "%s  snapshots.%" PRIu64 "\n", sum->snapshots, number);
    else if (!err) err = bytes_print(out, "no snapshots.%" PRIu64 "\n", number);
    if (!err) err = bytes_print(out, "log %" PRIu64 " ", number);
    if (!err) err = store_put_salt(out, &sum->salt);
    return err ? err : store_put_digest(out);
}

// ---- reading

static bool read_digits(const char **at, char out[SHA256_DIGITS + 1]) {
    if (strspn(*at, "0123456789abcdef") != SHA256_DIGITS) return false;
    memcpy(out, *at, SHA256_DIGITS);
    out[SHA256_DIGITS] = 0;
    *at += SHA256_DIGITS;
    return true;
}

static const char *behind_line(const char *at) {
    const char *end = strchr(at, '\n');
    return end ? end + 1 : at + strlen(at);
}

bool store_read_salt(const char *line, struct wal_salt *out) {
    const char *word = strrchr(line, ' ');
    out->length = WAL_SALT;
    if (!word || strlen(word) < 1 + 2 * WAL_SALT) return false;
    for (size_t i = 0; i < WAL_SALT; i++)
        if (sscanf(word + 1 + 2 * i, "%2hhx", &out->bytes[i]) != 1) return false;
    return true;
}

// Its parts, as far as they are there: whether it is the text of them is seen when they are printed.
static bool read_parts(const char *text, struct checkpoint_sum *out) {
    char line[128];
    const char *at = text + sizeof first_line - 1;
    if (!read_digits(&at, out->tree)) return false;
    at = behind_line(at);
    if (!read_digits(&at, out->snapshots)) *out->snapshots = 0;
    at = behind_line(at);
    snprintf(line, sizeof line, "%.*s", (int)(behind_line(at) - at), at);
    return store_read_salt(line, &out->salt);
}

static bool is_text_of(const char *text, uint64_t number, const struct checkpoint_sum *sum) {
    struct bytes again = {NULL};
    bool is =
        !store_print_sum(&again, number, sum) && again.length == strlen(text) && !memcmp(again.at, text, again.length);
    bytes_free(&again);
    return is;
}

static int read_text(const struct store *store, const char *name, char out[LONGEST_SUM]) {
    int file = openat(store->directory, name, O_RDONLY | O_CLOEXEC | O_NOFOLLOW);
    if (file < 0) return errno;
    ssize_t got = pread(file, out, LONGEST_SUM - 1, 0);
    int err = got < 0 ? errno : 0;
    close(file);
    out[got < 0 ? 0 : got] = 0;
    if (!err && strlen(out) != (size_t)got) *out = 0; // it has a byte 0
    return err;
}

static int refuse(const struct store *store, const char *name, const char *why) {
    store_report(store, "%s: %s", name, why);
    return EINVAL;
}

static int refuse_missing(const struct store *store, const char *name) {
    store_report(store, "%s is missing", name);
    return EINVAL;
}

int store_read_sum(const struct store *store, uint64_t number, struct checkpoint_sum *out) {
    char name[STORE_NAME], text[LONGEST_SUM];
    const char *at = text;
    *out = (struct checkpoint_sum){.version = 0};
    store_name_of(name, "tree", number, ".sum");
    int err = read_text(store, name, text);
    if (err == ENOENT) return 0;
    if (err) return refuse(store, name, strerror(err));
    out->version = 1;
    if (read_digits(&at, out->tree)) return 0;
    out->version = 2;
    bool is =
        !strncmp(text, first_line, sizeof first_line - 1) && read_parts(text, out) && is_text_of(text, number, out);
    return is ? 0 : refuse(store, name, "it was cut or changed");
}

// ---- the files

static int check_file(const struct store *store, const char *kind, uint64_t number, const char *wanted) {
    char name[STORE_NAME], path[PATH_MAX], found[SHA256_DIGITS + 1] = "";
    store_name(name, kind, number);
    if (!store_has(store, name)) return refuse_missing(store, name);
    int err = store_path(store, name, path);
    if (!err) err = sha256_of_file(path, found);
    if (err) return refuse(store, name, strerror(err));
    return strcmp(wanted, found) ? refuse(store, name, "it was cut or changed: it has not the checksum in tree.N.sum")
                                 : 0;
}

// By the rules of version 1 the snapshots have a checksum of their own.
static int check_old_snapshots(const struct store *store, uint64_t number) {
    char name[STORE_NAME], sum[STORE_NAME], path[PATH_MAX];
    store_name(name, "snapshots", number);
    store_name_of(sum, "snapshots", number, ".sum");
    bool has_file = store_has(store, name), has_sum = store_has(store, sum);
    if (!has_file && !has_sum) return 0;
    if (!has_file || !has_sum) return refuse_missing(store, has_file ? sum : name);
    return store_path(store, name, path) || image_check(path) ? EINVAL : 0;
}

int store_check_files(const struct store *store, uint64_t number, const struct checkpoint_sum *sum) {
    int err = sum->version ? check_file(store, "tree", number, sum->tree) : 0;
    if (!err && sum->version < 2) err = check_old_snapshots(store, number);
    if (!err && *sum->snapshots) err = check_file(store, "snapshots", number, sum->snapshots);
    return err;
}

bool store_is_tree_of(const struct store *store, uint64_t number, const struct checkpoint_sum *sum) {
    char name[STORE_NAME], path[PATH_MAX], found[SHA256_DIGITS + 1] = "";
    store_name(name, "tree", number);
    return !store_path(store, name, path) && !sha256_of_file(path, found) && !strcmp(sum->tree, found);
}
