// The directory of a store: its lock file, and the names `tree.N`, `snapshots.N` and `log.N`.
//
// Invariant: one process at a time holds the lock of `lock`, and the directory belongs to the user who mounts and to
// nobody else.
#include "own_file.h"
#include "store_inside.h"
#include <dirent.h>
#include <errno.h>
#include <fcntl.h>
#include <inttypes.h>
#include <stdarg.h>
#include <stdio.h>
#include <stdlib.h>
#include <string.h>
#include <sys/file.h>
#include <sys/stat.h>
#include <syslog.h>
#include <unistd.h>

void store_report(const struct store *store, const char *form, ...) {
    char text[PATH_MAX + 512];
    va_list words;
    va_start(words, form);
    vsnprintf(text, sizeof text, form, words);
    va_end(words);
    fprintf(stderr, "doorvervain-mount: %s: %s\n", store->folder, text);
    syslog(LOG_DAEMON | LOG_ERR, "doorvervain-mount: %s: %s", store->folder, text);
}

void store_name_of(char out[STORE_NAME], const char *kind, uint64_t number, const char *ending) {
    snprintf(out, STORE_NAME, "%.9s.%" PRIu64 "%.5s", kind, number, ending);
}

void store_name(char out[STORE_NAME], const char *kind, uint64_t number) { store_name_of(out, kind, number, ""); }

int store_path(const struct store *store, const char *name, char out[PATH_MAX]) {
    int length = snprintf(out, PATH_MAX, "%s/%s", store->folder, name);
    return length < 0 || length >= PATH_MAX ? ENAMETOOLONG : 0;
}

static int refuse(const struct store *store, const char *why) {
    store_report(store, "%s", why);
    return EINVAL;
}

// What lies in the directory is believed: so nobody else may write there.
static int try_folder(const struct store *store) {
    struct stat stat;
    if (fstat(store->directory, &stat)) return errno;
    if (stat.st_uid != geteuid()) return refuse(store, "the folder is another user's");
    return stat.st_mode & (S_IWGRP | S_IWOTH) ? refuse(store, "others may write in the folder") : 0;
}

static int take_lock(struct store *store) {
    store->lock_file = openat(store->directory, "lock", O_RDWR | O_CREAT | O_CLOEXEC | O_NOFOLLOW, 0600);
    if (store->lock_file < 0) return errno;
    int err = own_file_check(store->lock_file);
    if (err) return store_report(store, "lock: " OWN_FILE_REFUSAL), err;
    if (!flock(store->lock_file, LOCK_EX | LOCK_NB)) return 0;
    return errno == EWOULDBLOCK ? EBUSY : errno;
}

int store_lock(struct store *store, const char *folder) {
    snprintf(store->folder, sizeof store->folder, "%s", folder);
    int err = mkdir(folder, 0700) && errno != EEXIST ? errno : 0;
    if (!err && !realpath(folder, store->folder)) err = errno;
    if (!err) store->directory = open(store->folder, O_RDONLY | O_DIRECTORY | O_CLOEXEC);
    if (!err && store->directory < 0) err = errno;
    if (!err && try_folder(store)) return EINVAL;
    if (!err) err = take_lock(store);
    if (err == EBUSY) store_report(store, "another mount has this store");
    else if (err) store_report(store, "%s", strerror(err));
    return err;
}

int store_open_to_read(struct store *store, const char *folder) {
    snprintf(store->folder, sizeof store->folder, "%s", folder);
    int err = realpath(folder, store->folder) ? 0 : errno;
    if (!err) store->directory = open(store->folder, O_RDONLY | O_DIRECTORY | O_CLOEXEC);
    if (!err && store->directory < 0) err = errno;
    if (!err) store->lock_file = openat(store->directory, "lock", O_RDONLY | O_CLOEXEC | O_NOFOLLOW);
    if (!err && store->lock_file >= 0 && flock(store->lock_file, LOCK_SH | LOCK_NB)) err = errno;
    if (err == EWOULDBLOCK) store_report(store, "a mount has this store");
    else if (err) store_report(store, "%s", strerror(err));
    return err;
}

// The number of a name that is a kind, a number and an ending.
static bool read_number(const char *name, const char *kind, const char *ending, uint64_t *out) {
    size_t length = strlen(kind);
    char again[STORE_NAME];
    if (strncmp(name, kind, length) || name[length] != '.') return false;
    *out = strtoull(name + length + 1, NULL, 10);
    store_name_of(again, kind, *out, ending);
    return !strcmp(name, again);
}

static int compare(const void *one, const void *other) {
    uint64_t left = *(const uint64_t *)one, right = *(const uint64_t *)other;
    return left < right ? -1 : left > right;
}

// Calls a function for each name in the directory, until it answers a fault.
static int each_name(const struct store *store, int (*visit)(const struct store *, const char *, void *),
                     void *context) {
    int err = 0;
    DIR *listing = opendir(store->folder);
    if (!listing) return errno;
    for (struct dirent *entry; !err && (entry = readdir(listing));) err = visit(store, entry->d_name, context);
    closedir(listing);
    return err;
}

struct wanted {
    const char *kind, *ending;
    struct bytes *out;
};

static int note_number(const struct store *store, const char *name, void *context) {
    struct wanted *wanted = context;
    uint64_t number;
    (void)store;
    bool is = read_number(name, wanted->kind, wanted->ending, &number);
    return is ? bytes_append(wanted->out, &number, sizeof number) : 0;
}

int store_numbers(const struct store *store, const char *kind, const char *ending, struct bytes *out) {
    int err = each_name(store, note_number, &(struct wanted){kind, ending, out});
    if (!err && out->length) qsort(out->at, out->length / sizeof(uint64_t), sizeof(uint64_t), compare);
    return err;
}

bool store_has(const struct store *store, const char *name) { return !faccessat(store->directory, name, F_OK, 0); }

static bool ends_with(const char *name, const char *ending) {
    size_t length = strlen(name), last = strlen(ending);
    return length >= last && !strcmp(name + length - last, ending);
}

static bool begins_with(const char *name, const char *kind) { return !strncmp(name, kind, strlen(kind)); }

// Whether a file is of an image or log below a number, or part of one that did not become whole.
static bool is_past(const char *name, uint64_t below) {
    char *end;
    bool is_image = begins_with(name, "tree.") || begins_with(name, "snapshots.");
    if (!is_image && !begins_with(name, "log.")) return false;
    uint64_t number = strtoull(strchr(name, '.') + 1, &end, 10);
    if (ends_with(end, ".part")) return true;
    return number < below && (!*end || (is_image && !strcmp(end, ".sum")));
}

static int clear_name(const struct store *store, const char *name, void *context) {
    if (is_past(name, *(uint64_t *)context)) unlinkat(store->directory, name, 0);
    return 0;
}

void store_clear(const struct store *store, uint64_t number) { each_name(store, clear_name, &number); }
