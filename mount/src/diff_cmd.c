// The process of --diff: walks two trees of a mount side by side, by the names in each directory.
//
// Invariant: lines are printed in the order of names within each directory. Files with equal times are not read, which
// is right since every change of the tree has a timestamp of its own, also one that leaves the mtime as it was.
#define _GNU_SOURCE
#include "diff_cmd.h"
#include "inodes.h"
#include "text.h"
#include "backend.h"
#include <dirent.h>
#include <errno.h>
#include <fcntl.h>
#include <limits.h>
#include <stdio.h>
#include <stdlib.h>
#include <string.h>
#include <sys/stat.h>
#include <sys/sysmacros.h>
#include <sys/xattr.h>
#include <unistd.h>

enum { PIECE = 1 << 16 }; // bytes that are compared at a time

// A directory of each tree, or -1 where it has none.
struct pair {
    int old, new;
};

// The names in a directory, in their order.
struct names {
    struct dirent **at;
    int count;
};

static int is_name(const struct dirent *entry) { return strcmp(entry->d_name, ".") && strcmp(entry->d_name, ".."); }

static int by_bytes(const struct dirent **a, const struct dirent **b) { return strcmp((*a)->d_name, (*b)->d_name); }

static int names_read(int folder, struct names *out) {
    out->count = scandirat(folder, ".", &out->at, is_name, by_bytes);
    return out->count < 0 ? errno : 0;
}

static void names_free(struct names *names) {
    for (int i = 0; i < names->count; i++) free(names->at[i]);
    free(names->at);
}

// ---- one entry

static bool same_time(struct timespec a, struct timespec b) { return a.tv_sec == b.tv_sec && a.tv_nsec == b.tv_nsec; }

static bool same_marks(const struct stat *a, const struct stat *b) {
    return a->st_mode == b->st_mode && a->st_uid == b->st_uid && a->st_gid == b->st_gid;
}

static int open_in(int folder, const char *name, int flags) {
    return openat(folder, name, flags | O_NOFOLLOW | O_NONBLOCK | O_CLOEXEC);
}

// Reads a piece whole, or up to the end of the file.
static ssize_t read_piece(int file, char *out, off_t at) {
    size_t got = 0;
    ssize_t more = 1;
    while (got < PIECE && more > 0) {
        more = pread(file, out + got, PIECE - got, at + (off_t)got);
        if (more > 0) got += (size_t)more;
    }
    return more < 0 ? -1 : (ssize_t)got;
}

static int compare_bytes(struct pair files, off_t size, bool *same) {
    static char old[PIECE], new[PIECE];
    for (off_t at = 0; at < size && *same; at += PIECE) {
        ssize_t had = read_piece(files.old, old, at), has = read_piece(files.new, new, at);
        if (had < 0 || has < 0) return errno;
        *same = had == has && !memcmp(old, new, (size_t)had);
    }
    return 0;
}

// The extended attributes of an entry one after the other: name, length and value.
static int extended_of(int file, struct bytes *out) {
    static char names[XATTR_LIST_MAX], value[XATTR_SIZE_MAX];
    ssize_t count = flistxattr(file, names, sizeof names);
    int err = count < 0 && errno != EOPNOTSUPP ? errno : 0;
    for (ssize_t at = 0; !err && at < count; at += (ssize_t)strlen(names + at) + 1) {
        ssize_t length = fgetxattr(file, names + at, value, sizeof value);
        if (length < 0) return errno;
        err = bytes_append(out, names + at, strlen(names + at) + 1);
        if (!err) err = bytes_append(out, &length, sizeof length);
        if (!err) err = bytes_append(out, value, (size_t)length);
    }
    return err;
}

static int compare_extended(struct pair files, bool *same) {
    struct bytes old = {NULL}, new = {NULL};
    int err = extended_of(files.old, &old);
    if (!err) err = extended_of(files.new, &new);
    if (!err) *same = old.length == new.length && (!old.length || !memcmp(old.at, new.at, old.length));
    bytes_free(&old);
    bytes_free(&new);
    return err;
}

// What a file or a directory has beside what its times tell.
static int compare_inside(struct pair in, const char *name, const struct stat *stat, bool *same) {
    struct pair files = {open_in(in.old, name, O_RDONLY), open_in(in.new, name, O_RDONLY)};
    int err = files.old < 0 || files.new < 0 ? errno : 0;
    if (!err) err = compare_extended(files, same);
    if (!err && S_ISREG(stat->st_mode)) err = compare_bytes(files, stat->st_size, same);
    if (files.old >= 0) close(files.old);
    if (files.new >= 0) close(files.new);
    return err;
}

static int compare_targets(struct pair in, const char *name, bool *same) {
    char old[PATH_MAX], new[PATH_MAX];
    ssize_t had = readlinkat(in.old, name, old, sizeof old), has = readlinkat(in.new, name, new, sizeof new);
    if (had < 0 || has < 0) return errno;
    *same = had == has && !memcmp(old, new, (size_t)had);
    return 0;
}

// Whether an entry that is of one kind in both trees is the same.
static int compare(struct pair in, const char *name, const struct stat *old, const struct stat *new, bool *same) {
    *same = same_marks(old, new) && old->st_rdev == new->st_rdev;
    if (!*same || (same_time(old->st_ctim, new->st_ctim) && same_time(old->st_mtim, new->st_mtim))) return 0;
    if (S_ISLNK(old->st_mode)) return compare_targets(in, name, same);
    if (S_ISREG(old->st_mode)) *same = old->st_size == new->st_size && same_time(old->st_mtim, new->st_mtim);
    if (!*same || !(S_ISREG(old->st_mode) || S_ISDIR(old->st_mode))) return 0;
    return compare_inside(in, name, old, same);
}

// ---- what is printed

// A directory that came or went is one line, with a slash after its name, for all that is below it.
static int print_line(char sign, const struct bytes *path, mode_t mode) {
    bool is_whole = sign != 'M' && S_ISDIR(mode);
    struct bytes text = {NULL};
    int err = text_escape(&text, path->at);
    if (!err && printf("%c %.*s%s\n", sign, (int)text.length, text.at, is_whole ? "/" : "") < 0) err = EIO;
    bytes_free(&text);
    return err;
}

static int walk(struct pair in, struct bytes *path);

static int walk_below(struct pair in, const char *name, struct bytes *path) {
    struct pair below = {open_in(in.old, name, O_RDONLY | O_DIRECTORY), open_in(in.new, name, O_RDONLY | O_DIRECTORY)};
    int err = below.old < 0 || below.new < 0 ? errno : walk(below, path);
    if (below.old >= 0) close(below.old);
    if (below.new >= 0) close(below.new);
    return err;
}

static int print_kept(struct pair in, const char *name, const struct stat *old, const struct stat *new,
                      struct bytes *path) {
    bool same = true;
    int err = compare(in, name, old, new, &same);
    if (!err && !same) err = print_line('M', path, new->st_mode);
    if (!err && S_ISDIR(new->st_mode)) err = walk_below(in, name, path);
    return err;
}

// Tells of one name, which one of the directories has, or both.
static int print_name(struct pair in, const char *name, bool had, bool has, struct bytes *path) {
    struct stat old, new;
    if (had && fstatat(in.old, name, &old, AT_SYMLINK_NOFOLLOW)) return errno;
    if (has && fstatat(in.new, name, &new, AT_SYMLINK_NOFOLLOW)) return errno;
    if (had && has && (old.st_mode & S_IFMT) == (new.st_mode & S_IFMT)) return print_kept(in, name, &old, &new, path);
    int err = had ? print_line('-', path, old.st_mode) : 0;
    return err || !has ? err : print_line('+', path, new.st_mode);
}

// The same, with the path down to that name.
static int print_path(struct pair in, const char *name, bool had, bool has, struct bytes *path) {
    size_t length = path->length;
    int err = bytes_append(path, "/", 1);
    if (!err) err = bytes_append(path, name, strlen(name) + 1);
    if (!err) {
        path->length--;
        err = print_name(in, name, had, has, path);
    }
    path->length = length;
    return err;
}

static int walk_names(struct pair in, const struct names *old, const struct names *new, struct bytes *path) {
    int i = 0, k = 0, err = 0;
    while (!err && (i < old->count || k < new->count)) {
        int order = i == old->count ? 1 : k == new->count ? -1 : strcmp(old->at[i]->d_name, new->at[k]->d_name);
        const char *name = order > 0 ? new->at[k]->d_name : old->at[i]->d_name;
        err = print_path(in, name, order <= 0, order >= 0, path);
        i += order <= 0;
        k += order >= 0;
    }
    return err;
}

static int walk(struct pair in, struct bytes *path) {
    struct names old = {NULL}, new = {NULL};
    int err = names_read(in.old, &old);
    if (!err) err = names_read(in.new, &new);
    if (!err) err = walk_names(in, &old, &new, path);
    names_free(&old);
    names_free(&new);
    return err;
}

// ---- trees

static int report(const char *what, const char *which, int err) {
    fprintf(stderr, "doorvervain-mount: %s%s: %s\n", what, which, strerror(err));
    return 1;
}

int open_tree(int root, const char *name) {
    char path[sizeof SNAPSHOTS + LONGEST_SNAPSHOT + 1];
    if (!name) return openat(root, ".", O_RDONLY | O_DIRECTORY | O_CLOEXEC);
    if (!*name || strchr(name, '/') || strlen(name) > LONGEST_SNAPSHOT) {
        errno = EINVAL;
        return -1;
    }
    snprintf(path, sizeof path, "%s/%s", SNAPSHOTS, name);
    return openat(root, path, O_RDONLY | O_DIRECTORY | O_CLOEXEC);
}

static int print_between(struct pair trees) {
    struct bytes path = {NULL};
    int err = walk_below(trees, ".", &path);
    bytes_free(&path);
    if (!err && fflush(stdout)) err = errno;
    return err ? report("not all was compared", "", err) : 0;
}

int print_diff(const char *mount_point, const char *from, const char *to) {
    int root = open(mount_point, O_RDONLY | O_DIRECTORY | O_CLOEXEC);
    if (root < 0) return report("cannot open ", mount_point, errno);
    struct pair trees = {open_tree(root, from), -1};
    int status = trees.old < 0 ? report("no snapshot ", from, errno) : 0;
    if (!status) {
        trees.new = open_tree(root, to);
        status = trees.new < 0 ? report("no snapshot ", to ? to : mount_point, errno) : print_between(trees);
    }
    if (trees.old >= 0) close(trees.old);
    if (trees.new >= 0) close(trees.new);
    close(root);
    return status;
}
