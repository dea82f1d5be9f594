// The image of a tree as a file ("Image" in docs/FORMATS.md).
//
// Validity: FILE is complete, since it gets its name only after FILE.part was written and synced. FILE.sum has its
// SHA-256 digest; a file whose digest differs is refused, and one without FILE.sum is accepted with a warning.
#include "image.h"
#include "own_file.h"
#include <errno.h>
#include <fcntl.h>
#include <stdio.h>
#include <stdlib.h>
#include <string.h>
#include <sys/file.h>
#include <sys/stat.h>
#include <unistd.h>

static int join(char out[PATH_MAX], const char *file, const char *ending) {
    int length = snprintf(out, PATH_MAX, "%s%s", file, ending);
    return length < 0 || length >= PATH_MAX ? ENAMETOOLONG : 0;
}

static int report(const char *file, const char *what) {
    fprintf(stderr, "doorvervain-mount: %s: %s\n", file, what);
    return EINVAL;
}

static int report_err(const char *file, int err) {
    if (err) report(file, strerror(err));
    return err;
}

// A link is followed, so that it stays where the file that it names gets another one.
static int name_files(struct image *image, const char *file) {
    int err = realpath(file, image->file) ? 0 : join(image->file, file, "");
    if (!err) err = join(image->part, image->file, ".part");
    if (!err) err = join(image->sum_file, image->file, ".sum");
    return err ? err : join(image->sum_part, image->file, ".sum.part");
}

// Whether what stands under the name, if anything does, may be replaced.
static int try_file(const struct image *image) {
    struct stat stat;
    if (lstat(image->file, &stat)) return errno == ENOENT ? 0 : errno;
    if (!S_ISREG(stat.st_mode)) return S_ISDIR(stat.st_mode) ? EISDIR : EINVAL;
    return access(image->file, W_OK) ? errno : 0;
}

// A fifo that somebody put there is refused, and not waited for.
static int open_private(const char *name) {
    int file = open(name, O_WRONLY | O_CREAT | O_CLOEXEC | O_NOFOLLOW | O_NONBLOCK, 0600);
    if (file < 0) return -1;
    int err = own_file_check(file);
    if (!err && !fchmod(file, 0600)) return file;
    if (!err) err = errno;
    close(file);
    errno = err;
    return -1;
}

// Takes the file for this mount alone: EBUSY where another one has it, EEXIST where one left something in it.
static int lock_part(int part) {
    struct stat stat;
    if (flock(part, LOCK_EX | LOCK_NB)) return errno == EWOULDBLOCK ? EBUSY : errno;
    if (fstat(part, &stat)) return errno;
    return stat.st_size ? EEXIST : 0;
}

static int open_part(struct image *image) {
    image->out = open_private(image->part);
    if (image->out < 0) return errno;
    int err = lock_part(image->out);
    if (!err) err = sha256_begin(&image->sum);
    if (err) close(image->out);
    return err;
}

int image_open(struct image *image, const char *file) {
    int err = name_files(image, file);
    if (!err) err = try_file(image);
    if (!err) err = open_part(image);
    if (err == EBUSY) report(file, "another mount keeps its tree there");
    else if (err == EPERM) report(image->part, OWN_FILE_REFUSAL);
    else if (err == EEXIST) report(image->part, "a mount that did not end well left it: look at it, and take it away");
    else report_err(file, err);
    return err;
}

static int write_all(int file, const char *bytes, size_t count) {
    while (count) {
        ssize_t done = write(file, bytes, count);
        if (done < 0 && errno == EINTR) continue;
        if (done < 0) return errno;
        bytes += done;
        count -= (size_t)done;
    }
    return 0;
}

int image_put(struct image *image, const char *bytes, size_t count) {
    int err = write_all(image->out, bytes, count);
    return err ? err : sha256_add(&image->sum, bytes, count);
}

int image_sum(const struct image *image, char digits[SHA256_DIGITS + 1]) { return sha256_so_far(&image->sum, digits); }

static int write_sum_part(const struct image *image, const char *text) {
    int err = 0, file = open_private(image->sum_part);
    if (file < 0 || ftruncate(file, 0)) err = errno;
    if (!err) err = write_all(file, text, strlen(text));
    if (!err && fsync(file)) err = errno;
    if (file >= 0) close(file);
    return err;
}

static int sync_folder(const struct image *image) {
    char folder[PATH_MAX];
    memcpy(folder, image->file, sizeof folder);
    strrchr(folder, '/')[1] = 0;
    int open_folder = open(folder, O_RDONLY | O_DIRECTORY | O_CLOEXEC);
    if (open_folder < 0) return errno;
    int err = fsync(open_folder) ? errno : 0;
    close(open_folder);
    return err;
}

// Wherever this is cut short FILE is whole, the old one or the new one, and has its own checksum or none. FILE is on the
// disk before FILE.sum gets its name.
static int exchange(const struct image *image, bool has_sum) {
    if (unlink(image->sum_file) && errno != ENOENT) return errno;
    int err = sync_folder(image);
    if (!err && rename(image->part, image->file)) err = errno;
    if (!err) err = sync_folder(image);
    if (err || !has_sum) return err;
    return rename(image->sum_part, image->sum_file) ? errno : sync_folder(image);
}

int image_keep_as(struct image *image, const char *sum) {
    char digits[SHA256_DIGITS + 1];
    int err = sha256_end(&image->sum, digits);
    if (!err && sum) err = write_sum_part(image, sum);
    if (!err && fsync(image->out)) err = errno;
    if (!err) err = exchange(image, sum);
    close(image->out);
    return err;
}

// One line, as sha256sum(1) writes and checks it.
int image_keep(struct image *image) {
    char line[SHA256_DIGITS + PATH_MAX + 4] = "";
    int err = image_sum(image, line);
    if (err) {
        close(image->out);
        return err;
    }
    snprintf(line + SHA256_DIGITS, PATH_MAX + 4, "  %s\n", strrchr(image->file, '/') + 1);
    return image_keep_as(image, line);
}

int image_write_sum(const char *file, const char *text) {
    struct image image;
    int err = name_files(&image, file);
    if (!err) err = write_sum_part(&image, text);
    if (!err && rename(image.sum_part, image.sum_file)) err = errno;
    return err ? err : sync_folder(&image);
}

void image_drop(struct image *image) {
    char digits[SHA256_DIGITS + 1];
    sha256_end(&image->sum, digits);
    unlink(image->part);
    close(image->out);
}

// The first word of the file with a checksum: 0, ENOENT where there is no such file.
static int read_sum(const char *name, char digits[SHA256_DIGITS + 1]) {
    FILE *file = fopen(name, "re");
    if (!file) return errno;
    bool is_read = fscanf(file, "%64[0-9a-f]", digits) == 1 && strlen(digits) == SHA256_DIGITS;
    fclose(file);
    return is_read ? 0 : EINVAL;
}

int image_check(const char *file) {
    char name[PATH_MAX], expected[SHA256_DIGITS + 1] = "", found[SHA256_DIGITS + 1] = "";
    int err = join(name, file, ".sum");
    if (!err) err = read_sum(name, expected);
    if (err == ENOENT && !access(file, R_OK)) {
        report(file, "no FILE.sum stands beside it: whether it is whole is not known");
        return 0;
    }
    if (err == EINVAL) return report(name, "it has no checksum");
    if (!err || err == ENOENT) err = sha256_of_file(file, found);
    if (err) return report_err(file, err);
    return strcmp(expected, found) ? report(file, "it was cut or changed: it has not the checksum in FILE.sum") : 0;
}
