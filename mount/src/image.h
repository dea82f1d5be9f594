// The file with the image of a tree: a mount loads it at its start, and writes it at its end.
//
// FILE is opened and checked before anything is mounted. The image is written to FILE.part, which is renamed to FILE
// when it is complete and synced; until then FILE is unchanged. FILE.sum has its SHA-256 digest, which shows later
// whether FILE was truncated or changed.
#ifndef IMAGE_H
#define IMAGE_H
#include "sha256.h"
#include <limits.h>

struct image {
    char file[PATH_MAX], part[PATH_MAX], sum_file[PATH_MAX], sum_part[PATH_MAX];
    int out; // FILE.part, which this process has locked
    struct sha256 sum;
};

// Opens it, before anything is mounted: 0, or a number of <errno.h>, with a word on standard error.
int image_open(struct image *image, const char *file);
int image_put(struct image *image, const char *bytes, size_t count);
// The checksum of what was put there so far: 0 or ENOMEM.
int image_sum(const struct image *image, char digits[SHA256_DIGITS + 1]);
// The image is whole: it gets its name, and FILE.sum its checksum. Where that fails it stays in FILE.part.
int image_keep(struct image *image);
// The same, with another text in FILE.sum; null: there is no FILE.sum.
int image_keep_as(struct image *image, const char *sum);
// Gives FILE.sum, of a FILE that stands, a text.
int image_write_sum(const char *file, const char *text);
// The image is not wanted: FILE stays as it was.
void image_drop(struct image *image);

// Whether a file is what its checksum tells. A file without one passes, with a word on standard error.
int image_check(const char *file);
#endif
