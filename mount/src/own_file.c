// Whether a file that this process writes is its own: in a directory that others may write to, another user may have
// created it before.
//
// Invariant: an opened file is asked, not a path, so it cannot be replaced between the check and its use.
#include "own_file.h"
#include <errno.h>
#include <stdbool.h>
#include <sys/stat.h>
#include <unistd.h>

int own_file_check(int file) {
    struct stat stat;
    if (fstat(file, &stat)) return errno;
    bool is_own = S_ISREG(stat.st_mode) && stat.st_uid == geteuid() && !(stat.st_mode & (S_IWGRP | S_IWOTH));
    return is_own ? 0 : EPERM;
}
