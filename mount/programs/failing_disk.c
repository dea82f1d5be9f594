// A disk that fails, for a program into which this is preloaded: it intercepts writes and syncs of files in the directory
// FAILING_STORE. If the file FAILING_DISK has the word `sync`, syncs fail; with `write`, writes fail too; with another word,
// both fail for a file whose name begins with that word and a dot. Each sync takes FAILING_DELAY milliseconds more.
//
// Invariant: after each sync that was done, the file of the same name in the directory FAILING_SYNCED has the length that
// was synced, which a loss of power leaves at least.
#define _GNU_SOURCE
#include <dlfcn.h>
#include <errno.h>
#include <fcntl.h>
#include <limits.h>
#include <stdio.h>
#include <stdlib.h>
#include <string.h>
#include <sys/stat.h>
#include <unistd.h>

// The name of an open file below the store; null where it is none.
static const char *name_of(int file, char path[PATH_MAX]) {
    char link[64];
    const char *store = getenv("FAILING_STORE");
    snprintf(link, sizeof link, "/proc/self/fd/%d", file);
    ssize_t length = store ? readlink(link, path, PATH_MAX - 1) : -1;
    if (length < 0) return 0;
    path[length] = 0;
    return strncmp(path, store, strlen(store)) || path[strlen(store)] != '/' ? 0 : strrchr(path, '/') + 1;
}

static int fails(int file, const char *what) {
    char path[PATH_MAX], word[16] = "";
    const char *control = getenv("FAILING_DISK"), *name = control ? name_of(file, path) : 0;
    FILE *wanted = name ? fopen(control, "re") : 0;
    if (!wanted) return 0;
    if (fscanf(wanted, "%15s", word) != 1) word[0] = 0;
    fclose(wanted);
    size_t length = strlen(word);
    return !strcmp(word, what) || !strcmp(word, "write") || (!strncmp(name, word, length) && name[length] == '.');
}

// The length of a file without the zeros at its end.
static long length_of(const char *path) {
    FILE *file = fopen(path, "re");
    if (!file || fseek(file, 0, SEEK_END)) abort();
    long end = ftell(file);
    char block[4096];
    while (end > 0) {
        long count = end % (long)sizeof block ? end % (long)sizeof block : (long)sizeof block;
        if (fseek(file, end - count, SEEK_SET) || fread(block, 1, (size_t)count, file) != (size_t)count) abort();
        long last = count;
        while (last && !block[last - 1]) last--;
        end -= count - last;
        if (last) break;
    }
    fclose(file);
    return end;
}

static void note(int file) {
    char path[PATH_MAX], to[2 * PATH_MAX], part[2 * PATH_MAX + 8];
    struct stat stat;
    const char *folder = getenv("FAILING_SYNCED"), *name = folder ? name_of(file, path) : 0;
    if (!name || fstat(file, &stat) || !S_ISREG(stat.st_mode)) return;
    snprintf(to, sizeof to, "%s/%s", folder, name);
    snprintf(part, sizeof part, "%s.new", to); // a log has its own name with .part
    FILE *out = fopen(part, "we");
    if (!out) abort();
    fprintf(out, "%ld\n", length_of(path));
    if (fclose(out) || rename(part, to)) abort();
}

static int sync_by(const char *name, int file) {
    int (*real)(int) = (int (*)(int))dlsym(RTLD_NEXT, name);
    const char *delay = getenv("FAILING_DELAY");
    if (delay) usleep((useconds_t)atoi(delay) * 1000);
    if (fails(file, "sync")) return errno = EIO, -1;
    int done = real(file);
    if (!done) note(file);
    return done;
}

int fsync(int file) { return sync_by("fsync", file); }

int fdatasync(int file) { return sync_by("fdatasync", file); }

// What is torn is torn on the way.
ssize_t write(int file, const void *bytes, size_t count) {
    ssize_t (*real)(int, const void *, size_t) = (ssize_t(*)(int, const void *, size_t))dlsym(RTLD_NEXT, "write");
    if (!fails(file, "write")) return real(file, bytes, count);
    return count > 1 ? real(file, bytes, count / 2) : (errno = EIO, -1);
}

ssize_t pwrite(int file, const void *bytes, size_t count, off_t at) {
    ssize_t (*real)(int, const void *, size_t, off_t) =
        (ssize_t(*)(int, const void *, size_t, off_t))dlsym(RTLD_NEXT, "pwrite");
    if (!fails(file, "write")) return real(file, bytes, count, at);
    return count > 1 ? real(file, bytes, count / 2, at) : (errno = EIO, -1);
}
