// Memory that is wanting, for a program into which this is preloaded: of what its first thread asks for, the n-th piece
// is refused. The file FAILING_MEMORY has n, as a number of 64 bits, of which each piece takes one: 0 refuses none.
#define _GNU_SOURCE
#include <errno.h>
#include <fcntl.h>
#include <stdint.h>
#include <stdlib.h>
#include <sys/mman.h>
#include <unistd.h>

void *__libc_malloc(size_t count);
void *__libc_calloc(size_t many, size_t count);
void *__libc_realloc(void *old, size_t count);

static volatile uint64_t *left;

__attribute__((constructor)) static void begin(void) {
    const char *name = getenv("FAILING_MEMORY");
    int file = name ? open(name, O_RDWR | O_CLOEXEC) : -1;
    void *at = file < 0 ? MAP_FAILED : mmap(NULL, sizeof *left, PROT_READ | PROT_WRITE, MAP_SHARED, file, 0);
    if (at == MAP_FAILED) abort();
    left = at;
    close(file);
}

static int is_refused(void) {
    if (!left || !*left || gettid() != getpid() || --*left) return 0;
    errno = ENOMEM;
    return 1;
}

void *malloc(size_t count) { return is_refused() ? NULL : __libc_malloc(count); }

void *calloc(size_t many, size_t count) { return is_refused() ? NULL : __libc_calloc(many, count); }

void *realloc(void *old, size_t count) { return is_refused() ? NULL : __libc_realloc(old, count); }
