/* Makes a program's allocations fail. Preloaded into it, it counts its calls of malloc, calloc, realloc, aligned_alloc and
 * posix_memalign: those between a line "asked" and a line "told" on standard output, as long as there is no line "again", or with
 * REFUSE_WHOLE set those of the whole run.
 * REFUSE is the number of the allocation that fails, or "all". When the program ends it prints on standard error how many allocations
 * it saw, and how many failed.
 *
 * Invariant: an allocation outside of these lines is neither counted nor fails, nor do those of this file itself.
 */
#include <errno.h>
#include <stdio.h>
#include <stdlib.h>
#include <string.h>
#include <sys/syscall.h>
#include <unistd.h>

/* What the C library itself names its functions. */
extern void *__libc_malloc(size_t size);
extern void *__libc_calloc(size_t count, size_t size);
extern void *__libc_realloc(void *block, size_t size);
extern void *__libc_memalign(size_t alignment, size_t size);

static int counts;
static int ended;
static int refuses_all;
static long wanted;
static long seen;
static long refused;

/* Counts a request; whether it is refused. */
static int refuses(void)
{
    if (!counts)
        return 0;
    long number = __atomic_add_fetch(&seen, 1, __ATOMIC_SEQ_CST);
    if (!refuses_all && number != wanted)
        return 0;
    __atomic_add_fetch(&refused, 1, __ATOMIC_SEQ_CST);
    errno = ENOMEM;
    return 1;
}

void *malloc(size_t size)
{
    return refuses() ? NULL : __libc_malloc(size);
}

void *calloc(size_t count, size_t size)
{
    return refuses() ? NULL : __libc_calloc(count, size);
}

void *realloc(void *block, size_t size)
{
    return refuses() ? NULL : __libc_realloc(block, size);
}

void *aligned_alloc(size_t alignment, size_t size)
{
    return refuses() ? NULL : __libc_memalign(alignment, size);
}

int posix_memalign(void **block, size_t alignment, size_t size)
{
    void *made = refuses() ? NULL : __libc_memalign(alignment, size);
    if (made == NULL)
        return ENOMEM;
    *block = made;
    return 0;
}

/* Whether this is the line. */
static int is_line(const char *line, const void *bytes, size_t length)
{
    return length == strlen(line) && memcmp(bytes, line, length) == 0;
}

ssize_t write(int file, const void *bytes, size_t length)
{
    ssize_t written;
    if (file == STDOUT_FILENO && is_line("told\n", bytes, length))
        counts = 0;
    written = syscall(SYS_write, file, bytes, length);
    if (file == STDOUT_FILENO && is_line("again\n", bytes, length))
        ended = 1;
    if (file == STDOUT_FILENO && is_line("asked\n", bytes, length))
        counts = !ended;
    return written;
}

__attribute__((constructor)) static void begin(void)
{
    const char *which = getenv("REFUSE");
    refuses_all = which != NULL && strcmp(which, "all") == 0;
    wanted = which != NULL ? atol(which) : 0;
    counts = getenv("REFUSE_WHOLE") != NULL;
}

__attribute__((destructor)) static void end(void)
{
    char said[80];
    int length;
    counts = 0;
    length = snprintf(said, sizeof said, "requests %ld refused %ld\n", seen, refused);
    syscall(SYS_write, STDERR_FILENO, said, length);
}

/* How a program ends that does not return to the C library. */
void _exit(int status)
{
    end();
    syscall(SYS_exit_group, status);
    __builtin_unreachable();
}
