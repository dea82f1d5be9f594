/* Makes a program's reads of standard input and writes to standard output fail in mid-stream. Preloaded into it, it gives the first
 * GIVEN bytes of standard input, and then fails; accepts the first TAKEN bytes of standard output, one at a time, and then fails. With
 * SIGNAL set a signal interrupts the first read and the first write; it tells at the end if there was none. With WRITES set it tells
 * how many writes to standard output there were. A variable that is not set changes nothing.
 */
#include <errno.h>
#include <stdio.h>
#include <stdlib.h>
#include <string.h>
#include <sys/syscall.h>
#include <unistd.h>

static long given = -1, taken = -1;
static long writes;
static int before_read, before_write;

/* How many bytes may pass of those that are asked for, or -1 with the error that is set. */
static ssize_t passing(long *left, int *interrupts, size_t length)
{
    if (*interrupts) {
        *interrupts = 0;
        errno = EINTR;
        return -1;
    }
    if (*left < 0 || length == 0)
        return length;
    if (*left == 0) {
        errno = EIO;
        return -1;
    }
    return length < (size_t)*left ? (ssize_t)length : *left;
}

ssize_t read(int file, void *bytes, size_t length)
{
    ssize_t most = length;
    if (file == STDIN_FILENO && (most = passing(&given, &before_read, length)) < 0)
        return -1;
    most = syscall(SYS_read, file, bytes, most);
    if (file == STDIN_FILENO && most > 0 && given > 0)
        given -= most;
    return most;
}

ssize_t write(int file, const void *bytes, size_t length)
{
    ssize_t most = length;
    writes += file == STDOUT_FILENO;
    if (file == STDOUT_FILENO && (most = passing(&taken, &before_write, length)) < 0)
        return -1;
    if (file == STDOUT_FILENO && taken > 0 && most > 1)
        most = 1;
    most = syscall(SYS_write, file, bytes, most);
    if (file == STDOUT_FILENO && most > 0 && taken > 0)
        taken -= most;
    return most;
}

/* The number that a variable has, or -1. */
static long number_of(const char *name)
{
    const char *text = getenv(name);
    return text ? atol(text) : -1;
}

__attribute__((constructor)) static void begin(void)
{
    given = number_of("GIVEN");
    taken = number_of("TAKEN");
    before_read = before_write = getenv("SIGNAL") != NULL;
}

__attribute__((destructor)) static void end(void)
{
    char told[80] = "";
    if (getenv("WRITES") != NULL)
        snprintf(told, sizeof told, "writes %ld\n", writes);
    if (before_read || before_write)
        snprintf(told, sizeof told, "no signal\n");
    syscall(SYS_write, STDERR_FILENO, told, strlen(told));
}

/* How a program ends that does not return to the C library. */
void _exit(int status)
{
    end();
    syscall(SYS_exit_group, status);
    __builtin_unreachable();
}
