// Tells how the mount ended to the process of --unmount.
//
// Invariant: only the mount holds the writing end of the pipe, so its end tells the reader that the process is gone;
// the last byte is the status, and a pipe that ends without one means that it failed.
#define _GNU_SOURCE
#include "exit_report.h"
#include "bytes.h"
#include <errno.h>
#include <fcntl.h>
#include <limits.h>
#include <poll.h>
#include <stdio.h>
#include <string.h>
#include <sys/wait.h>
#include <syslog.h>
#include <unistd.h>

enum { MILLISECONDS_OF_SILENCE = 5000 };

static int ends[2] = {-1, -1};

int exit_report_open(void) { return pipe2(ends, O_CLOEXEC) ? errno : 0; }

struct exit_report_pipe exit_report_pipe(void) {
    return (struct exit_report_pipe){getpid(), ends[1]};
}

// Nobody may wait, and then nobody reads it; the pipe has room for more than is ever said.
static void write_pipe(const char *text) {
    if (ends[1] >= 0 && write(ends[1], text, strlen(text)) < 0) return;
}

void exit_report_error(const char *what, const char *which, int err) {
    char text[PATH_MAX + 256];
    snprintf(text, sizeof text, "doorvervain-mount: %s%s: %s\n", what, which, strerror(err));
    fputs(text, stderr);
    syslog(LOG_DAEMON | LOG_ERR, "%s", text);
    write_pipe(text);
}

void exit_report_note(const char *what, int err) {
    const char *why = err ? strerror(err) : "";
    fprintf(stderr, "doorvervain-mount: %s%s\n", what, why);
    syslog(LOG_DAEMON | (err ? LOG_ERR : LOG_NOTICE), "doorvervain-mount: %s%s", what, why);
}

int exit_report_status(int status) {
    write_pipe(status ? "1" : "0");
    return status;
}

static int report(const char *what, const char *which, int err) {
    fprintf(stderr, "doorvervain-mount: %s%s: %s\n", what, which, strerror(err));
    return 1;
}

// Where the pipe of a mount is; its root is open while it is asked alone.
static int find_pipe(const char *mount_point, struct exit_report_pipe *out) {
    int root = open(mount_point, O_RDONLY | O_DIRECTORY | O_CLOEXEC);
    if (root < 0) return errno;
    int err = ioctl(root, EXIT_REPORT_REQUEST, out) ? errno : 0;
    close(root);
    return err;
}

static int open_end(const struct exit_report_pipe *pipe) {
    char name[64];
    snprintf(name, sizeof name, "/proc/%d/fd/%d", (int)pipe->process, (int)pipe->file);
    return open(name, O_RDONLY | O_CLOEXEC);
}

static int take_away(const char *mount_point) {
    int status = 0;
    pid_t child = fork();
    if (child < 0) return report("no process", "", errno);
    if (child == 0) {
        execlp("fusermount3", "fusermount3", "-u", "--", mount_point, (char *)NULL);
        _exit(127);
    }
    waitpid(child, &status, 0);
    return status != 0;
}

// Says what may last where a mount does not end at once.
static void wait_for_end(int fd) {
    struct pollfd word = {.fd = fd, .events = POLLIN};
    if (!poll(&word, 1, MILLISECONDS_OF_SILENCE))
        fputs(
            "doorvervain-mount: it is not at its end yet: it writes an image, or another mount namespace has it too\n",
            stderr);
}

// Reads what a mount says until its process has ended. The last byte is its status.
static int read_end(int fd) {
    struct bytes text = {NULL};
    int err = bytes_read_all(&text, fd);
    char last = text.length ? text.at[--text.length] : 0;
    fwrite(text.at, 1, text.length, stderr);
    bytes_free(&text);
    if (err || (last != '0' && last != '1')) fputs("doorvervain-mount: it ended without a word\n", stderr);
    return !err && last == '0' ? 0 : 1;
}

int exit_report_wait(const char *mount_point) {
    struct exit_report_pipe pipe;
    int err = find_pipe(mount_point, &pipe);
    if (err) return report("cannot ask ", mount_point, err);
    int fd = open_end(&pipe);
    if (fd < 0) return report("cannot wait for ", mount_point, errno);
    int status = take_away(mount_point);
    if (!status) {
        wait_for_end(fd);
        status = read_end(fd);
    }
    close(fd);
    return status;
}
