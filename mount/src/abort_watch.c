// Aborts the connection of a mount behind signal 9, by the file `abort` of fusectl ("fuse.rst" of Linux).
//
// Invariant: the process has no descriptor but the pipe, and then the file: so it keeps no connection alive. It opens
// that file while the mount stands, since the number of a connection may be another mount's later. It gets its signal
// when the thread that began it ends, though another thread of that process may never end.
#define _GNU_SOURCE
#include "abort_watch.h"
#include <fcntl.h>
#include <signal.h>
#include <stdio.h>
#include <sys/mount.h>
#include <sys/prctl.h>
#include <sys/stat.h>
#include <sys/wait.h>
#include <unistd.h>

enum { ENDS = SIGUSR1 };

// Of a fusectl that is mounted nowhere: root may make one.
static int open_by_own(const char *name) {
    int system = fsopen("fusectl", FSOPEN_CLOEXEC);
    if (system < 0 || fsconfig(system, FSCONFIG_CMD_CREATE, NULL, NULL, 0)) return -1;
    int folder = fsmount(system, FSMOUNT_CLOEXEC, 0);
    return openat(folder, name, O_WRONLY | O_CLOEXEC);
}

// A connection has the number of its file system.
static int open_abort(unsigned connection) {
    char path[64];
    const int length = snprintf(path, sizeof path, "/sys/fs/fuse/connections/");
    snprintf(path + length, sizeof path - (size_t)length, "%u/abort", connection);
    int file = open(path, O_WRONLY | O_CLOEXEC);
    return file < 0 ? open_by_own(path + length) : file;
}

// Waits for the mount, and then for the end of its process. Where that ends before, nothing is there to abort.
static void watch_and_abort(int pipe) {
    unsigned connection;
    sigset_t ends;
    int number, file = -1;
    sigemptyset(&ends);
    sigaddset(&ends, ENDS);
    if (read(pipe, &connection, sizeof connection) == sizeof connection) file = open_abort(connection);
    close(pipe);
    if (file < 0) return;
    sigwait(&ends, &number);
    if (write(file, "1", 1) < 0) return;
}

static void run(int parent, int pipe) {
    sigset_t all;
    sigfillset(&all);
    sigprocmask(SIG_SETMASK, &all, NULL);
    setsid();
    dup2(pipe, 0);
    close_range(1, ~0u, 0);
    prctl(PR_SET_NAME, "doorvervain-end");
    if (!prctl(PR_SET_PDEATHSIG, ENDS) && getppid() == parent) watch_and_abort(0);
    _exit(0);
}

void abort_watch_begin(struct abort_watch *watch) {
    int ends[2], parent = getpid();
    if (pipe2(ends, O_CLOEXEC)) return;
    int process = fork();
    if (!process) run(parent, ends[0]);
    close(ends[0]);
    *watch = (struct abort_watch){process > 0 ? process : 0, ends[1]};
}

// The kernel tells the number of the file system without asking the mount, which does not serve yet.
void abort_watch_mounted(struct abort_watch *watch, const char *mount_point) {
    struct statx found;
    if (watch->process && !statx(AT_FDCWD, mount_point, AT_STATX_DONT_SYNC, 0, &found)) {
        if (write(watch->pipe, &found.stx_dev_minor, sizeof found.stx_dev_minor) < 0) return;
    }
}

void abort_watch_end(struct abort_watch *watch) {
    if (watch->pipe >= 0) close(watch->pipe);
    if (!watch->process) return;
    kill(watch->process, SIGKILL);
    waitpid(watch->process, NULL, 0);
}
