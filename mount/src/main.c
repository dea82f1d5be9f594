// The command line and the process of doorvervain-mount.
//
// Invariant: in the background the parent exits with 0 only after the file system is mounted; else with the status of
// the child.
#define _GNU_SOURCE
#include "diff_cmd.h"
#include "exit_report.h"
#include "options.h"
#include "requests.h"
#include "delta_client.h"
#include "serving.h"
#include "status.h"
#include "store.h"
#include <errno.h>
#include <fcntl.h>
#include <limits.h>
#include <stdio.h>
#include <stdlib.h>
#include <string.h>
#include <sys/ioctl.h>
#include <sys/wait.h>
#include <unistd.h>

static int parent = -1; // in the background: the pipe to the process that was called

static int report(const char *what, const char *which, int err) {
    if (err) fprintf(stderr, "doorvervain-mount: %s%s: %s\n", what, which, strerror(err));
    return err != 0;
}

// Asks a running mount to restore a snapshot.
static int ask_to_restore(const char *mount_point, const char *name) {
    struct restore_request wanted = {{0}};
    if (strlen(name) > LONGEST_SNAPSHOT) return report("cannot restore ", name, EINVAL);
    snprintf(wanted.name, sizeof wanted.name, "%s", name);
    int root = open(mount_point, O_RDONLY | O_DIRECTORY | O_CLOEXEC);
    if (root < 0) return report("cannot open ", mount_point, errno);
    int err = ioctl(root, RESTORE_REQUEST, &wanted) ? errno : 0;
    close(root);
    return report("cannot restore ", name, err);
}

// A file is named from the root: who goes into the background stands there. The name lasts as long as the process.
static const char *full_name(const char *file) {
    char folder[PATH_MAX];
    if (!file || file[0] == '/') return file;
    char *name = NULL;
    if (!getcwd(folder, sizeof folder) || asprintf(&name, "%s/%s", folder, file) < 0)
        exit(report("no full name of ", file, errno));
    return name;
}

// The directory to mount on, without links and dots on its way.
static const char *full_path(const char *folder) {
    static char path[PATH_MAX];
    return realpath(folder, path) ? path : folder;
}

// In the child: tells the parent that the mount stands, and lets go of its terminal.
static void report_mounted(void) {
    if (parent < 0) return;
    int nowhere = open("/dev/null", O_RDWR);
    if (write(parent, "", 1) != 1 || chdir("/")) exit(1);
    for (int file = 0; file < 3; file++) dup2(nowhere, file);
    if (nowhere > 2) close(nowhere);
    close(parent);
}

// In the parent: waits until the mount stands, or its process has ended.
static int wait_for(int child_says, pid_t child) {
    char byte;
    int status = 0;
    if (read(child_says, &byte, 1) == 1) return 0;
    waitpid(child, &status, 0);
    return WIFEXITED(status) && WEXITSTATUS(status) ? WEXITSTATUS(status) : 1;
}

static int serve_in_background(const struct options *options) {
    int ends[2];
    if (pipe(ends)) return report("no pipe", "", errno);
    fcntl(ends[0], F_SETFD, FD_CLOEXEC);
    fcntl(ends[1], F_SETFD, FD_CLOEXEC);
    pid_t child = fork();
    if (child < 0) return report("no process", "", errno);
    if (child > 0) {
        close(ends[1]);
        return wait_for(ends[0], child);
    }
    close(ends[0]);
    parent = ends[1];
    setsid();
    return serve_mount(options, report_mounted);
}

static int serve_options(struct options *options) {
    options->image = full_name(options->image);
    options->open.image = full_name(options->open.image);
    options->open.store = full_name(options->open.store);
    options->open.trace = full_name(options->open.trace);
    struct etcd_options *replica = &options->open.replica;
    const char **files[] = {&replica->cacert, &replica->cert, &replica->key, &replica->password_file};
    for (size_t i = 0; i < sizeof files / sizeof *files; i++) *files[i] = full_name(*files[i]);
    return options->in_foreground ? serve_mount(options, report_mounted) : serve_in_background(options);
}

int main(int count, char **words) {
    static struct options options;
    int status = read_options(count, words, &options);
    if (status) return status;
    if (options.prints_help || options.prints_version) {
        if (options.prints_help) print_help();
        else print_version();
        return 0;
    }
    if (options.dumps_log) return store_dump_wal(options.mount_point);
    if (options.rescue) return store_rescue(options.rescue, options.mount_point);
    options.mount_point = full_path(options.mount_point);
    if (options.diff_from) return print_diff(options.mount_point, options.diff_from, options.until);
    if (options.send_from) return send_delta(options.mount_point, options.send_from, options.until);
    if (options.receives) return receive_delta(options.mount_point);
    if (options.restore) return ask_to_restore(options.mount_point, options.restore);
    if (options.prints_status) return print_status(options.mount_point, options.as_json);
    if (options.unmounts) return exit_report_wait(options.mount_point);
    return serve_options(&options);
}
