// A mount from start to end: opens the backend, mounts, serves, unmounts, writes the image and closes the backend.
//
// Invariant: no signal ends the process between the last request and the end of the image. The status is 0 only if all
// that was to be kept is kept.
#include "serving.h"
#include "abort_watch.h"
#include "busy_poll.h"
#include "entry_count.h"
#include "exit_report.h"
#include "image.h"
#include "killpriv.h"
#include "readahead.h"
#include "replica.h"
#include "requests.h"
#include "memlimit.h"
#include "snapshots.h"
#include "store.h"
#include <errno.h>
#include <fcntl.h>
#include <linux/fuse.h>
#include <malloc.h>
#include <poll.h>
#include <signal.h>
#include <stdio.h>
#include <stdlib.h>
#include <unistd.h>

static int open_backend(const struct open_options *open_options, struct mount *mount) {
    if (open_options->replica.members) return replica_open(open_options, mount);
    if (open_options->store) return store_open(open_options, &mount->backend, &mount->store);
    return open_library(open_options, &mount->backend);
}

static int open_volume(const struct options *options, struct mount *mount) {
    const struct open_options *open_options = &options->open;
    int err = open_backend(open_options, mount);
    if (err) return err;
    if (open_options->trace) err = open_trace(open_options, &mount->backend);
    requests_lock();
    if (!err) err = fs_start(mount);
    if (!err && mount->store) err = snapshots_find(mount);
    requests_unlock();
    if (!err) entry_count_walk(mount);
    if (!err && mount->store) err = store_start_writeback(mount->store, mount);
    if (err) mount->backend.ops->close(mount->backend.self, NULL);
    return err;
}

// From here on the tree goes into its image: no signal of the terminal or of kill(1) ends that.
static void ignore_signals(void) {
    static const int numbers[] = {SIGHUP, SIGINT, SIGTERM, SIGPIPE};
    for (size_t i = 0; i < sizeof numbers / sizeof *numbers; i++) signal(numbers[i], SIG_IGN);
}

static void process(struct fuse_session *session, const struct fuse_buf *buffer) {
    killpriv_note(buffer);
    fuse_session_process_buf(session, buffer);
}

static void serve_one(struct fuse_session *session, struct fuse_buf *buffer) {
    struct pollfd comes = {.fd = fuse_session_fd(session), .events = POLLIN};
    bool is_there = poll(&comes, 1, 20) > 0 && comes.revents & POLLIN;
    if (is_there && fuse_session_receive_buf(session, buffer) > 0) process(session, buffer);
    else usleep(1000);
}

static bool is_forget(const struct fuse_buf *buffer) {
    uint32_t what = ((const struct fuse_in_header *)buffer->mem)->opcode;
    return what == FUSE_FORGET || what == FUSE_BATCH_FORGET;
}

// Reads a request if there is one: false if not.
static bool receive_now(struct fuse_session *session, struct fuse_buf *buffer) {
    int device = fuse_session_fd(session), flags = fcntl(device, F_GETFL);
    fcntl(device, F_SETFL, flags | O_NONBLOCK);
    int got = fuse_session_receive_buf(session, buffer);
    fcntl(device, F_SETFL, flags);
    return got > 0;
}

// A file whose name was removed waits until the kernel forgets it, and becomes an orphan if another request is served
// before.
// The kernel hands out a request before what it forgot: so that is served first. Whether a request was read instead.
static bool serve_forgets(struct fuse_session *session, struct mount *mount, struct fuse_buf *buffer) {
    while (requests_wait_for_forget(mount)) {
        if (!receive_now(session, buffer)) return false;
        if (!is_forget(buffer)) return true;
        process(session, buffer);
    }
    return false;
}

// Serves until a signal or an unmount, which are good ends. On a busy machine the kernel answers the last read before
// an
// unmount by ECONNABORTED, too.
static int serve_all(struct fuse_session *session, struct mount *mount, struct fuse_buf *buffer) {
    struct fuse_buf other = {0}; // its memory is libfuse's
    int got = -EINTR;
    while (!fuse_session_exited(session) && (got > 0 || got == -EINTR)) {
        got = fuse_session_receive_buf(session, buffer);
        if (got <= 0) continue;
        busy_poll_note();
        bool has_other = !is_forget(buffer) && serve_forgets(session, mount, &other);
        process(session, buffer);
        if (has_other) process(session, &other);
        requests_idle(mount);
    }
    free(other.mem);
    fuse_session_reset(session);
    return got < 0 && got != -EINTR && got != -ECONNABORTED;
}

// A thread that tells the kernel to forget may wait for requests that are under way: so these are served until it is
// done.
static int serve(struct fuse_session *session, struct mount *mount) {
    struct fuse_buf buffer = {0}; // its memory is libfuse's
    int status = mount->replica ? replica_serve(session, mount) : serve_all(session, mount, &buffer);
    ignore_signals();
    while (requests_are_under_way()) serve_one(session, &buffer);
    free(buffer.mem);
    return status;
}

// What stands as the source in the table of mounts: the store. A comma or a backslash of it is none of the options.
static void name_source(const struct options *options, char out[2 * PATH_MAX]) {
    const char *from = options->open.store ? options->open.store : "doorvervain";
    for (; *from && *from != '\n'; from++) {
        if (*from == ',' || *from == '\\') *out++ = '\\';
        *out++ = *from;
    }
    *out = 0;
}

// libfuse mounts with `nosuid,nodev` if nothing else is said.
static struct fuse_session *open_session(const struct options *options, struct mount *mount) {
    char source[2 * PATH_MAX], how[sizeof source + 128];
    name_source(options, source);
    bool trusts = options->trusts_attributes;
    snprintf(how, sizeof how, "default_permissions,fsname=%s,subtype=doorvervain%s%s%s", source,
             options->allows_other ? ",allow_other" : "", trusts && !options->no_suid ? ",suid" : "",
             trusts && !options->no_dev ? ",dev" : "");
    char *words[] = {"doorvervain-mount", "-o", how, NULL};
    struct fuse_args args = FUSE_ARGS_INIT(3, words);
    struct fuse_session *session = fuse_session_new(&args, &requests, sizeof requests, mount);
    fuse_opt_free_args(&args);
    return session;
}

// Whether it came to stand is said in `stood`.
static int mount_and_serve(const struct options *options, struct mount *mount, struct abort_watch *watch,
                           void (*stands)(void), bool *stood) {
    struct fuse_session *session = open_session(options, mount);
    if (!session) return 1;
    requests_use(session, mount->replica);
    int status = fuse_set_signal_handlers(session) || fuse_session_mount(session, options->mount_point);
    if (!status) {
        abort_watch_mounted(watch, options->mount_point);
        if (!mount->replica) killpriv_negotiate(session);
        raise_readahead(options->mount_point);
        stands();
        *stood = true;
        status = serve(session, mount);
        fuse_session_unmount(session);
    }
    fuse_remove_signal_handlers(session);
    fuse_session_destroy(session);
    return status;
}

static int save_image(struct image *image, int err) {
    if (err) {
        exit_report_error("no image is written to ", image->file, err);
        image_drop(image);
        return 1;
    }
    err = image_keep(image);
    if (err) exit_report_error("the tree is left in the file with .part behind its name: ", image->file, err);
    return err != 0;
}

// Nothing is open any more, so nothing that was unlinked goes into the image. What a store may not change any more its
// next mount takes out.
static int close_volume(struct mount *mount, struct image *image) {
    requests_lock();
    int err = fs_end(mount);
    requests_unlock();
    if (mount->replica) replica_end(mount);
    if (mount->store) err = 0;
    if (err) exit_report_error("unlinked files are kept", "", err);
    int other = mount->backend.ops->close(mount->backend.self, image);
    if (image) return save_image(image, other) || err;
    if (other) exit_report_error("the volume or its log did not end well", "", other);
    return err || other;
}

// Room for the bytes of a large read is used again, and not asked from the kernel for each.
static void keep_memory(void) {
    mallopt(M_MMAP_THRESHOLD, 8 * LARGEST_READ);
    mallopt(M_TRIM_THRESHOLD, 64 * LARGEST_READ);
}

// What was mounted may be kept, and nothing else: where no mount comes to stand, the file is as it was.
static int serve_volume(const struct options *options, struct image *image, void (*stands)(void)) {
    struct mount mount = {.trusts_attributes = options->trusts_attributes || !options->open.image};
    struct abort_watch watch = ABORT_WATCH_NONE;
    bool stood = false;
    if (options->open.replica.members) abort_watch_begin(&watch);
    int status = open_volume(options, &mount) != 0;
    if (!status) {
        status = mount_and_serve(options, &mount, &watch, stands, &stood);
        status |= close_volume(&mount, stood ? image : NULL);
    }
    abort_watch_end(&watch);
    if (image && !stood) image_drop(image);
    return status;
}

int serve_mount(const struct options *options, void (*stands)(void)) {
    static struct image image;
    int err = options->open.image ? image_check(options->open.image) : 0;
    if (!err && options->image) err = image_open(&image, options->image);
    if (err || exit_report_open()) return 1;
    signal(SIGXFSZ, SIG_IGN); // a write beyond the limit of a file's size fails with EFBIG
    keep_memory();
    memlimit_set(options->size);
    busy_poll_set(options->busy_poll);
    return exit_report_status(serve_volume(options, options->image ? &image : NULL, stands));
}
