// The process of --send and --receive: it asks a mount by ioctl(2) on its root, and copies the text of the delta.
//
// Invariant: the text belongs to the opened root, so it is gone with this process. Status 0 means that all of it was
// written, or applied.
#include "delta_client.h"
#include "diff_cmd.h"
#include "delta_ioctl.h"
#include "text.h"
#include <errno.h>
#include <fcntl.h>
#include <inttypes.h>
#include <stdio.h>
#include <string.h>
#include <unistd.h>

static int report(const char *what, const char *which, int err) {
    fprintf(stderr, "doorvervain-mount: %s%s: %s\n", what, which, strerror(err));
    return 1;
}

// Why a mount did not do what it was asked.
static int report_error(const char *what, const char *mount_point, int err) {
    const char *why = err == EOPNOTSUPP ? "not with --replica, nor a receive with --trace"
                      : err == ENOSPC   ? "it has no room, or 64 snapshots"
                                        : strerror(err);
    fprintf(stderr, "doorvervain-mount: %s%s: %s\n", what, mount_point, why);
    return 1;
}

static int open_root(const char *mount_point) { return open(mount_point, O_RDONLY | O_DIRECTORY | O_CLOEXEC); }

static int write_all(const char *bytes, size_t count) {
    while (count) {
        ssize_t done = write(STDOUT_FILENO, bytes, count);
        if (done < 0 && errno == EINTR) continue;
        if (done < 0) return errno;
        bytes += done;
        count -= (size_t)done;
    }
    return 0;
}

// Whether a snapshot stands, or none is named: what is missing is said as by `--diff`.
static int try_name(int root, const char *name) {
    int tree = open_tree(root, name);
    if (tree < 0) return report("no snapshot ", name, errno);
    close(tree);
    return 0;
}

static int write_text(int root, const char *mount_point) {
    static struct delta_piece piece;
    do {
        if (ioctl(root, SENT_PIECE_REQUEST, &piece)) return report("not all was sent of ", mount_point, errno);
        int err = write_all(piece.bytes, piece.count);
        if (err) return report("not all was written", "", err);
    } while (piece.count == sizeof piece.bytes);
    return 0;
}

static int send_from(int root, const char *mount_point, const char *from, const char *to) {
    struct send_request wanted = {{0}, {0}};
    if (try_name(root, from) || (to && try_name(root, to))) return 1;
    text_copy(wanted.from, sizeof wanted.from, from);
    text_copy(wanted.to, sizeof wanted.to, to ? to : "");
    if (ioctl(root, SEND_REQUEST, &wanted)) return report_error("cannot send from ", mount_point, errno);
    return write_text(root, mount_point);
}

int send_delta(const char *mount_point, const char *from, const char *to) {
    int root = open_root(mount_point);
    if (root < 0) return report("cannot open ", mount_point, errno);
    int status = send_from(root, mount_point, from, to);
    close(root);
    return status;
}

// ---- a difference that comes

static int read_piece(struct delta_piece *piece) {
    ssize_t got;
    do got = read(STDIN_FILENO, piece->bytes, sizeof piece->bytes);
    while (got < 0 && errno == EINTR);
    piece->count = got < 0 ? 0 : (uint32_t)got;
    return got < 0 ? errno : 0;
}

static int give_text(int root, const char *mount_point) {
    static struct delta_piece piece;
    do {
        int err = read_piece(&piece);
        if (err) return report("cannot read the difference", "", err);
        if (piece.count && ioctl(root, COMING_PIECE_REQUEST, &piece))
            return report_error("cannot receive to ", mount_point, errno);
    } while (piece.count);
    return 0;
}

static int report_outcome(const struct delta_answer *answer, const char *mount_point) {
    switch (answer->outcome) {
    case DELTA_IS_DONE: return 0;
    case DELTA_IS_NONE:
        fprintf(stderr, "doorvervain-mount: no difference from line %" PRIu64 " on\n", answer->line);
        return 1;
    case DELTA_DOES_NOT_FIT:
        fprintf(stderr, "doorvervain-mount: line %" PRIu64 " of the difference does not fit the tree of %s\n",
                answer->line, mount_point);
        return 1;
    default: fputs("doorvervain-mount: what the difference makes is no tree\n", stderr); return 1;
    }
}

static int receive_to(int root, const char *mount_point) {
    struct delta_answer answer = {0};
    int status = give_text(root, mount_point);
    if (status) return status;
    if (ioctl(root, RECEIVE_REQUEST, &answer)) return report_error("cannot receive to ", mount_point, errno);
    return report_outcome(&answer, mount_point);
}

int receive_delta(const char *mount_point) {
    int root = open_root(mount_point);
    if (root < 0) return report("cannot open ", mount_point, errno);
    int status = receive_to(root, mount_point);
    close(root);
    return status;
}
