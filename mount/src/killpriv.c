// Negotiates FUSE_HANDLE_KILLPRIV_V2, and reads the kernel's KILL_SUIDGID flags.
//
// libfuse 3.14 knows nothing of either: so the flag is added to its answer to INIT on the way to the kernel, and the
// kernel's flags are read from the bytes of each request.
//
// Invariant: the thread that serves requests alone writes this state, at INIT before any other thread answers. The flag
// is added once, and only for a kernel that offers it.
#include "killpriv.h"
#include <linux/fuse.h>
#include <sys/uio.h>
#include <unistd.h>

static bool is_handled, is_requested;

bool killpriv_is_handled(void) { return is_handled; }

bool killpriv_is_requested(void) { return is_requested; }

#if defined FUSE_HANDLE_KILLPRIV_V2 && FUSE_VERSION >= FUSE_MAKE_VERSION(3, 13)

static uint64_t init; // the number of an INIT whose answer is to have the flag; 0: there is none

// Whether these bytes are the answer to it, and no error.
static bool answers_init(const struct iovec *parts, int count) {
    const struct fuse_out_header *head = parts[0].iov_base;
    return head->unique == init && !head->error && count > 1 && parts[1].iov_len == sizeof(struct fuse_init_out);
}

static void add_flag(const struct iovec *parts, int count) {
    if (!init || !answers_init(parts, count)) return;
    ((struct fuse_init_out *)parts[1].iov_base)->flags |= FUSE_HANDLE_KILLPRIV_V2;
    init = 0;
    is_handled = true;
}

static ssize_t send_parts(int device, struct iovec *parts, int count, void *mount) {
    (void)mount;
    add_flag(parts, count);
    return writev(device, parts, count);
}

static ssize_t receive_bytes(int device, void *bytes, size_t size, void *mount) {
    (void)mount;
    return read(device, bytes, size);
}

void killpriv_negotiate(struct fuse_session *session) {
    static const struct fuse_custom_io io = {.writev = send_parts, .read = receive_bytes};
    fuse_session_custom_io(session, &io, fuse_session_fd(session));
}

static bool requests_killpriv(const struct fuse_in_header *head) {
    const void *body = head + 1;
    switch (head->opcode) {
    case FUSE_WRITE: return ((const struct fuse_write_in *)body)->write_flags & FUSE_WRITE_KILL_SUIDGID;
    case FUSE_SETATTR: return ((const struct fuse_setattr_in *)body)->valid & FATTR_KILL_SUIDGID;
    case FUSE_OPEN: return ((const struct fuse_open_in *)body)->open_flags & FUSE_OPEN_KILL_SUIDGID;
    case FUSE_CREATE: return ((const struct fuse_create_in *)body)->open_flags & FUSE_OPEN_KILL_SUIDGID;
    default: return false;
    }
}

void killpriv_note(const struct fuse_buf *request) {
    const struct fuse_in_header *head = request->mem;
    const struct fuse_init_in *body = (const void *)(head + 1);
    if (head->opcode == FUSE_INIT && body->flags & FUSE_HANDLE_KILLPRIV_V2) init = head->unique;
    is_requested = is_handled && requests_killpriv(head);
}

#else

void killpriv_negotiate(struct fuse_session *session) { (void)session; }

void killpriv_note(const struct fuse_buf *request) { (void)request; }

#endif
