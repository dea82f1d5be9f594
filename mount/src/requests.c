// The requests of the kernel. Each takes the request lock, does what fs_ops.h has for it, drops the lock, and replies.
// One thread serves all of them, since most take less time than waking another would. Those that may take long it leaves
// to workers: a long listing, a snapshot that is restored or dropped, and a delta that is printed or applied.
//
// Invariant: all changes of the tree come through the kernel, so what it caches of names and attributes stays right;
// when the tree is replaced, the kernel is notified of what is stale. The bytes of a file are read again whenever it is
// opened. The list of open handles is changed by the serving thread alone.
#include "requests.h"
#include "answers.h"
#include "attrs.h"
#include "orphan.h"
#include "busy_poll.h"
#include "copy_range.h"
#include "delta.h"
#include "delta_ioctl.h"
#include "entry_count.h"
#include "exit_report.h"
#include "extended.h"
#include "holes.h"
#include "hardlinks.h"
#include "listings.h"
#include "locks.h"
#include "namei.h"
#include "replica.h"
#include "memlimit.h"
#include "killpriv.h"
#include "snapshots.h"
#include "status.h"
#include "store.h"
#include "workers.h"
#include <errno.h>
#include <fcntl.h>
#include <linux/capability.h>
#include <poll.h>
#include <pthread.h>
#include <stdio.h>
#include <stdlib.h>
#include <string.h>
#include <unistd.h>

enum { MOST_WAITING_STEPS = 64, IDLE_MILLISECONDS = 5000, FORGETS_AT_ONCE = 256, REST_NANOSECONDS = 50000 };
#define SECONDS_KNOWN 86400.0
#define SECONDS_SHARED 1.0

static struct lock request_lock = LOCK_FREE;
static struct fuse_session *session;
static double seconds_known = SECONDS_KNOWN;

void requests_use(struct fuse_session *used, bool is_shared) {
    session = used;
    seconds_known = is_shared ? SECONDS_SHARED : SECONDS_KNOWN;
}

bool requests_are_under_way(void) { return workers_are_busy() || answers_wait(); }

bool requests_wait_for_forget(const struct mount *mount) {
    lock_take(&request_lock);
    bool waits = mount->deferred;
    lock_drop(&request_lock);
    return waits;
}

void requests_lock(void) { lock_take(&request_lock); }

void requests_unlock(void) { lock_drop(&request_lock); }

bool requests_are_locked(void) { return lock_is_held(&request_lock); }

bool request_lock_is_held(const struct mount *mount) { return mount->replica || requests_are_locked(); }

static bool owes_much(struct mount *mount) {
    const struct backend *backend = &mount->backend;
    lock_take(&request_lock);
    bool does = backend_compaction_debt(backend) > MOST_WAITING_STEPS;
    lock_drop(&request_lock);
    return does;
}

// Whether a step was left to be done; `has_come` is set where a request was seen instead. No size of the mount lets a
// step take more than a call.
static bool idle_once(struct mount *mount, bool *has_come) {
    const struct backend *backend = &mount->backend;
    struct mem_budget budget;
    lock_take(&request_lock);
    unsigned owed = backend_compaction_debt(backend);
    if (owed && !*has_come) *has_come = busy_poll_ready(fuse_session_fd(session));
    bool is_due = owed > MOST_WAITING_STEPS || (owed && !*has_come);
    memlimit_begin(&budget);
    if (is_due) backend_compact(backend, 1);
    memlimit_suspend();
    lock_drop(&request_lock);
    return is_due;
}

// What a large removal gave back goes to the system once no request has come for some seconds.
static void trim_when_idle(void) {
    struct pollfd comes = {.fd = fuse_session_fd(session), .events = POLLIN};
    if (memlimit_has_freed() && !poll(&comes, 1, IDLE_MILLISECONDS)) memlimit_trim();
}

// One step is done while whoever was answered wakes up. The next request may come before there is time for others.
void requests_idle(struct mount *mount) {
    bool has_come = false;
    if (mount->store) store_idle(mount->store);
    idle_once(mount, &has_come);
    while (owes_much(mount)) idle_once(mount, &has_come);
    if (busy_poll_wait(fuse_session_fd(session), has_come)) return;
    while (!fuse_session_exited(session) && idle_once(mount, &has_come)) continue;
    if (!mount->replica) trim_when_idle();
}

// All that a request of a replica does, and all that it did when it was tried, has one timestamp.
static struct request request_of(fuse_req_t req) {
    struct mount *mount = fuse_req_userdata(req);
    uint64_t at = replica_timestamp(mount);
    return (struct request){.mount = mount, .req = req, .at = at ? at : clock_now_ns()};
}

static struct inode *inode_of(const struct request *request, fuse_ino_t ino) {
    return ino == FUSE_ROOT_ID ? request->mount->root : (struct inode *)(uintptr_t)ino;
}

struct fuse_entry_param requests_entry(const struct lookup_result *result) {
    return (struct fuse_entry_param){.ino = (fuse_ino_t)(uintptr_t)result->inode,
                                     .attr = result->stat,
                                     .attr_timeout = seconds_known,
                                     .entry_timeout = seconds_known};
}

// Takes the lock. An unlinked file that the kernel still knows becomes an orphan.
int requests_begin(const struct request *request) {
    lock_take(&request_lock);
    return orphan_flush_deferred(request->mount);
}

// The same for a request that is about the bytes of one file alone.
static int begin_bytes(const struct request *request, fuse_ino_t ino) {
    lock_take(&request_lock);
    bool is_leaving = request->mount->deferred && request->mount->deferred == inode_of(request, ino);
    return is_leaving ? orphan_flush_deferred(request->mount) : 0;
}

// The same for a write. A store keeps the changes in the order in which they were answered.
static int begin_write(const struct request *request, fuse_ino_t ino) {
    return request->mount->store ? requests_begin(request) : begin_bytes(request, ino);
}

// Leaves the lock: the request is at its end, and a store keeps what it did.
static int end_changed(const struct request *request, int err, bool *has_changed) {
    struct mount *mount = request->mount;
    int other = 0;
    *has_changed = false;
    if (mount->store && store_syncs_each(mount->store)) other = orphan_flush_deferred(mount);
    if (mount->store && !other) other = store_end_request(mount->store, has_changed);
    lock_drop(&request_lock);
    return err ? err : other;
}

// The same of a request that is answered at once: it asks alone.
int requests_end(const struct request *request, int err) {
    bool has_changed;
    return end_changed(request, err, &has_changed);
}

// Invalidates the attributes that the kernel has of a file. The request cleared its set-user bits or read it, and the
// answer does not say so.
static void notify_attributes(const struct inode *inode) {
    fuse_lowlevel_notify_inval_inode(session, (fuse_ino_t)(uintptr_t)inode, -1, 0);
}

// Leaves the lock, and answers a request that changes something.
static void finish(const struct request *request, int err, struct answer answer) {
    bool has_changed;
    answer.request = *request;
    answer.err = end_changed(request, err, &has_changed);
    if (request->stale && killpriv_is_handled()) notify_attributes(request->stale);
    if (request->accessed && !request->mount->replica) notify_attributes(request->accessed);
    answer_change(&answer, has_changed);
}

// The same of one that has nothing to tell.
static void finish_done(const struct request *request, int err) {
    finish(request, err, (struct answer){.kind = ANSWER_DONE});
}

// Under the lock: an answer that names an entry is one more that the kernel holds.
static int hold(int err, const struct lookup_result *result) {
    if (!err) result->inode->nlookup++;
    return err;
}

// That there is no such name is known for as long as one.
static void answer_entry(const struct request *request, int err, const struct lookup_result *result) {
    struct fuse_entry_param param = {.entry_timeout = seconds_known};
    if (!err) param = requests_entry(result);
    if (err == ENOENT || !answer_failed(request, err)) fuse_reply_entry(request->req, &param);
}

static struct answer entry_answer(int err, const struct lookup_result *result) {
    struct answer answer = {.kind = ANSWER_ENTRY};
    if (!err) answer.entry = requests_entry(result);
    return answer;
}

static void on_init(void *mount, struct fuse_conn_info *connection) {
    (void)mount;
    connection->max_readahead = LARGEST_READ;
    connection->want &= ~FUSE_CAP_HANDLE_KILLPRIV; // some libfuse would tell the kernel that it need not do it
}

static void on_lookup(fuse_req_t req, fuse_ino_t parent, const char *name) {
    struct request request = request_of(req);
    struct lookup_result result;
    int err = requests_begin(&request);
    if (!err) err = hold(fs_lookup(request.mount, inode_of(&request, parent), name, &result), &result);
    err = requests_end(&request, err);
    answer_entry(&request, err, &result);
}

static void forget_some(const struct request *request, const struct fuse_forget_data *forgets, size_t count) {
    lock_take(&request_lock);
    for (size_t i = 0; i < count; i++)
        if (forgets[i].ino != FUSE_ROOT_ID)
            orphan_forget(request->mount, inode_of(request, forgets[i].ino), forgets[i].nlookup, request->at);
    requests_end(request, 0);
}

// After a restore the kernel may forget 65,000 inodes by one request.
struct forgetting {
    struct request request;
    size_t count;
    struct fuse_forget_data forgets[];
};

// A worker. Between two parts there is a rest: so a request that waits for the lock gets it.
static void forget_by_parts(void *argument) {
    struct forgetting *forgetting = argument;
    for (size_t at = 0; at < forgetting->count; at += FORGETS_AT_ONCE) {
        size_t left = forgetting->count - at;
        forget_some(&forgetting->request, forgetting->forgets + at, left < FORGETS_AT_ONCE ? left : FORGETS_AT_ONCE);
        nanosleep(&(struct timespec){0, REST_NANOSECONDS}, NULL);
    }
    fuse_reply_none(forgetting->request.req);
    mem_free(forgetting);
}

// An inode stands until all that the kernel has of it are forgotten: so that may come late, but to a replica, which has
// one thread.
static bool forgets_later(const struct request *request, const struct fuse_forget_data *forgets, size_t count) {
    if (count <= FORGETS_AT_ONCE || request->mount->replica) return false;
    struct forgetting *copy = mem_alloc(sizeof *copy + count * sizeof *forgets);
    if (!copy) return false;
    *copy = (struct forgetting){*request, count};
    memcpy(copy->forgets, forgets, count * sizeof *forgets);
    if (!worker_start(forget_by_parts, copy)) return true;
    mem_free(copy);
    return false;
}

static void on_forget(fuse_req_t req, fuse_ino_t ino, uint64_t lookups) {
    struct request request = request_of(req);
    forget_some(&request, &(struct fuse_forget_data){ino, lookups}, 1);
    fuse_reply_none(req);
}

static void on_forget_many(fuse_req_t req, size_t count, struct fuse_forget_data *forgets) {
    struct request request = request_of(req);
    if (forgets_later(&request, forgets, count)) return;
    forget_some(&request, forgets, count);
    fuse_reply_none(req);
}

static void answer_stat(const struct request *request, int err, const struct stat *stat) {
    if (!answer_failed(request, err)) fuse_reply_attr(request->req, stat, seconds_known);
}

static void on_getattr(fuse_req_t req, fuse_ino_t ino, struct fuse_file_info *info) {
    struct request request = request_of(req);
    struct stat stat;
    (void)info;
    int err = requests_begin(&request);
    if (!err) err = fs_getattr(request.mount, inode_of(&request, ino), &stat);
    err = requests_end(&request, err);
    answer_stat(&request, err, &stat);
}

static void on_setattr(fuse_req_t req, fuse_ino_t ino, struct stat *wanted, int which, struct fuse_file_info *info) {
    struct request request = request_of(req);
    uint64_t length = (uint64_t)wanted->st_size;
    struct timespec time = ns_to_timespec(request.at);
    struct setattr setattr = {
        .mode = which & FUSE_SET_ATTR_MODE ? &wanted->st_mode : NULL,
        .user = which & FUSE_SET_ATTR_UID ? &wanted->st_uid : NULL,
        .group = which & FUSE_SET_ATTR_GID ? &wanted->st_gid : NULL,
        .length = which & FUSE_SET_ATTR_SIZE ? &length : NULL,
        .access = which & FUSE_SET_ATTR_ATIME_NOW ? &time
                  : which & FUSE_SET_ATTR_ATIME   ? &wanted->st_atim
                                                  : NULL,
        .modify = which & FUSE_SET_ATTR_MTIME_NOW ? &time
                  : which & FUSE_SET_ATTR_MTIME   ? &wanted->st_mtim
                                                  : NULL,
        .modifies_now = which & FUSE_SET_ATTR_MTIME_NOW,
        .drops_set_user = killpriv_is_requested(),
        .drops_capability =
            killpriv_is_handled() && which & (FUSE_SET_ATTR_SIZE | FUSE_SET_ATTR_UID | FUSE_SET_ATTR_GID),
    };
    struct stat stat;
    (void)info;
    int err = requests_begin(&request);
    if (!err) err = fs_setattr(&request, inode_of(&request, ino), &setattr);
    if (!err) err = fs_getattr(request.mount, inode_of(&request, ino), &stat);
    struct answer answer = {.kind = ANSWER_ATTRIBUTES, .seconds = seconds_known};
    if (!err) answer.stat = stat;
    finish(&request, err, answer);
}

static uint8_t kind_of(mode_t mode) {
    switch (mode & S_IFMT) {
    case S_IFDIR: return DOORVERVAIN_DIRECTORY;
    case S_IFLNK: return DOORVERVAIN_SYMBOLIC_LINK;
    case S_IFIFO: return DOORVERVAIN_FIFO;
    case S_IFSOCK: return DOORVERVAIN_SOCKET;
    case S_IFCHR: return DOORVERVAIN_CHARACTER_DEVICE;
    case S_IFBLK: return DOORVERVAIN_BLOCK_DEVICE;
    default: return DOORVERVAIN_FILE;
    }
}

// What a request makes is its user's.
static struct create_args create_args_of(const struct request *request, mode_t mode) {
    const struct fuse_ctx *asks = fuse_req_ctx(request->req);
    return (struct create_args){
        .base = {.kind = kind_of(mode), .mode = mode & 07777, .user = asks->uid, .group = asks->gid, .names = 1}};
}

static void make(struct request *request, fuse_ino_t parent, const char *name, const struct create_args *args) {
    struct lookup_result result;
    int err = requests_begin(request);
    if (!err) err = namei_create(request, inode_of(request, parent), name, args, &result);
    hold(err, &result);
    finish(request, err, entry_answer(err, &result));
}

static void on_mkdir(fuse_req_t req, fuse_ino_t parent, const char *name, mode_t mode) {
    struct request request = request_of(req);
    struct create_args args = create_args_of(&request, S_IFDIR | (mode & 07777));
    make(&request, parent, name, &args);
}

static void on_mknod(fuse_req_t req, fuse_ino_t parent, const char *name, mode_t mode, dev_t device) {
    struct request request = request_of(req);
    struct create_args args = create_args_of(&request, mode);
    args.base.device = device;
    make(&request, parent, name, &args);
}

static void on_symlink(fuse_req_t req, const char *target, fuse_ino_t parent, const char *name) {
    struct request request = request_of(req);
    struct create_args args = create_args_of(&request, S_IFLNK | 0777);
    args.target = target;
    make(&request, parent, name, &args);
}

static void on_readlink(fuse_req_t req, fuse_ino_t ino) {
    struct request request = request_of(req);
    struct bytes target = {NULL};
    int err = requests_begin(&request);
    if (!err) err = fs_readlink(&request, inode_of(&request, ino), &target);
    err = requests_end(&request, err);
    if (!answer_failed(&request, err)) fuse_reply_readlink(req, target.at);
    bytes_free(&target);
}

static void on_link(fuse_req_t req, fuse_ino_t ino, fuse_ino_t parent, const char *name) {
    struct request request = request_of(req);
    struct lookup_result result;
    int err = requests_begin(&request);
    if (!err) err = hardlink_create(&request, inode_of(&request, ino), inode_of(&request, parent), name, &result);
    hold(err, &result);
    finish(&request, err, entry_answer(err, &result));
}

static void take_name(struct request *request, fuse_ino_t parent, const char *name, bool is_directory) {
    int err = requests_begin(request);
    if (!err) err = namei_remove(request, inode_of(request, parent), name, is_directory);
    finish_done(request, err);
}

// A snapshot that was dropped: what no other tree has of it is to be freed.
struct dropped {
    struct answer answer;
    struct doorvervain tree; // a fork of it
    bool has_changed;
};

// A worker, which answers after that: a size of the mount then has the memory again.
static void free_dropped(void *argument) {
    struct dropped *dropped = argument;
    doorvervain_close(&dropped->tree);
    answer_change(&dropped->answer, dropped->has_changed);
    mem_free(dropped);
}

// Without memory for a worker the thread that serves requests does it.
static void drop_tree(struct request *request, struct inode *folder, const char *name) {
    struct dropped dropped = {.answer = {.kind = ANSWER_DONE, .request = *request}};
    struct dropped *copy = mem_alloc(sizeof *copy);
    int err = requests_begin(request);
    if (!err && copy) worker_fork(request->mount, name, &dropped.tree);
    if (!err) err = namei_remove(request, folder, name, true);
    dropped.answer.err = end_changed(request, err, &dropped.has_changed);
    if (copy) *copy = dropped;
    if (copy && !worker_start(free_dropped, copy)) return;
    mem_free(copy);
    doorvervain_close(&dropped.tree);
    answer_change(&dropped.answer, dropped.has_changed);
}

static void on_unlink(fuse_req_t req, fuse_ino_t parent, const char *name) {
    struct request request = request_of(req);
    take_name(&request, parent, name, false);
}

static void on_rmdir(fuse_req_t req, fuse_ino_t parent, const char *name) {
    struct request request = request_of(req);
    struct inode *folder = inode_of(&request, parent);
    if (folder->role == SNAPSHOT_FOLDER && request.mount->backend.tree) drop_tree(&request, folder, name);
    else take_name(&request, parent, name, true);
}

static void on_rename(fuse_req_t req, fuse_ino_t parent, const char *name, fuse_ino_t new_parent, const char *new_name,
                      unsigned flags) {
    struct request request = request_of(req);
    int err = requests_begin(&request);
    struct inode *from = inode_of(&request, parent), *to = inode_of(&request, new_parent);
    if (!err) err = namei_rename(&request, from, name, to, new_name, flags);
    finish_done(&request, err);
}

// A file or directory that is open. All of them stand in a row, since a mount may end before they are closed.
struct handle {
    struct bytes names;           // of a directory, as they were when it was read from its beginning
    struct bytes text;            // of a difference, by the root
    size_t sent;                  // bytes of it
    _Atomic bool is_printing;     // a thread puts it together
    _Atomic uint64_t errseq_seen; // how many failed syncs of the store it was told
    struct handle *before, *after;
};

static struct handle handles = {.before = &handles, .after = &handles};

static struct handle *handle_of(struct fuse_file_info *info) { return (struct handle *)(uintptr_t)info->fh; }

// Null where memory is wanting.
static struct handle *open_handle(const struct request *request, struct fuse_file_info *info) {
    struct store *store = request->mount->store;
    struct handle *handle = mem_calloc(1, sizeof *handle);
    info->fh = (uint64_t)(uintptr_t)handle;
    if (!handle) return NULL;
    handle->errseq_seen = store ? store_sync_errseq(store) : 0;
    handle->before = &handles;
    handle->after = handles.after;
    handles.after = handle->after->before = handle;
    return handle;
}

static void close_handle(struct fuse_file_info *info) {
    struct handle *handle = handle_of(info);
    if (!handle) return;
    handle->before->after = handle->after;
    handle->after->before = handle->before;
    bytes_free(&handle->names);
    bytes_free(&handle->text);
    mem_free(handle);
}

// Whether who changes a file takes its set-user bits away: all but those who have CAP_FSETID.
static bool drops_set_user(const struct request *request) {
    char name[64], line[256];
    unsigned long long held = 0;
    snprintf(name, sizeof name, "/proc/%d/status", (int)fuse_req_ctx(request->req)->pid);
    FILE *status = fopen(name, "re");
    while (status && fgets(line, sizeof line, status))
        if (sscanf(line, "CapEff: %llx", &held) == 1) break;
    if (status) fclose(status);
    return !(held & 1ull << CAP_FSETID);
}

// It is asked only where a file has such bits.
static bool may_drop(const struct request *request, struct inode *inode) {
    const struct attrs *attrs;
    bool has_bits = !attrs_of(request->mount, inode, &attrs) && attrs->base.mode & (S_ISUID | S_ISGID);
    return has_bits && drops_set_user(request);
}

// The same of one that opens a file and may cut it, which the kernel may tell.
static bool open_may_drop(const struct request *request, struct inode *inode, int flags) {
    return flags & O_TRUNC && (killpriv_is_handled() ? killpriv_is_requested() : may_drop(request, inode));
}

// Where memory is wanting, the file is told of no sync that failed before.
static void open_file(const struct request *request, struct fuse_file_info *info) {
    info->fh = 0;
    if (request->mount->store) open_handle(request, info);
}

static void on_open(fuse_req_t req, fuse_ino_t ino, struct fuse_file_info *info) {
    struct request request = request_of(req);
    struct inode *inode = inode_of(&request, ino);
    int err = requests_begin(&request);
    if (!err) err = fs_open(&request, inode, info->flags, open_may_drop(&request, inode, info->flags));
    if (!err) open_file(&request, info);
    finish(&request, err, (struct answer){.kind = ANSWER_OPENED, .info = *info});
}

// A file that stands already is opened as it is; where that cuts it, what is told is what stands then.
static int open_found(struct request *request, struct inode *folder, const char *name, int flags,
                      struct lookup_result *result) {
    int err = fs_lookup(request->mount, folder, name, result);
    if (!err) err = fs_open(request, result->inode, flags, open_may_drop(request, result->inode, flags));
    return err ? err : fs_getattr(request->mount, result->inode, &result->stat);
}

// A file that is made has nothing to cut, and keeps the timestamp at which it was made.
static int create(struct request *request, fuse_ino_t parent, const char *name, mode_t mode, int flags,
                  struct lookup_result *result) {
    struct create_args args = create_args_of(request, S_IFREG | (mode & 07777));
    struct inode *folder = inode_of(request, parent);
    int err = namei_create(request, folder, name, &args, result);
    if (err == EEXIST && !(flags & O_EXCL)) err = open_found(request, folder, name, flags, result);
    else if (!err) err = fs_open(request, result->inode, flags & ~O_TRUNC, false);
    return hold(err, result);
}

static void on_create(fuse_req_t req, fuse_ino_t parent, const char *name, mode_t mode, struct fuse_file_info *info) {
    struct request request = request_of(req);
    struct lookup_result result;
    int err = requests_begin(&request);
    if (!err) err = create(&request, parent, name, mode, info->flags, &result);
    struct answer answer = entry_answer(err, &result);
    if (!err) open_file(&request, info);
    answer.kind = ANSWER_CREATED;
    answer.info = *info;
    finish(&request, err, answer);
}

static void on_release(fuse_req_t req, fuse_ino_t ino, struct fuse_file_info *info) {
    struct request request = request_of(req);
    close_handle(info);
    lock_take(&request_lock);
    int err = fs_release(&request, inode_of(&request, ino));
    finish_done(&request, err);
}

static void on_read(fuse_req_t req, fuse_ino_t ino, size_t size, off_t offset, struct fuse_file_info *info) {
    struct request request = request_of(req);
    size_t got = 0;
    char *bytes = mem_alloc(size ? size : 1);
    (void)info;
    int err = begin_bytes(&request, ino);
    if (!bytes) err = ENOMEM;
    if (!err) err = fs_read(&request, inode_of(&request, ino), (uint64_t)offset, bytes, size, &got);
    err = requests_end(&request, err);
    if (!answer_failed(&request, err)) fuse_reply_buf(req, bytes, got);
    mem_free(bytes);
}

static void on_write(fuse_req_t req, fuse_ino_t ino, const char *bytes, size_t size, off_t offset,
                     struct fuse_file_info *info) {
    struct request request = request_of(req);
    struct inode *inode = inode_of(&request, ino);
    uint64_t at = (uint64_t)offset;
    size_t done = 0;
    int err = begin_write(&request, ino);
    if (!err && info->flags & O_APPEND) err = files_find_end(request.mount, inode, &at);
    if (!err && killpriv_is_handled()) err = fs_drop_privileges(&request, inode, killpriv_is_requested());
    if (!err) err = fs_write(&request, inode, at, bytes, size, &done);
    if (!err && at != (uint64_t)offset) replica_note_moved(request.mount, inode);
    finish(&request, err, (struct answer){.kind = ANSWER_WRITTEN, .written = done});
}

static void on_fallocate(fuse_req_t req, fuse_ino_t ino, int mode, off_t offset, off_t count,
                         struct fuse_file_info *info) {
    struct request request = request_of(req);
    struct inode *inode = inode_of(&request, ino);
    (void)info;
    int err = requests_begin(&request);
    if (!err && killpriv_is_handled()) err = fs_drop_privileges(&request, inode, may_drop(&request, inode));
    if (!err) err = holes_allocate(&request, inode, mode, (uint64_t)offset, (uint64_t)count);
    finish_done(&request, err);
}

static void on_copy_file_range(fuse_req_t req, fuse_ino_t ino, off_t offset, struct fuse_file_info *info,
                               fuse_ino_t target_ino, off_t target, struct fuse_file_info *target_info, size_t count,
                               int flags) {
    struct request request = request_of(req);
    struct inode *to = inode_of(&request, target_ino);
    struct copy_args args = {inode_of(&request, ino), (uint64_t)offset, to, (uint64_t)target, count};
    uint64_t done = 0;
    (void)info, (void)target_info;
    int err = requests_begin(&request);
    if (!err && flags) err = EINVAL;
    if (!err && killpriv_is_handled()) err = fs_drop_privileges(&request, to, may_drop(&request, to));
    if (!err) err = copy_range(&request, &args, &done);
    finish(&request, err, (struct answer){.kind = ANSWER_WRITTEN, .written = done});
}

static void on_lseek(fuse_req_t req, fuse_ino_t ino, off_t offset, int whence, struct fuse_file_info *info) {
    struct request request = request_of(req);
    uint64_t found = 0;
    (void)info;
    int err = requests_begin(&request);
    if (!err) err = holes_seek(request.mount, inode_of(&request, ino), (uint64_t)offset, whence, &found);
    err = requests_end(&request, err);
    if (!answer_failed(&request, err)) fuse_reply_lseek(req, (off_t)found);
}

// Where nothing is kept, all is in memory.
static void on_fsync(fuse_req_t req, fuse_ino_t ino, int data_only, struct fuse_file_info *info) {
    struct request request = request_of(req);
    struct handle *handle = handle_of(info);
    struct answer answer = {
        .kind = ANSWER_SYNCED, .request = request, .errseq_seen = handle ? &handle->errseq_seen : NULL};
    bool is_kept = request.mount->store;
    (void)ino, (void)data_only;
    int err = is_kept ? requests_begin(&request) : 0;
    if (is_kept) err = requests_end(&request, err);
    if (is_kept && !err) answer_sync(&answer);
    else answer_done(&request, err);
}

static void on_opendir(fuse_req_t req, fuse_ino_t ino, struct fuse_file_info *info) {
    struct request request = request_of(req);
    (void)ino;
    if (!answer_failed(&request, open_handle(&request, info) ? 0 : ENOMEM)) fuse_reply_open(req, info);
}

static void on_releasedir(fuse_req_t req, fuse_ino_t ino, struct fuse_file_info *info) {
    (void)ino;
    close_handle(info);
    fuse_reply_err(req, 0);
}

static void answer_page(const struct request *request, fuse_ino_t ino, size_t size, off_t at,
                        struct fuse_file_info *info, bool is_plus) {
    struct page_args args = {inode_of(request, ino), &handle_of(info)->names, size, at, is_plus};
    listing_answer(request, &args);
}

static void on_readdir(fuse_req_t req, fuse_ino_t ino, size_t size, off_t at, struct fuse_file_info *info) {
    struct request request = request_of(req);
    answer_page(&request, ino, size, at, info, false);
}

static void on_readdirplus(fuse_req_t req, fuse_ino_t ino, size_t size, off_t at, struct fuse_file_info *info) {
    struct request request = request_of(req);
    answer_page(&request, ino, size, at, info, true);
}

static fsblkcnt_t blocks_left(uint64_t size, uint64_t taken) { return taken < size ? (size - taken) / 4096 : 0; }

// Names count as inodes. There is no most of them.
static void on_statfs(fuse_req_t req, fuse_ino_t ino) {
    const fsfilcnt_t left = 1u << 30;
    struct mem_usage room = memlimit_usage();
    (void)ino;
    requests_lock();
    uint64_t entries = entry_count(fuse_req_userdata(req));
    requests_unlock();
    struct statvfs stat = {.f_bsize = 4096,
                           .f_frsize = 4096,
                           .f_files = left + (entries == ENTRIES_UNKNOWN ? 0 : entries),
                           .f_ffree = left,
                           .f_favail = left,
                           .f_blocks = room.size / 4096,
                           .f_bfree = blocks_left(room.size, room.taken),
                           .f_bavail = blocks_left(room.size, room.taken + room.reserve),
                           .f_namemax = LONGEST_NAME};
    fuse_reply_statfs(req, &stat);
}

static void on_setxattr(fuse_req_t req, fuse_ino_t ino, const char *name, const char *value, size_t size, int flags) {
    struct request request = request_of(req);
    int err = requests_begin(&request);
    if (!err) err = extended_set(&request, inode_of(&request, ino), name, value, size, flags);
    finish_done(&request, err);
}

static void on_removexattr(fuse_req_t req, fuse_ino_t ino, const char *name) {
    struct request request = request_of(req);
    int err = requests_begin(&request);
    if (!err) err = extended_remove(&request, inode_of(&request, ino), name);
    finish_done(&request, err);
}

// Bytes that were asked for, or how many they are where no room was given.
static void answer_sized(const struct request *request, int err, const struct bytes *bytes, size_t capacity) {
    if (!err && capacity && bytes->length > capacity) err = ERANGE;
    if (answer_failed(request, err)) return;
    if (capacity) fuse_reply_buf(request->req, bytes->at, bytes->length);
    else fuse_reply_xattr(request->req, bytes->length);
}

static void on_getxattr(fuse_req_t req, fuse_ino_t ino, const char *name, size_t capacity) {
    struct request request = request_of(req);
    struct bytes value = {NULL};
    int err = begin_bytes(&request, ino);
    if (!err) err = extended_get(request.mount, inode_of(&request, ino), name, &value);
    err = requests_end(&request, err);
    answer_sized(&request, err, &value, capacity);
    bytes_free(&value);
}

static void on_listxattr(fuse_req_t req, fuse_ino_t ino, size_t capacity) {
    struct request request = request_of(req);
    struct bytes names = {NULL};
    int err = begin_bytes(&request, ino);
    if (!err) err = extended_list(request.mount, inode_of(&request, ino), !fuse_req_ctx(req)->uid, &names);
    err = requests_end(&request, err);
    answer_sized(&request, err, &names, capacity);
    bytes_free(&names);
}

// Of kernels since 6.16: all names that the kernel knows are asked for anew. Older ones refuse it.
bool requests_invalidate_names(void) {
    enum { ALL_NAMES_ARE_STALE = 8 };
    struct {
        uint32_t length;
        int32_t what;
        uint64_t request;
    } notice = {sizeof notice, ALL_NAMES_ARE_STALE, 0};
    return write(fuse_session_fd(session), &notice, sizeof notice) == sizeof notice;
}

// What the kernel has to forget where the tree becomes another one.
struct stale {
    bool is_all;        // all names at once, which it can: none was noted
    struct bytes noted; // else a list of `struct stale_dentry`
};

static struct stale find_stale(void) { return (struct stale){.is_all = requests_invalidate_names()}; }

// Where names are noted.
static struct bytes *noted(struct stale *stale) { return stale->is_all ? NULL : &stale->noted; }

// The kernel is notified of names while it may wait for other requests, so no lock is held.
static void notify_noted(struct bytes *list) {
    struct stale_dentry *stale = (struct stale_dentry *)list->at;
    for (size_t i = 0; i < list->length / sizeof *stale; i++) {
        if (stale[i].parent_ino)
            fuse_lowlevel_notify_inval_entry(session, stale[i].parent_ino, stale[i].name, strlen(stale[i].name));
        if (stale[i].ino) fuse_lowlevel_notify_inval_inode(session, stale[i].ino, 0, 0);
        mem_free(stale[i].name);
    }
}

// Of all inodes that it knows, so many at a time that others need not wait.
static void notify_known(void) {
    size_t slot = 0;
    bool has_more = true;
    struct bytes inodes = {NULL};
    while (has_more) {
        requests_lock();
        has_more = inodes_next_known(&slot, &inodes);
        requests_unlock();
        for (size_t i = 0; i < inodes.length / sizeof(fuse_ino_t); i++)
            fuse_lowlevel_notify_inval_inode(session, ((fuse_ino_t *)inodes.at)[i], 0, 0);
    }
    bytes_free(&inodes);
}

// Tells the kernel to forget what it knows; where the tree is as it was, nothing. Whether it is on the disk does not
// matter.
static void notify_stale(struct stale *stale, bool is_other_tree) {
    if (is_other_tree && stale->is_all) {
        requests_invalidate_names();
        notify_known();
    }
    notify_noted(&stale->noted);
    fuse_lowlevel_notify_inval_inode(session, FUSE_ROOT_ID, -1, 0);
    bytes_free(&stale->noted);
}

struct restoring {
    struct request request;
    struct restore_request wanted;
};

// Counts the names of a tree that no request counted. The kernel knows by then what is stale.
static void count_entries(struct mount *mount) {
    requests_lock();
    bool is_counted = entry_count(mount) != ENTRIES_UNKNOWN;
    requests_unlock();
    if (!is_counted) entry_count_walk(mount);
}

// A worker: the other requests are served while the former tree is freed, and while the kernel forgets. Without memory
// for a fork of that tree they wait for it.
static void restore(void *argument) {
    struct restoring *restoring = argument;
    struct request *request = &restoring->request;
    struct stale stale = find_stale();
    struct doorvervain former = {0};
    int err = requests_begin(request);
    if (!err) worker_fork(request->mount, NULL, &former);
    if (!err) err = snapshot_restore(request->mount, restoring->wanted.name, noted(&stale));
    bool is_other_tree = !err;
    struct store *store = request->mount->store;
    err = requests_end(request, err);
    doorvervain_close(&former);
    if (!err && store && store_syncs_each(store)) err = store_sync(store);
    notify_stale(&stale, is_other_tree);
    count_entries(request->mount);
    if (!answer_failed(request, err)) fuse_reply_ioctl(request->req, 0, NULL, 0);
    mem_free(restoring);
}

static int start_restoring(const struct request *request, const struct restore_request *wanted) {
    if (request->mount->replica) return EOPNOTSUPP;
    if (!memchr(wanted->name, 0, sizeof wanted->name)) return EINVAL;
    struct restoring *restoring = mem_alloc(sizeof *restoring);
    if (!restoring) return ENOMEM;
    *restoring = (struct restoring){*request, *wanted};
    int err = worker_start(restore, restoring);
    if (err) mem_free(restoring);
    return err;
}

struct receiving {
    struct request request;
    struct bytes text;
};

// A worker: the other requests are served while the delta is applied, while the former tree is freed, and while the
// kernel forgets.
static void receive(void *argument) {
    struct receiving *receiving = argument;
    struct request *request = &receiving->request;
    struct stale stale = find_stale();
    struct delta_answer answer;
    int err = delta_receive(request, &receiving->text, &answer, noted(&stale));
    bool is_other_tree = !err && answer.outcome == DELTA_IS_DONE;
    if (!err && request->mount->store) err = store_sync(request->mount->store);
    notify_stale(&stale, is_other_tree);
    count_entries(request->mount);
    if (!answer_failed(request, err)) fuse_reply_ioctl(request->req, 0, &answer, sizeof answer);
    bytes_free(&receiving->text);
    mem_free(receiving);
}

static int start_receiving(const struct request *request, struct handle *handle) {
    if (!request->mount->backend.tree) return EOPNOTSUPP;
    struct receiving *receiving = mem_alloc(sizeof *receiving);
    if (!receiving) return ENOMEM;
    *receiving = (struct receiving){*request, handle->text};
    handle->text = (struct bytes){NULL};
    handle->sent = 0;
    int err = worker_start(receive, receiving);
    if (!err) return 0;
    bytes_free(&receiving->text);
    mem_free(receiving);
    return err;
}

// A text takes no more memory than a call that makes the tree grow.
static int take_coming_piece(struct request *request, const struct delta_piece *piece, struct handle *handle) {
    if (piece->count > sizeof piece->bytes) return EINVAL;
    if (!request->mount->backend.tree) return EOPNOTSUPP;
    memlimit_begin(&request->budget);
    int err = bytes_append(&handle->text, piece->bytes, piece->count);
    memlimit_suspend();
    if (!err) fuse_reply_ioctl(request->req, 0, NULL, 0);
    return err ? ENOSPC : 0;
}

static int answer_exit_report(const struct request *request) {
    struct exit_report_pipe pipe = exit_report_pipe();
    fuse_reply_ioctl(request->req, 0, &pipe, sizeof pipe);
    return 0;
}

struct sending {
    struct request request;
    struct send_request wanted;
    struct handle *handle; // the kernel keeps it open until the request is answered
};

// A worker: the other requests are served while the text is printed.
static void print_text(void *argument) {
    struct sending *sending = argument;
    struct request *request = &sending->request;
    struct doorvervain_edits edits = {NULL};
    int err = requests_begin(request);
    if (!err) err = delta_begin(request->mount, &sending->wanted, &edits);
    err = requests_end(request, err);
    if (!err) err = delta_print(&edits, &sending->handle->text);
    doorvervain_edits_end(&edits);
    if (err) bytes_free(&sending->handle->text);
    sending->handle->is_printing = false;
    if (!answer_failed(request, err)) fuse_reply_ioctl(request->req, 0, NULL, 0);
    mem_free(sending);
}

static int start_sending(const struct request *request, const struct send_request *wanted, struct handle *handle) {
    if (!request->mount->backend.tree) return EOPNOTSUPP;
    struct sending *sending = mem_alloc(sizeof *sending);
    if (!sending) return ENOMEM;
    *sending = (struct sending){*request, *wanted, handle};
    handle->text.length = handle->sent = 0;
    handle->is_printing = true;
    int err = worker_start(print_text, sending);
    if (!err) return 0;
    handle->is_printing = false;
    mem_free(sending);
    return err;
}

static int answer_sent_piece(const struct request *request, struct handle *handle) {
    struct delta_piece piece;
    size_t left = handle->text.length - handle->sent;
    piece.count = (uint32_t)(left < sizeof piece.bytes ? left : sizeof piece.bytes);
    if (piece.count) memcpy(piece.bytes, handle->text.at + handle->sent, piece.count);
    memset(piece.bytes + piece.count, 0, sizeof piece.bytes - piece.count);
    handle->sent += piece.count;
    fuse_reply_ioctl(request->req, 0, &piece, sizeof piece);
    return 0;
}

static int answer_status(const struct request *request) {
    struct mount_status status;
    int err = requests_begin(request);
    if (!err) status_fill(request->mount, &status);
    err = requests_end(request, err);
    if (!err) fuse_reply_ioctl(request->req, 0, &status, sizeof status);
    return err;
}

// What goes in and out has the size that the number of a request tells.
static int answer_asked(struct request *request, unsigned what, const void *in, struct handle *handle) {
    if (handle->is_printing) return EBUSY;
    switch (what) {
    case RESTORE_REQUEST: return start_restoring(request, in);
    case EXIT_REPORT_REQUEST: return answer_exit_report(request);
    case SEND_REQUEST: return start_sending(request, in, handle);
    case SENT_PIECE_REQUEST: return answer_sent_piece(request, handle);
    case COMING_PIECE_REQUEST: return take_coming_piece(request, in, handle);
    case STATUS_REQUEST: return answer_status(request);
    case RECEIVE_REQUEST: return start_receiving(request, handle);
    default: return ENOTTY;
    }
}

static void on_ioctl(fuse_req_t req, fuse_ino_t ino, unsigned what, void *argument, struct fuse_file_info *info,
                     unsigned flags, const void *in, size_t in_size, size_t out_size) {
    struct request request = request_of(req);
    (void)argument, (void)flags;
    uid_t asks = fuse_req_ctx(req)->uid;
    struct handle *handle = handle_of(info);
    bool has_all = in_size == (_IOC_DIR(what) & _IOC_WRITE ? _IOC_SIZE(what) : 0) &&
                   out_size == (_IOC_DIR(what) & _IOC_READ ? _IOC_SIZE(what) : 0);
    int err = ENOTTY;
    if (ino == FUSE_ROOT_ID && handle && has_all)
        err = asks && asks != getuid() ? EPERM : answer_asked(&request, what, in, handle);
    if (err) answer_failed(&request, err);
}

const struct fuse_lowlevel_ops requests = {
    .init = on_init,
    .lookup = on_lookup,
    .forget = on_forget,
    .forget_multi = on_forget_many,
    .getattr = on_getattr,
    .setattr = on_setattr,
    .mkdir = on_mkdir,
    .mknod = on_mknod,
    .symlink = on_symlink,
    .link = on_link,
    .readlink = on_readlink,
    .unlink = on_unlink,
    .rmdir = on_rmdir,
    .rename = on_rename,
    .open = on_open,
    .create = on_create,
    .release = on_release,
    .read = on_read,
    .write = on_write,
    .fallocate = on_fallocate,
    .copy_file_range = on_copy_file_range,
    .lseek = on_lseek,
    .fsync = on_fsync,
    .fsyncdir = on_fsync,
    .opendir = on_opendir,
    .releasedir = on_releasedir,
    .readdir = on_readdir,
    .readdirplus = on_readdirplus,
    .statfs = on_statfs,
    .setxattr = on_setxattr,
    .getxattr = on_getxattr,
    .listxattr = on_listxattr,
    .removexattr = on_removexattr,
    .ioctl = on_ioctl,
};
