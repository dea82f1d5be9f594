// Updates the inodes after calls of other mounts, and tells the kernel which names and inodes are stale.
//
// Invariant: inodes move and go with their names, so an open file never gets the bytes of another one. The kernel is
// notified by a thread of its own, without the request lock, since it may wait for a request that is being served.
#include "replica_inside.h"
#include "private_dir.h"
#include "attrs.h"
#include "requests.h"
#include "snapshots.h"
#include "memlimit.h"
#include "text.h"
#include <errno.h>
#include <stdlib.h>
#include <string.h>

// The kinds of calls, as docs/FORMATS.md has them.
enum { A_MKDIR = 1, A_CREATE, AN_UNLINK, AN_RMDIR, AN_RMTREE, A_RENAME, A_TRUNCATION, A_WRITE, A_HOLE, A_COPY = 14 };
// The second text of a copy begins with the target offset, in so many bytes.
enum { TARGET_SIZE = 8 };

// A call of a record: its numbers as they stand there, and its texts.
struct call {
    uint64_t kind, timestamp, offset, count, lengths[2];
};

// Where a path leads to.
struct reach {
    struct inode *parent, *inode; // null: not known
    char name[LONGEST_NAME + 1];
};

// ---- what the kernel is notified of

static uint64_t ino_of(const struct inode *inode) {
    return inode->role == LIVE_ROOT ? FUSE_ROOT_ID : (uint64_t)(uintptr_t)inode;
}

static bool is_known_to_kernel(const struct inode *inode) { return inode->role == LIVE_ROOT || inode->nlookup; }

// What cannot be noted the kernel asks anew for after a second.
static void note(struct replica *replica, uint64_t parent_ino, uint64_t ino, const char *name) {
    struct stale_dentry stale = {parent_ino, ino, name ? mem_strdup(name) : NULL};
    pthread_mutex_lock(&replica->lock);
    if (bytes_append(&replica->stale, &stale, sizeof stale)) mem_free(stale.name);
    pthread_cond_signal(&replica->wakes);
    pthread_mutex_unlock(&replica->lock);
}

static void note_inode(struct replica *replica, const struct inode *inode) {
    if (inode && is_known_to_kernel(inode)) note(replica, 0, ino_of(inode), NULL);
}

void replica_note_moved(struct mount *mount, const struct inode *inode) {
    if (mount->replica && mount->replica->has_met) note_inode(mount->replica, inode);
}

static void note_name(struct replica *replica, const struct reach *reach) {
    if (!reach->parent || !is_known_to_kernel(reach->parent)) return;
    note(replica, ino_of(reach->parent), ino_of(reach->parent), reach->name);
}

static void notify_one(struct fuse_session *session, struct stale_dentry *stale) {
    if (stale->name) fuse_lowlevel_notify_inval_entry(session, stale->parent_ino, stale->name, strlen(stale->name));
    fuse_lowlevel_notify_inval_inode(session, stale->ino, 0, 0);
    mem_free(stale->name);
}

// Telling may wait for a request, so no other thread waits for it.
static void *run_inval(void *self) {
    struct replica *replica = self;
    struct bytes list = {NULL};
    pthread_mutex_lock(&replica->lock);
    while (!replica->ends || replica->stale.length) {
        if (!replica->stale.length) {
            pthread_cond_wait(&replica->wakes, &replica->lock);
            continue;
        }
        struct bytes swapped = list;
        list = replica->stale;
        replica->stale = swapped;
        pthread_mutex_unlock(&replica->lock);
        for (size_t i = 0; i < list.length / sizeof(struct stale_dentry); i++)
            notify_one(replica->session, (struct stale_dentry *)list.at + i);
        list.length = 0;
        pthread_mutex_lock(&replica->lock);
    }
    replica->inval_has_ended = true;
    pthread_mutex_unlock(&replica->lock);
    bytes_free(&list);
    return NULL;
}

int inval_start(struct replica *replica) {
    pthread_mutex_init(&replica->lock, NULL);
    pthread_cond_init(&replica->wakes, NULL);
    return pthread_create(&replica->inval_thread, NULL, run_inval, replica);
}

bool inval_stop(struct replica *replica) {
    pthread_mutex_lock(&replica->lock);
    replica->ends = true;
    pthread_cond_signal(&replica->wakes);
    bool has_ended = replica->inval_has_ended;
    pthread_mutex_unlock(&replica->lock);
    if (has_ended) pthread_join(replica->inval_thread, NULL);
    return has_ended;
}

// ---- paths

// The next name of a path, which begins with a slash: false where there is none.
static bool next_name(const char **path, const char *end, char name[LONGEST_NAME + 1]) {
    if (*path >= end) return false;
    const char *from = *path + 1, *slash = memchr(from, '/', (size_t)(end - from));
    size_t length = (size_t)((slash ? slash : end) - from);
    if (!length || length > LONGEST_NAME) return false;
    memcpy(name, from, length);
    name[length] = 0;
    *path = from + length;
    return true;
}

// With `adds` the entries of directories come to stand.
static struct reach reach_path(struct replica *replica, const char *path, size_t length, bool adds) {
    const char *end = path + length;
    struct reach reach = {.inode = replica->mount->root};
    char name[LONGEST_NAME + 1];
    while (next_name(&path, end, name)) {
        if (!reach.inode && adds && reach.parent) reach.inode = inode_add(reach.parent, reach.name, true);
        reach.parent = reach.inode;
        text_copy(reach.name, sizeof reach.name, name);
        reach.inode = reach.parent ? inode_find(reach.parent, name) : NULL;
    }
    return reach;
}

static bool begins(const char *path, size_t length, const char *with) {
    return length > strlen(with) && !memcmp(path, with, strlen(with)) && path[strlen(with)] == '/';
}

// The entry of which a path of the mount's own is the record; null where it is none.
static struct inode *inode_of_record(struct replica *replica, const char *path, size_t length) {
    static const char tree[] = PRIVATE_PATH "/tree", ending[] = ".record";
    char name[LONGEST_NAME + 1];
    const char *at = path + sizeof tree - 1, *end = path + length;
    struct inode *inode = replica->mount->root;
    if (begins(path, length, LINKS_PATH) && length > sizeof ending &&
        !memcmp(end - (sizeof ending - 1), ending, sizeof ending - 1))
        return reach_path(replica, path, length - (sizeof ending - 1), false).inode;
    if (!begins(path, length, tree)) return NULL;
    while (inode && next_name(&at, end, name)) {
        if (!strcmp(name, "\1")) return inode;
        inode = inode_find(inode, name[0] == 1 ? name + 1 : name);
    }
    return inode;
}

// ---- calls

static void take_out(struct inode *inode) {
    if (inode && inode->role == ORDINARY) inode_detach(inode);
}

// The record of an entry is another one. A file that was empty when it got its second name has another place since
// then,
// to which its entry is not moved.
static void follow_record(struct replica *replica, struct inode *inode) {
    struct attrs attrs;
    struct resolved_path resolved;
    note_inode(replica, inode);
    bool has_name = inode && inode->role == ORDINARY && !inode->is_directory && inode->parent->role != PRIVATE_DIR;
    if (!has_name || inode_path(inode, NULL, &resolved) || attrs_read(replica->mount, &resolved, false, &attrs, NULL))
        return;
    if (attrs.base.kind == DOORVERVAIN_OTHER_NAME) take_out(inode);
}

// A file that gets a place of its own keeps its entry.
static void move(struct replica *replica, struct inode *inode, const char *path, size_t length) {
    struct reach to = reach_path(replica, path, length, true);
    char *name = to.parent ? mem_strdup(to.name) : NULL;
    take_out(to.inode);
    if (!name) {
        take_out(inode);
        return;
    }
    inode_move(inode, to.parent, name);
    if (begins(path, length, LINKS_PATH)) inode->link = strtoull(name, NULL, 10);
}

static void follow_rename(struct replica *replica, const struct reach *from, const char *path, size_t length) {
    struct reach to = reach_path(replica, path, length, false);
    note_name(replica, &to);
    note_inode(replica, to.inode);
    if (from->inode && from->inode->role == ORDINARY) move(replica, from->inode, path, length);
    else take_out(to.inode);
}

static void follow_copy(struct replica *replica, const char *to, size_t length) {
    if (length <= TARGET_SIZE) return;
    note_inode(replica, reach_path(replica, to + TARGET_SIZE, length - TARGET_SIZE, false).inode);
}

static void follow_call(struct replica *replica, const struct call *call, const char *texts) {
    const char *path = texts, *other = texts + call->lengths[0];
    struct reach reach = reach_path(replica, path, call->lengths[0], false);
    follow_record(replica, inode_of_record(replica, path, call->lengths[0]));
    note_inode(replica, reach.inode);
    if (call->kind <= A_RENAME) note_name(replica, &reach);
    if (call->kind == AN_UNLINK || call->kind == AN_RMDIR || call->kind == AN_RMTREE) take_out(reach.inode);
    if (call->kind != A_RENAME) return;
    follow_record(replica, inode_of_record(replica, other, call->lengths[1]));
    follow_rename(replica, &reach, other, call->lengths[1]);
}

// ---- another tree

// Whether an entry has the same file in both trees. One that has several names, or is an orphan, lies at a number that
// no other one gets. Any other one is told by its moment: each write gives it a new one, and so has what is put in its
// place. So a file that was written to elsewhere is taken for another one, too.
static bool is_same(struct replica *replica, const struct backend *former, const struct inode *inode) {
    const struct backend *inner = &replica->layer.inner;
    struct node_stat before, now;
    struct attrs attrs;
    struct resolved_path resolved;
    if (inode_path(inode, NULL, &resolved)) return false;
    struct path_ref ref = {NULL, resolved.path};
    if (backend_stat(inner, ref, &now) || now.is_directory != inode->is_directory) return false;
    if (inode->is_directory || inode->parent->role == PRIVATE_DIR) return true;
    if (backend_stat(former, ref, &before) || before.is_directory) return false;
    if (before.mtime_ns != now.mtime_ns || before.length != now.length) return false;
    return !attrs_read(replica->mount, &resolved, false, &attrs, NULL) && attrs.base.kind == inode->attrs.base.kind;
}

static void note_below(struct replica *replica, const struct inode *inode) {
    note_inode(replica, inode);
    for (const struct inode *child = inode->first; child; child = child->after) note_below(replica, child);
}

static void forget_inode(struct replica *replica, struct inode *inode) {
    if (is_known_to_kernel(inode->parent)) note(replica, ino_of(inode->parent), ino_of(inode->parent), inode->name);
    note_below(replica, inode);
    inode_detach(inode);
}

static void follow_below(struct replica *replica, const struct backend *former, const struct inode *parent) {
    for (struct inode *inode = parent->first, *next; inode; inode = next) {
        next = inode->after;
        if (inode->role == SNAPSHOT_FOLDER) continue;
        bool stays = inode->role == PRIVATE_DIR || is_same(replica, former, inode);
        if (!stays) {
            forget_inode(replica, inode);
            continue;
        }
        note_inode(replica, inode);
        follow_below(replica, former, inode);
    }
}

void replica_follow_tree(struct replica *replica, const struct backend *former) {
    note_inode(replica, replica->mount->root);
    follow_below(replica, former, replica->mount->root);
}

void replica_update_inodes(struct replica *replica, const char *calls, size_t length) {
    struct call call;
    if (!replica->mount->root) return;
    for (size_t at = 0; at + sizeof call <= length; at += sizeof call + call.lengths[0] + call.lengths[1]) {
        memcpy(&call, calls + at, sizeof call);
        const char *texts = calls + at + sizeof call;
        if (call.kind == A_COPY) follow_copy(replica, texts + call.lengths[0], call.lengths[1]);
        else if (call.kind > A_HOLE) return; // Snapshots, which no mount over a log takes.
        else follow_call(replica, &call, texts);
    }
}
