// The inodes that the kernel knows, in a hash table of parent and name.
//
// Invariant: this is a cache. An inode is freed when the kernel has forgotten it, nobody has it open and it has no
// children; what must last is in the volume. No two inodes ever have the same `ino`.
#include "inodes.h"
#include "memlimit.h"
#include <errno.h>
#include <stdatomic.h>
#include <stdlib.h>
#include <string.h>
#include <unistd.h>

static struct inode **slots;
static size_t slot_count, entry_count;
static _Atomic uint64_t numbers; // of entries that there ever were
static struct inode *gone; // out of the tree, and held: at the end of a mount the kernel does not forget all of them
static struct timespec began;

enum { NANOSECONDS = 1000000000, SLOTS_AT_ONCE = 1024 };

static struct timespec now(void) {
    struct timespec time;
    clock_gettime(CLOCK_REALTIME, &time);
    return time;
}

uint64_t clock_now_ns(void) {
    struct timespec time = now();
    return (uint64_t)time.tv_sec * NANOSECONDS + (uint64_t)time.tv_nsec;
}

struct timespec ns_to_timespec(uint64_t ns) {
    if (!ns) return began;
    return (struct timespec){.tv_sec = (time_t)(ns / NANOSECONDS), .tv_nsec = (long)(ns % NANOSECONDS)};
}

uint64_t timespec_to_ns(struct timespec time) {
    uint64_t ns;
    if (time.tv_sec < 0) return 0;
    bool is_late = __builtin_mul_overflow((uint64_t)time.tv_sec, NANOSECONDS, &ns) ||
                   __builtin_add_overflow(ns, (uint64_t)time.tv_nsec, &ns);
    return is_late ? UINT64_MAX : ns;
}

static size_t slot_of(const struct inode *parent, const char *name) {
    uint64_t hash = 1469598103934665603u ^ ((uint64_t)(uintptr_t)parent >> 4);
    for (; *name; name++) hash = (hash ^ (unsigned char)*name) * 1099511628211u;
    return (size_t)((hash ^ hash >> 32) & (slot_count - 1));
}

static void enter_slot(struct inode *inode) {
    struct inode **slot = &slots[slot_of(inode->parent, inode->name)];
    inode->same_slot = *slot;
    *slot = inode;
}

static void leave_slot(struct inode *inode) {
    struct inode **at = &slots[slot_of(inode->parent, inode->name)];
    while (*at != inode) at = &(*at)->same_slot;
    *at = inode->same_slot;
}

// Twice as many slots; where memory is wanting the old ones do.
static void widen(void) {
    struct inode **old = slots, **wide = mem_calloc(2 * slot_count, sizeof(*wide));
    if (!wide) return;
    size_t count = slot_count;
    slots = wide;
    slot_count *= 2;
    for (size_t i = 0; i < count; i++)
        for (struct inode *inode = old[i], *next; inode; inode = next) {
            next = inode->same_slot;
            enter_slot(inode);
        }
    mem_free(old);
}

static void link_in(struct inode *inode, struct inode *parent) {
    inode->parent = parent;
    inode->before = NULL;
    inode->after = parent->first;
    if (parent->first) parent->first->before = inode;
    parent->first = inode;
    enter_slot(inode);
}

static void link_out(struct inode *inode) {
    leave_slot(inode);
    if (inode->before) inode->before->after = inode->after;
    else inode->parent->first = inode->after;
    if (inode->after) inode->after->before = inode->before;
    inode->parent = NULL;
}

static struct inode *new_inode(char *name, bool is_directory) {
    struct inode *inode = name ? mem_calloc(1, sizeof *inode) : NULL;
    if (!inode) {
        mem_free(name);
        return NULL;
    }
    inode->name = name;
    inode->is_directory = is_directory;
    inode->ino = ++numbers;
    return inode;
}

void inodes_number_above(uint64_t ino) {
    uint64_t now = numbers;
    while (ino > now && !atomic_compare_exchange_weak(&numbers, &now, ino)) continue;
}

void inodes_renumber(struct inode *root) {
    for (struct inode *inode = root->first; inode; inode = inode->after) {
        if (inode->role != ORDINARY) continue;
        if (!inode->link) inode->ino = ++numbers;
        inodes_renumber(inode);
    }
}

struct inode *inode_find(const struct inode *parent, const char *name) {
    for (struct inode *inode = slots[slot_of(parent, name)]; inode; inode = inode->same_slot)
        if (inode->parent == parent && !strcmp(inode->name, name)) return inode;
    return NULL;
}

// Where there are twice as many slots meanwhile, what stood at one of those to come does so still.
bool inodes_next_known(size_t *slot, struct bytes *out) {
    size_t end = *slot + SLOTS_AT_ONCE < slot_count ? *slot + SLOTS_AT_ONCE : slot_count;
    out->length = 0;
    for (; *slot < end; ++*slot)
        for (const struct inode *inode = slots[*slot]; inode; inode = inode->same_slot)
            if (inode->nlookup) bytes_append(out, &inode, sizeof inode);
    return *slot < slot_count;
}

struct inode *inode_add(struct inode *parent, const char *name, bool is_directory) {
    struct inode *inode = new_inode(mem_strdup(name), is_directory);
    if (!inode) return NULL;
    if (++entry_count > slot_count) widen();
    link_in(inode, parent);
    return inode;
}

struct inode *inode_find_or_add(struct inode *parent, const char *name, bool is_directory) {
    struct inode *inode = inode_find(parent, name);
    return inode ? inode : inode_add(parent, name, is_directory);
}

struct inode *inodes_start(void) {
    began = now();
    slot_count = 1024;
    slots = mem_calloc(slot_count, sizeof(*slots));
    struct inode *root = slots ? new_inode(mem_strdup(""), true) : NULL;
    struct inode *snapshots = root ? inode_add(root, SNAPSHOTS, true) : NULL;
    if (!snapshots) return NULL;
    root->role = LIVE_ROOT;
    snapshots->role = SNAPSHOT_FOLDER;
    return root;
}

static struct inode *private_dir(struct inode *parent, const char *name) {
    struct inode *folder = inode_find_or_add(parent, name, true);
    if (folder) folder->role = PRIVATE_DIR;
    return folder;
}

struct inode *inode_private_dir(struct inode *inode, const char *name) {
    struct inode *reserved = private_dir((struct inode *)inode_root(inode), RESERVED);
    return reserved ? private_dir(reserved, name) : NULL;
}

bool inode_is_held(const struct inode *inode) { return inode->nlookup || inode->open_count; }

static void enter_gone(struct inode *inode) {
    inode->before = NULL;
    inode->after = gone;
    if (gone) gone->before = inode;
    gone = inode;
}

static void leave_gone(struct inode *inode) {
    if (inode->before) inode->before->after = inode->after;
    else gone = inode->after;
    if (inode->after) inode->after->before = inode->before;
}

// Frees an entry that is out of the tree.
static void free_out(struct inode *inode) {
    if (inode->parent || inode_is_held(inode) || inode->role == LIVE_ROOT) return;
    leave_gone(inode);
    mem_free(inode->name);
    mem_free(inode->known_record);
    mem_free(inode);
    entry_count--;
}

void inode_detach(struct inode *inode) {
    while (inode->first) inode_detach(inode->first);
    link_out(inode);
    enter_gone(inode);
    free_out(inode);
}

static bool may_go(const struct inode *inode) {
    return inode->role == ORDINARY && !inode->first && !inode->is_pinned && !inode_is_held(inode);
}

// Frees what nobody holds below an entry.
static void free_below(struct inode *inode) {
    for (struct inode *child = inode->first, *next; child; child = next) {
        next = child->after;
        if (inode_is_held(child)) continue;
        free_below(child);
        if (may_go(child)) inode_detach(child);
    }
}

void inode_put(struct inode *inode) {
    if (inode_is_held(inode)) return;
    if (!inode->parent) {
        free_out(inode);
        return;
    }
    free_below(inode);
    while (inode->parent && may_go(inode)) {
        struct inode *parent = inode->parent;
        inode_detach(inode);
        inode = parent;
    }
}

void inode_move(struct inode *inode, struct inode *parent, char *name) {
    link_out(inode);
    mem_free(inode->name);
    inode->name = name;
    link_in(inode, parent);
}

// Puts `/NAME` in front of what the resolved path has.
static int put_in_front(struct resolved_path *resolved, const char *name) {
    size_t length = strlen(name), capacity = (size_t)(resolved->path - resolved->text);
    if (length + 1 > capacity) return ENAMETOOLONG;
    char *at = resolved->text + (capacity - length - 1);
    *at = '/';
    memcpy(at + 1, name, length);
    resolved->path = at;
    return 0;
}

int inode_path(const struct inode *inode, const char *name, struct resolved_path *resolved) {
    resolved->text[sizeof resolved->text - 1] = 0;
    resolved->path = resolved->text + sizeof resolved->text - 1;
    int err = name ? put_in_front(resolved, name) : 0;
    while (!err && inode->role != LIVE_ROOT && inode->role != SNAPSHOT_ROOT) {
        if (!inode->parent) return ENOENT;
        err = put_in_front(resolved, inode->name);
        inode = inode->parent;
    }
    if (err) return err;
    resolved->snapshot = inode->role == SNAPSHOT_ROOT ? inode->name : NULL;
    return *resolved->path ? 0 : put_in_front(resolved, "");
}

const struct inode *inode_root(const struct inode *inode) {
    while (inode && (inode->role == ORDINARY || inode->role == PRIVATE_DIR)) inode = inode->parent;
    return inode;
}

bool inode_is_live(const struct inode *inode) {
    const struct inode *root = inode_root(inode);
    return root && root->role == LIVE_ROOT;
}
