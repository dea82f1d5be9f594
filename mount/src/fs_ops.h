// What each request on a file or directory does to the tree, by its backend, and to the inodes. Each function is called
// under the request lock, and returns 0 or an errno; one that fails changes nothing.
#ifndef FS_OPS_H
#define FS_OPS_H
#include "request.h"
#include <sys/statvfs.h>

// What a look-up finds.
struct lookup_result {
    struct inode *inode;
    bool is_other_name; // the name is one of several, and the inode has another path
    struct stat stat;
};

// What is to be set of an inode. What is not named stays.
struct setattr {
    const mode_t *mode;
    const uid_t *user;
    const gid_t *group;
    const uint64_t *length;
    const struct timespec *access, *modify;
    bool modifies_now; // `modify` is the request's timestamp
    bool drops_set_user, drops_capability;
};

// What is to be made under a new name.
struct create_args {
    struct doorvervain_attributes base;
    const char *target; // of a symbolic link
};

// Called once the volume is open.
int fs_start(struct mount *mount);
// Nothing is open any more: what was unlinked goes.
int fs_end(struct mount *mount);

int fs_lookup(struct mount *mount, struct inode *parent, const char *name, struct lookup_result *out);
int fs_getattr(struct mount *mount, struct inode *inode, struct stat *out);
// What stands where an entry lies, and what is told of it. Its attributes are known.
int fs_node_stat(struct mount *mount, const struct inode *inode, struct node_stat *out);
void fs_fill_stat(struct mount *mount, struct inode *inode, struct node_stat node_stat, struct stat *out);
int fs_setattr(struct request *request, struct inode *inode, const struct setattr *setattr);

// What Linux takes off a file whose bytes change: its capability, and, where `drops` holds, set-user bits. That of the
// group stands where no group may execute the file.
int fs_drop_privileges(struct request *request, struct inode *inode, bool drops);
// A file is opened, with flags as of open(2), and closed. One that is cut by it may drop its set-user bits.
int fs_open(struct request *request, struct inode *inode, int flags, bool drops);
int fs_release(struct request *request, struct inode *inode);
int fs_read(const struct request *request, struct inode *inode, uint64_t offset, char *out, size_t capacity,
            size_t *got);
int fs_write(struct request *request, struct inode *inode, uint64_t offset, const char *bytes, size_t count,
             size_t *done);
// Where a write begins of a file that is open to append: in a mount of several the kernel may not know its length yet,
// and
// `offset` becomes the file's end; in any other it stays.
int files_find_end(struct mount *mount, const struct inode *inode, uint64_t *offset);
// The target of a symbolic link.
int fs_readlink(const struct request *request, struct inode *inode, struct bytes *out);

// The names of a directory, as `struct backend_ops` tells them; those of the mount's own are left out.
int fs_readdir(struct mount *mount, struct inode *inode, struct bytes *out);
// Takes those of the mount's own out of a listing of a directory.
void fs_hide_reserved(const struct inode *directory, struct bytes *listing);

// Whether a name in a directory is one of the mount's own, which no user's file has.
bool fs_is_reserved(const struct inode *parent, const char *name);
// Whether an entry may be changed: 0 or EROFS.
int fs_may_write(const struct inode *inode);
// Whether a name can be made, taken away or moved: 0, EROFS in a snapshot, EPERM for a name of the mount's own.
int fs_may_rename(const struct inode *parent, const char *name);
#endif
