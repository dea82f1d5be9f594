// The inodes that the kernel knows, by parent and name. All of this is a cache: an inode is freed when the kernel
// forgets it, and what must last is in the volume. No proof covers any of this.
#ifndef INODES_H
#define INODES_H
#include "backend.h"
#include <sys/stat.h>
#include <time.h>

// Directories of the root that are the mount's own, and those below the second.
#define SNAPSHOTS ".snapshots"
#define RESERVED DOORVERVAIN_RESERVED
#define LINKS "links"
#define UNLINKED "unlinked"

enum role {
    ORDINARY,
    LIVE_ROOT,       // the root of the mount
    SNAPSHOT_FOLDER, // /.snapshots
    SNAPSHOT_ROOT,   // /.snapshots/NAME
    PRIVATE_DIR,     // the reserved directory, and those in it: no listing shows them
};

struct attrs {
    struct doorvervain_attributes base; // but the times below, and the extended attributes
    bool has_record;
    bool has_extended;
    bool has_capability; // `security.capability` is one of them
    uint64_t changed;    // the timestamp of the record
};

struct inode {
    struct inode *parent;         // null: the root, or taken out
    struct inode *first;          // of those below it
    struct inode *before, *after; // beside it
    struct inode *same_slot;      // in the table of names
    char *name;
    enum role role;
    bool is_directory;
    bool is_unlinked; // its name is gone, and it stands in the directory for that
    uint64_t ino;     // as stat(2) tells it: no other entry has it, or had it
    uint64_t link;    // its number as a file of several names; 0: its name is its own
    uint64_t nlookup; // what the kernel holds
    uint64_t open_count;
    // Caches of what the volume has. A number is that of a state of the mount in which it was right.
    uint64_t attrs_gen;    // when the attributes were read
    uint64_t records_gen;  // when records below this directory were looked for
    bool no_records_below; // there were none
    // Of a directory, for prune.h. A name in it that had a record, as the directory for records has it; null: none is
    // known.
    char *known_record;
    unsigned refusals; // how many times that directory was found not to be empty
    struct attrs attrs;
    uint64_t blocks_gen; // when the bytes that take room were counted
    uint64_t stored, length;
    // Times that no volume keeps.
    struct timespec access, change;
    bool has_access;
    uint64_t entries; // of a snapshot's root: names in its tree (entry_count.h)
    // Of a directory: how many names it has, and in which state of the mount that was known.
    uint64_t names, names_gen;
    bool is_pinned; // an unlinked file that could not be removed yet: not freed with its directory
};

// The path of an inode. `path` points into `text`.
struct resolved_path {
    const char *snapshot; // null: in the live tree
    const char *path;
    char text[LONGEST_PATH + 2];
};

// The root, with the directory of snapshots; null where memory is wanting.
struct inode *inodes_start(void);
struct inode *inode_find(const struct inode *parent, const char *name);
// A new inode; null where memory is wanting.
struct inode *inode_add(struct inode *parent, const char *name, bool is_directory);
struct inode *inode_find_or_add(struct inode *parent, const char *name, bool is_directory);
// The inode of a directory below the private one, in the tree of an inode; null where memory is wanting.
struct inode *inode_private_dir(struct inode *inode, const char *name);
// The numbers of new inodes are above this one.
void inodes_number_above(uint64_t ino);
// The ordinary inodes below the root of the mount get new numbers, but for files of several names.
void inodes_renumber(struct inode *root);
// Takes an inode and all below it out of the tree. Those that nobody holds are freed.
void inode_detach(struct inode *inode);
// Gives an inode another name, which it then owns.
void inode_move(struct inode *inode, struct inode *parent, char *name);
// The numbers, in memory, of the next inodes that the kernel knows: their addresses. `*slot` is 0 at first. False: there
// are no more. Those that come meanwhile may be left out. Without memory some are.
bool inodes_next_known(size_t *slot, struct bytes *out);
// Whether the kernel knows the inode, or somebody has it open.
bool inode_is_held(const struct inode *inode);
// Frees an inode that nobody holds, and what nobody holds below it and just above it.
void inode_put(struct inode *inode);

// The path of an inode, or of a name in it where one is given: 0, ENOENT where it is out of the tree, or ENAMETOOLONG.
int inode_path(const struct inode *inode, const char *name, struct resolved_path *out);
// The root of the tree of an inode, or the directory of snapshots; null where it is out of it.
const struct inode *inode_root(const struct inode *inode);
bool inode_is_live(const struct inode *inode);

// Now, in nanoseconds since 1970, and such a number as a time; 0, which was never handed in, is the time of the mount.
uint64_t clock_now_ns(void);
struct timespec ns_to_timespec(uint64_t ns);
// A time as a timestamp; one before 1970 is 0, and one that is too late the latest.
uint64_t timespec_to_ns(struct timespec time);
#endif
