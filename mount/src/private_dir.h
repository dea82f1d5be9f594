// The private directory of the mount, /.doorvervain. It has the attribute records in `tree`, the files with several
// names in `links`, and orphans in `unlinked`, which are in no image and in no restored tree.
#ifndef PRIVATE_DIR_H
#define PRIVATE_DIR_H
#include "mount.h"

#define PRIVATE_PATH "/" RESERVED
#define LINKS_PATH PRIVATE_PATH "/" LINKS
#define UNLINKED_PATH PRIVATE_PATH "/" UNLINKED
#define TREE_PATH PRIVATE_PATH "/tree"

enum private_dir { PRIVATE_ROOT, PRIVATE_LINKS, PRIVATE_UNLINKED };

// A path of a file in one of them.
struct private_path {
    char text[sizeof UNLINKED_PATH + 24];
};

// Called once the volume is open, and where its tree came from elsewhere: what is said on standard error is of that.
int private_start(struct mount *mount);
// No entry of this mount gets the number that a file of several names has in a tree; null: in the live one.
int private_find_links(struct mount *mount, const char *snapshot);
// Whether the live tree may have files of several names.
bool private_has_links(struct mount *mount);
// Makes one of the directories where it does not stand. The root keeps its mtime.
int private_make(struct mount *mount, enum private_dir which);
// A place in `unlinked` where nothing is.
int private_orphan_path(struct mount *mount, struct private_path *out);
// The place of the file with several names that has a number.
struct private_path private_link(uint64_t number);
// Orphans are removed. To be called where a tree was restored, too.
int private_drop_orphans(struct mount *mount);
// Those of the directories go that are empty. Whether there are orphans.
bool private_tidy(struct mount *mount);
// Nothing is used any more: the directories go that are empty.
int private_end(struct mount *mount);
// The name after the last slash of a path.
const char *private_name(const struct private_path *path);
#endif
