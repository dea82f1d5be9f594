// The attributes of entries, as records in the volume. An entry with the default attributes has no record: mode 644, or
// 755 for a directory, the owner of the mount, one name, and the mtime of the tree.
//
// The path and the text of a record are proved functions of the library. The record of /a/b is a file in the directory
// /.doorvervain/tree/a/b, so one rename of a directory moves all records below it. A file in the private directory has
// its record beside it.
#ifndef ATTRS_H
#define ATTRS_H
#include "txn.h"

// Whether what is at a path can have a record: 0 or ENAMETOOLONG.
int attrs_can_store(struct mount *mount, const char *path);
// The attributes of an inode that has no record.
struct attrs attrs_default(const struct mount *mount, bool is_directory);
// In a tree that was loaded and is not trusted, all is the mount's owner's, and no set-user bit holds.
void attrs_untrust(const struct mount *mount, struct doorvervain_attributes *base);
// The attributes of what is at a resolved path. A record that cannot be read is told once, and passed over. Where
// `extended`
// is given, the extended attributes go there, as the archive packs them.
int attrs_read(struct mount *mount, const struct resolved_path *resolved, bool is_directory, struct attrs *out,
               struct bytes *extended);
// The extended attributes that an entry has, for a request that changes its record.
int attrs_read_extended(struct txn *txn, const char *path, struct bytes *out);
// The attributes of a name in a directory; nothing is asked for where the directory is known to have no records below
// it.
int attrs_read_name(struct mount *mount, struct inode *parent, const struct resolved_path *resolved, bool is_directory,
                    struct attrs *out);
// The names in a directory that have records at or below them, each after a byte as `struct backend_ops` tells names.
int attrs_list(struct mount *mount, struct inode *directory, struct bytes *out);
// The attributes of an inode, which are read where they are not known.
int attrs_of(struct mount *mount, struct inode *inode, const struct attrs **out);
// Attributes that an inode has now, where `attrs_of` is not to ask for them.
void attrs_remember(struct mount *mount, struct inode *inode, const struct attrs *attrs);

// Writes a record, or takes it away where the attributes are the usual ones. What `attributes` says of a record is then
// right.
int attrs_write(struct txn *txn, const char *path, struct attrs *attrs, const struct bytes *extended);
// The record of an entry that was just made. What an image left in its place counts for nothing, and goes.
int attrs_create(struct txn *txn, struct inode *parent, const char *path, struct attrs *attrs,
                 const struct bytes *extended);
// The record that an entry has, with its extended attributes, gets other attributes. A capability goes where these have
// none.
int attrs_rewrite(struct txn *txn, struct inode *inode, struct attrs *attrs);
// Moves the records of a path and of all below it to another path, where none stand then but these.
int attrs_move(struct txn *txn, struct inode *parent, const char *from, struct inode *new_parent, const char *to);
// Takes the records of a path and of all below it away. The parent may be null: then some may be there.
int attrs_drop(struct txn *txn, struct inode *parent, const char *path);
// The same for a file of one name that has a record. Where its attributes are known it need not be read; null: they are
// not.
int attrs_erase(struct txn *txn, struct inode *parent, const char *path, const struct attrs *known);
// Takes the record alone of a path away.
int attrs_drop_one(struct txn *txn, const char *path, const struct attrs *known);
// Moves the record alone of a path, to that of a path of the mount's own.
int attrs_move_one(struct txn *txn, const char *from, const char *to);
#endif
