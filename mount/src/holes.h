// Holes of files, which are not stored and read as zeros, and the number of bytes that are stored.
#ifndef HOLES_H
#define HOLES_H
#include "request.h"

// Room for so many bytes from `offset` on, by fallocate(2): a file may get longer by it, or have zeros or holes there.
int holes_allocate(struct request *request, struct inode *inode, int mode, uint64_t offset, uint64_t count);
// The next place of data or of a hole, by lseek(2): ENXIO where none is.
int holes_seek(struct mount *mount, struct inode *inode, uint64_t offset, int whence, uint64_t *out);
// How many bytes are stored of what is at an entry. It is remembered until the file changes.
uint64_t holes_stored(struct mount *mount, struct inode *inode, struct node_stat node_stat);

// What is remembered follows a change: a file has all of its bytes, so many; bytes were written, or
// copied from a file; it was cut.
void holes_dense(struct mount *mount, struct inode *inode, uint64_t length);
void holes_written(struct mount *mount, struct inode *inode, uint64_t offset, size_t count);
void holes_copied(struct mount *mount, const struct inode *from, struct inode *to, uint64_t target, uint64_t count);
void holes_cut(struct mount *mount, struct inode *inode, uint64_t length);
#endif
