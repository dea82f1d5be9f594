// The kernel's readahead for the files of the mount.
#ifndef READAHEAD_H
#define READAHEAD_H

// Lets it ask for LARGEST_READ bytes at a time, where this process may say so. To be called when the mount stands,
// before its first request.
void raise_readahead(const char *mount_point);
#endif
