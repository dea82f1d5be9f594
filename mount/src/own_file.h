// Whether a file that this process writes is its own.
#ifndef OWN_FILE_H
#define OWN_FILE_H

#define OWN_FILE_REFUSAL "it is no file of this user's own that nobody else may write to"

// Of a file that is open: 0, or EPERM if it is another user's, no regular file, or one that others may write to.
int own_file_check(int file);
#endif
