// The calls of one request that changes the tree, as a transaction: each is recorded with what undoes it, so a request
// is atomic. No other request runs in between.
#ifndef TXN_H
#define TXN_H
#include "private_dir.h"

enum { MAX_UNDO = 24 };

enum undo_kind { BY_RENAME, BY_REMOVAL, BY_TEXT, BY_CREATION, BY_REMAKING };

struct undo_entry {
    enum undo_kind how;
    bool is_removal; // it goes where the request is done
    uint64_t at;     // the timestamp at which it is undone, so that directories keep theirs
    char path[LONGEST_PATH + 1];
    char back[LONGEST_PATH + 1]; // where it was; of a file that went with its directory, the directory
    struct bytes text;           // what it had
};

struct txn {
    struct mount *mount;
    uint64_t at; // the timestamp of the request
    size_t count;
    char read_path[LONGEST_PATH + 1]; // of the file that was read last; empty: none was
    struct bytes read;                // its text
    struct undo_entry undone[MAX_UNDO];
};

void txn_begin(struct txn *txn, struct mount *mount, uint64_t at);
// Makes a directory or a file at a timestamp; where that is undone, its directory gets the mtime `back_at`.
int txn_create(struct txn *txn, enum path_call what, const char *path, uint64_t at, uint64_t back_at);
// Moves what is at a path to where nothing is.
int txn_rename(struct txn *txn, const char *from, const char *to, uint64_t at, uint64_t back_at);
// The text of a file of the mount's own, until the next change of that file.
int txn_read(struct txn *txn, const char *path, const struct bytes **out);
// Gives a file of the mount's own another text.
int txn_write(struct txn *txn, const char *path, const char *text, size_t length);
// Takes what is at a path of the mount's own away, and nothing where nothing is.
int txn_remove(struct txn *txn, const char *path);
// Removes a small file of the private directory, and nothing if there is none: faster than txn_remove. A text that is
// known need not be read: this takes it over; null: it is not known.
int txn_unlink(struct txn *txn, const char *path, struct bytes *text);
// The same with the directory of the mount's own that it is alone in. ENOENT where that has none.
int txn_remove_record(struct txn *txn, const char *folder, const char *file, struct bytes *text);
// Ends a request with its fault: where there is one, all is undone. Directories for records that are empty then go.
int txn_end(struct txn *txn, int err);
#endif
