// What a mount reports of itself (--status), by ioctl(2) on its root. Snapshots are the names in MNT/.snapshots.
#ifndef STATUS_H
#define STATUS_H
#include "mount.h"
#include <sys/ioctl.h>

enum { LONGEST_MEMBERS = 1024 };

struct store_status {
    uint64_t log_bytes;     // of the write-ahead log after the last checkpoint
    uint64_t pending_bytes; // of calls that are not written to it yet
    uint64_t since_sync;    // nanoseconds since the last sync, or since the start
    bool is_refusing;       // changes fail until a checkpoint is complete
};

struct replica_status {
    uint64_t version; // of the log, up to which all is done
    uint64_t waiting; // requests that wait for the log, and removals of unlinked files
    bool is_behind;   // what follows in the log was cut, or it cannot be followed
    char members[LONGEST_MEMBERS];
};

struct mount_status {
    uint64_t entries;     // names in the live tree; UINT64_MAX: they are not counted
    uint64_t taken, size; // bytes of memory that the tree takes, and may take; 0: all there is
    uint64_t steps_due;   // tree steps that are due for changes
    bool has_store, has_replica;
    struct store_status store;
    struct replica_status replica;
};
#define STATUS_REQUEST _IOR('D', 7, struct mount_status)

// In the mount, under the request lock.
void status_fill(const struct mount *mount, struct mount_status *out);
// The process that asks; its status.
int print_status(const char *mount_point, bool as_json);
#endif
