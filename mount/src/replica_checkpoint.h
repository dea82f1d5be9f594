// Checkpoints of a replica's log: the image of the tree at one version, stored in etcd beside the log, in parts. A
// mount starts from the newest one, and the log before it may be compacted.
#ifndef REPLICA_CHECKPOINT_H
#define REPLICA_CHECKPOINT_H
#include "etcd_client.h"

struct replica;

// Where a log goes on after an image; version 0: at its beginning.
struct checkpoint {
    uint64_t version;  // of the log, that the image has
    uint64_t revision; // of etcd, that this version has
    uint64_t parts;
    char sum[72];    // of the image, as SHA-256
    uint64_t put_at; // the revision of etcd at which it was put; 0: there is none
};

// The key that has the front of the last value of the log that the mount of a number put: it is put with that.
#define MARK "mounts/%llu"

// The newest checkpoint where it is after a version, and its image as a file without a name (-1: there is none).
int checkpoint_fetch(struct etcd_client *etcd, uint64_t after, struct checkpoint *out, int *file);
// What the mark of a mount has; nothing where it put no value.
int checkpoint_fetch_last_put(struct etcd_client *etcd, uint64_t mount, struct bytes *out);

// Keeps the tree as it is, by a thread, where the log after the last checkpoint is long enough. The thread that
// serves calls the second function now and then, which takes what has ended.
void checkpoint_begin(struct replica *replica);
void checkpoint_step(struct replica *replica);
// The one that is being made is not wanted any more, and ends soon.
void checkpoint_cancel(struct replica *replica);
void checkpoint_end(struct replica *replica);
// The mount is at its end: no question is asked again.
void checkpoint_give_up(void);
#endif
