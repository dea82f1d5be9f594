// Threads for requests that take long, while the serving thread goes on, and forks of trees for them.
#ifndef WORKERS_H
#define WORKERS_H
#include "mount.h"

// Runs `run(argument)` in a thread of its own: 0, or why it was not started.
int worker_start(void (*run)(void *argument), void *argument);
// Whether one is at work still. The session and the volume have to stand until then.
bool workers_are_busy(void);

// Under the request lock: the tree of a snapshot, or with a null name the live one, as a volume of its own, in constant
// time. A thread may use and close it with no lock. Each node that both have is copied where the live tree changes it.
int worker_fork(const struct mount *mount, const char *snapshot, struct doorvervain *out);
// The names of a directory of a fork, as `struct backend_ops` tells them, and nothing else.
int worker_list(const struct doorvervain *tree, const char *path, struct bytes *out);
#endif
