// Threads for requests that take long, and forks of trees for them.
//
// Invariant: `busy` is how many were started and have not ended. A worker takes the request lock for what it does to
// the mount's tree and inodes, and holds no lock while it uses a fork, which is its own.
#include "workers.h"
#include "memlimit.h"
#include "request.h"
#include <assert.h>
#include <errno.h>
#include <pthread.h>
#include <stdlib.h>
#include <string.h>

struct worker {
    void (*run)(void *argument);
    void *argument;
};

static _Atomic unsigned busy;

bool workers_are_busy(void) { return busy > 0; }

static void *work(void *self) {
    struct worker worker = *(struct worker *)self;
    mem_free(self);
    worker.run(worker.argument);
    busy--;
    return NULL;
}

int worker_start(void (*run)(void *argument), void *argument) {
    pthread_t thread;
    struct worker *worker = mem_alloc(sizeof *worker);
    if (!worker) return ENOMEM;
    *worker = (struct worker){run, argument};
    busy++;
    int err = pthread_create(&thread, NULL, work, worker);
    if (!err) {
        pthread_detach(thread);
        return 0;
    }
    busy--;
    mem_free(worker);
    return err;
}

int worker_fork(const struct mount *mount, const char *snapshot, struct doorvervain *out) {
    struct doorvervain_frozen tree;
    assert(request_lock_is_held(mount));
    if (!snapshot) return doorvervain_errno(doorvervain_fork(mount->backend.tree, out));
    uint8_t number = doorvervain_open_snapshot(mount->backend.tree, snapshot, strlen(snapshot), &tree);
    if (!number) number = doorvervain_frozen_fork(&tree, out);
    else out->ptr = NULL;
    doorvervain_frozen_close(&tree);
    return doorvervain_errno(number);
}

int worker_list(const struct doorvervain *tree, const char *path, struct bytes *out) {
    size_t size = 4096, length = strlen(path);
    uint8_t number = DOORVERVAIN_ERANGE;
    out->length = 0;
    while (number == DOORVERVAIN_ERANGE) {
        if (bytes_reserve(out, size)) return ENOMEM;
        number = doorvervain_readdir(tree, path, length, out->at, out->capacity, &size);
    }
    if (!number) out->length = size;
    return doorvervain_errno(number);
}
