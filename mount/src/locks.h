// The locks of a mount. A thread waits for one only while it holds none that is below it here:
//
//   wal_lock      of a store: while its log is written, and while the disk is waited for
//   request_lock  of requests.c: while a request uses the tree and what is known of its inodes
//   wake_lock     of a store: what waits for the disk, and the sleep of the store's two threads
//   queue_lock    of a store: free batches
//   pool->lock    of worker_pool.h: a task that several threads share
//
// So nothing that may wait for the disk, or for the kernel, is called under the request lock. The thread that serves
// requests only tries `wal_lock`, and syncs by itself only where the disk was quick the last time. The locks of a
// replica (replica_inside.h, etcd_log.c, replica_catchup.c, replica_checkpoint.c) are each taken under the request lock
// or alone.
//
// A function that needs one of the first two asserts that its thread holds it.
#ifndef LOCKS_H
#define LOCKS_H
#include <assert.h>
#include <pthread.h>
#include <stdbool.h>
#include <stdint.h>

struct lock {
    pthread_mutex_t mutex;
    _Atomic uintptr_t holder; // the thread that holds it; 0: none does
};

#define LOCK_FREE                                                                                                      \
    { PTHREAD_MUTEX_INITIALIZER, 0 }

static inline bool lock_is_held(const struct lock *lock) { return lock->holder == (uintptr_t)pthread_self(); }

static inline void lock_take(struct lock *lock) {
    assert(!lock_is_held(lock));
    pthread_mutex_lock(&lock->mutex);
    lock->holder = (uintptr_t)pthread_self();
}

// Takes it where no other thread holds it.
static inline bool lock_try(struct lock *lock) {
    if (pthread_mutex_trylock(&lock->mutex)) return false;
    lock->holder = (uintptr_t)pthread_self();
    return true;
}

static inline void lock_drop(struct lock *lock) {
    assert(lock_is_held(lock));
    lock->holder = 0;
    pthread_mutex_unlock(&lock->mutex);
}
#endif
