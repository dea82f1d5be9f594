// Threads that share one task with the thread that has it.
#ifndef WORKER_POOL_H
#define WORKER_POOL_H
#include <pthread.h>
#include <stdatomic.h>
#include <stdbool.h>
#include <stddef.h>
#include <stdint.h>

enum { MAX_WORKERS = 3 };

// Parts of work, each of which any thread may do.
struct pool_task {
    void (*part)(void *self, size_t index);
    void *self;
    size_t count;
    _Atomic size_t begun;
};

struct worker_pool {
    pthread_mutex_t lock;
    pthread_cond_t begins, ended;
    pthread_t threads[MAX_WORKERS];
    unsigned count;
    struct pool_task *task; // null: there is none to share
    uint64_t tasks;         // how many there were
    unsigned busy;          // threads that are at it
    bool ends;
};

// Begins as many threads as half of the processors, or fewer: what is not begun the owner of the work does.
void pool_begin(struct worker_pool *pool);
// Does all parts, and comes back when they are done. One thread at a time calls it.
void pool_run(struct worker_pool *pool, struct pool_task *task);
void pool_end(struct worker_pool *pool);
#endif
