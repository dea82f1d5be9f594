// Threads that share one task with the thread that has it.
//
// Invariant: each part of a task is done exactly once, by whoever takes its index, and `pool_run` returns after all
// parts are done. Without any thread the caller does all of them.
#include "worker_pool.h"
#include <unistd.h>

static void do_parts(struct pool_task *task) {
    size_t index;
    while ((index = atomic_fetch_add(&task->begun, 1)) < task->count) task->part(task->self, index);
}

// Under the lock: waits for work that this thread has not seen. One that is over is none.
static struct pool_task *wait_for_work(struct worker_pool *pool, uint64_t *seen) {
    while (!pool->ends && (pool->tasks == *seen || !pool->task)) {
        *seen = pool->tasks;
        pthread_cond_wait(&pool->begins, &pool->lock);
    }
    *seen = pool->tasks;
    return pool->ends ? NULL : pool->task;
}

static void *serve(void *self) {
    struct worker_pool *pool = self;
    struct pool_task *task;
    uint64_t seen = 0;
    pthread_mutex_lock(&pool->lock);
    while ((task = wait_for_work(pool, &seen))) {
        pool->busy++;
        pthread_mutex_unlock(&pool->lock);
        do_parts(task);
        pthread_mutex_lock(&pool->lock);
        if (!--pool->busy) pthread_cond_signal(&pool->ended);
    }
    pthread_mutex_unlock(&pool->lock);
    return NULL;
}

void pool_begin(struct worker_pool *pool) {
    long wanted = sysconf(_SC_NPROCESSORS_ONLN) / 2;
    pthread_mutex_init(&pool->lock, NULL);
    pthread_cond_init(&pool->begins, NULL);
    pthread_cond_init(&pool->ended, NULL);
    while (pool->count < MAX_WORKERS && pool->count < wanted &&
           !pthread_create(&pool->threads[pool->count], NULL, serve, pool))
        pool->count++;
}

void pool_run(struct worker_pool *pool, struct pool_task *task) {
    if (pool->count && task->count > 1) {
        pthread_mutex_lock(&pool->lock);
        pool->task = task;
        pool->tasks++;
        pthread_cond_broadcast(&pool->begins);
        pthread_mutex_unlock(&pool->lock);
    }
    do_parts(task);
    if (!pool->task) return;
    pthread_mutex_lock(&pool->lock);
    pool->task = NULL;
    while (pool->busy) pthread_cond_wait(&pool->ended, &pool->lock);
    pthread_mutex_unlock(&pool->lock);
}

void pool_end(struct worker_pool *pool) {
    if (!pool->count) return;
    pthread_mutex_lock(&pool->lock);
    pool->ends = true;
    pthread_cond_broadcast(&pool->begins);
    pthread_mutex_unlock(&pool->lock);
    while (pool->count) pthread_join(pool->threads[--pool->count], NULL);
}
