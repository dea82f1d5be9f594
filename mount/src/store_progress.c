// What a start of more than two seconds says of its progress, on standard error.
//
// Invariant: the thread that says it only reads what the start is at; it ends before the start does.
#include "store_inside.h"
#include <inttypes.h>
#include <stdio.h>
#include <time.h>

enum { SECONDS_BETWEEN_LINES = 2, MEGABYTE = 1000000 };

// What is written has no known size.
static void report(const struct store_progress *progress, unsigned seconds) {
    const char *what = progress->what;
    char total[32] = "";
    if (!what) return;
    if (progress->total) snprintf(total, sizeof total, " of %" PRIu64, progress->total / MEGABYTE);
    fprintf(stderr, "doorvervain-mount: %s: %s %" PRIu64 ", %" PRIu64 "%s MB, after %u s\n", progress->folder, what,
            progress->number, progress->done / MEGABYTE, total, seconds);
}

static void *run(void *self) {
    struct store_progress *progress = self;
    struct timespec until;
    unsigned seconds = 0;
    clock_gettime(CLOCK_MONOTONIC, &until);
    pthread_mutex_lock(&progress->lock);
    while (!progress->ends) {
        until.tv_sec += SECONDS_BETWEEN_LINES;
        seconds += SECONDS_BETWEEN_LINES;
        int err = 0;
        while (!progress->ends && !err) err = pthread_cond_timedwait(&progress->ended, &progress->lock, &until);
        if (!progress->ends) report(progress, seconds);
    }
    pthread_mutex_unlock(&progress->lock);
    return NULL;
}

void progress_begin(struct store *store) {
    struct store_progress *progress = &store->progress;
    pthread_condattr_t how;
    progress->folder = store->folder;
    pthread_mutex_init(&progress->lock, NULL);
    pthread_condattr_init(&how);
    pthread_condattr_setclock(&how, CLOCK_MONOTONIC);
    pthread_cond_init(&progress->ended, &how);
    progress->has_thread = !pthread_create(&progress->thread, NULL, run, progress);
}

void progress_set(struct store *store, const char *what, uint64_t number, uint64_t total) {
    store->progress.number = number;
    store->progress.done = 0;
    store->progress.total = total;
    store->progress.what = what;
}

void progress_end(struct store *store) {
    struct store_progress *progress = &store->progress;
    if (!progress->has_thread) return;
    pthread_mutex_lock(&progress->lock);
    progress->ends = true;
    pthread_cond_signal(&progress->ended);
    pthread_mutex_unlock(&progress->lock);
    pthread_join(progress->thread, NULL);
    progress->has_thread = false;
}
