// The process of --rescue: a new store of what is whole of a damaged one.
//
// Invariant: the damaged store is only read. Its newest complete checkpoint is taken, and the records after it up to the
// first that is damaged or missing; where no checkpoint is complete, the newest tree, as far as its lines are an image.
#include "store_inside.h"
#include "memlimit.h"
#include <dirent.h>
#include <errno.h>
#include <stdio.h>
#include <string.h>
#include <unistd.h>

enum { STATUS_OF_A_PART = 3 };

struct rescue {
    struct store *old, *new;
    struct backend backend;
};

static struct store *new_store(void) {
    struct store *store = mem_calloc(1, sizeof *store);
    if (!store) return NULL;
    store->directory = store->lock_file = -1;
    pthread_mutex_init(&store->wal_lock.mutex, NULL);
    return store;
}

static void free_store(struct store *store) {
    if (!store) return;
    if (store->lock_file >= 0) close(store->lock_file);
    if (store->directory >= 0) close(store->directory);
    bytes_free(&store->record_buffer);
    mem_free(store);
}

// A directory that has anything but the lock is no new store.
static int check_empty(const struct store *store) {
    int count = 0;
    DIR *listing = opendir(store->folder);
    if (!listing) return errno;
    for (struct dirent *entry; (entry = readdir(listing));)
        count += strcmp(entry->d_name, ".") && strcmp(entry->d_name, "..") && strcmp(entry->d_name, "lock");
    closedir(listing);
    return count ? ENOTEMPTY : 0;
}

// No image has as many snapshots as a volume may have.
static int drop_what_is_too_many(struct rescue *rescue) {
    struct store *new = rescue->new;
    int err = 0;
    while (!err && store_has_too_many(new)) {
        char name[LONGEST_SNAPSHOT + 1];
        memcpy(name, new->snapshots.at[0].name, sizeof name);
        store_report(new, "the snapshot %s is left out, since a checkpoint has %d at most", name, MAX_STORED_SNAPSHOTS);
        err = rescue->backend.ops->snapshot(rescue->backend.self, DROP_SNAPSHOT, name);
        if (!err) store_note_snapshot(new, DROP_SNAPSHOT, name);
        rescue->old->has_lost = true;
    }
    return err;
}

static int write_new(struct rescue *rescue) {
    struct store *new = rescue->new;
    new->volume = rescue->old->volume;
    new->snapshots = rescue->old->snapshots;
    new->last_snapshot = rescue->old->last_snapshot;
    int err = drop_what_is_too_many(rescue);
    if (!err) err = wal_create(new, 0, NULL, &new->log);
    if (err) return err;
    new->is_synced = true;
    err = store_first_checkpoint(new);
    int other = store_close_log(new);
    if (!err && !other) store_note_last(new, true);
    return err ? err : other;
}

// The new directory is tried first: what fails there costs no reading.
static int open_both(struct rescue *rescue, const char *new_folder, const char *folder) {
    int err = store_open_to_read(rescue->old, folder);
    if (err) return err;
    err = store_lock(rescue->new, new_folder);
    if (err) return err;
    err = check_empty(rescue->new);
    if (err) store_report(rescue->new, "%s", strerror(err));
    return err;
}

static int run(struct rescue *rescue, const char *new_folder, const char *folder) {
    struct open_options options = {.log_size = UINT64_MAX};
    int err = open_both(rescue, new_folder, folder);
    if (err) return err;
    progress_begin(rescue->old);
    err = store_load(rescue->old, &options, &rescue->backend);
    progress_end(rescue->old);
    if (err) return err;
    err = write_new(rescue);
    if (err) store_report(rescue->new, "%s", strerror(err));
    int other = rescue->backend.ops->close(rescue->backend.self, NULL);
    return err ? err : other;
}

int store_rescue(const char *new_folder, const char *folder) {
    struct rescue rescue = {.old = new_store(), .new = new_store()};
    int status = 1;
    if (rescue.old && rescue.new) {
        rescue.old->rescues = true;
        if (!run(&rescue, new_folder, folder)) status = rescue.old->has_lost ? STATUS_OF_A_PART : 0;
    }
    if (status != 1)
        printf("%s: %s of the store is in %s\n", rescue.old->folder, status ? "a part" : "all", rescue.new->folder);
    free_store(rescue.old);
    free_store(rescue.new);
    return status;
}
