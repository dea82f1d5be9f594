// What a mount tells of itself, and the process of --status that prints it, as lines or as one JSON object.
//
// Invariant: to tell it waits for no disk and walks no tree.
#define _GNU_SOURCE
#include "status.h"
#include "entry_count.h"
#include "memlimit.h"
#include "replica.h"
#include "request.h"
#include "store.h"
#include <assert.h>
#include <dirent.h>
#include <errno.h>
#include <fcntl.h>
#include <inttypes.h>
#include <stdio.h>
#include <stdlib.h>
#include <string.h>
#include <unistd.h>

#define NANOSECONDS 1e9

void status_fill(const struct mount *mount, struct mount_status *out) {
    assert(request_lock_is_held(mount));
    *out = (struct mount_status){
        .entries = entry_count(mount),
        .taken = memlimit_taken(),
        .size = memlimit_size(),
        .steps_due = backend_compaction_debt(&mount->backend),
        .has_store = mount->store,
        .has_replica = mount->replica,
    };
    if (mount->store) store_fill_status(mount->store, &out->store);
    if (mount->replica) replica_fill_status(mount, &out->replica);
}

// ---- the process that asks

static int report(const char *what, const char *which, int err) {
    fprintf(stderr, "doorvervain-mount: %s%s: %s\n", what, which, strerror(err));
    return 1;
}

static int is_snapshot(const struct dirent *entry) {
    return strcmp(entry->d_name, ".") && strcmp(entry->d_name, "..");
}

static void print_members(const char *members) {
    for (bool is_first = true; *members; is_first = false) {
        size_t length = strcspn(members, ",");
        printf("%s\"%.*s\"", is_first ? "" : ", ", (int)length, members);
        members += length + (members[length] == ',');
    }
}

static void print_json(const struct mount_status *status, struct dirent **snapshots, int count) {
    printf("{\"files\": ");
    if (status->entries == ENTRIES_UNKNOWN) printf("null");
    else printf("%" PRIu64, status->entries);
    printf(", \"memory\": %" PRIu64 ", \"size\": %" PRIu64 ", \"steps_due\": %" PRIu64 ", \"snapshots\": [",
           status->taken, status->size, status->steps_due);
    for (int i = 0; i < count; i++) printf("%s\"%s\"", i ? ", " : "", snapshots[i]->d_name);
    printf("]");
    if (status->has_store)
        printf(", \"store\": {\"log\": %" PRIu64 ", \"pending\": %" PRIu64 ", \"last_sync\": %.3f, \"refuses\": %s}",
               status->store.log_bytes, status->store.pending_bytes, (double)status->store.since_sync / NANOSECONDS,
               status->store.is_refusing ? "true" : "false");
    if (status->has_replica) {
        printf(", \"replica\": {\"version\": %" PRIu64 ", \"waiting\": %" PRIu64 ", \"behind\": %s, \"members\": [",
               status->replica.version, status->replica.waiting, status->replica.is_behind ? "true" : "false");
        print_members(status->replica.members);
        printf("]}");
    }
    printf("}\n");
}

static void print_lines(const struct mount_status *status, struct dirent **snapshots, int count) {
    if (status->entries != ENTRIES_UNKNOWN) printf("files      %" PRIu64 "\n", status->entries);
    printf("memory     %" PRIu64 " bytes", status->taken);
    if (status->size) printf(" of %" PRIu64, status->size);
    printf("\nsteps due  %" PRIu64 "\nsnapshots  %d\n", status->steps_due, count);
    for (int i = 0; i < count; i++) printf("           %s\n", snapshots[i]->d_name);
    if (status->has_store) {
        printf("log        %" PRIu64 " bytes\npending    %" PRIu64 " bytes\n", status->store.log_bytes,
               status->store.pending_bytes);
        printf("last sync  %.1f s ago\n", (double)status->store.since_sync / NANOSECONDS);
        if (status->store.is_refusing) printf("changes    fail until a checkpoint is complete\n");
    }
    if (!status->has_replica) return;
    printf("members    %s\nversion    %" PRIu64 "\nwaiting    %" PRIu64 " changes\n", status->replica.members,
           status->replica.version, status->replica.waiting);
    if (status->replica.is_behind) printf("log        not followed\n");
}

// Those of a replica, which has none, are no error.
static int list_snapshots(int root, struct dirent ***out) {
    int count = scandirat(root, ".snapshots", out, is_snapshot, alphasort);
    return count < 0 ? 0 : count;
}

static int print_of(int root, const char *mount_point, bool as_json) {
    struct mount_status status;
    struct dirent **snapshots = NULL;
    if (ioctl(root, STATUS_REQUEST, &status)) return report("cannot ask ", mount_point, errno);
    int count = list_snapshots(root, &snapshots);
    if (as_json) print_json(&status, snapshots, count);
    else print_lines(&status, snapshots, count);
    for (int i = 0; i < count; i++) free(snapshots[i]);
    free(snapshots);
    return fflush(stdout) || ferror(stdout) ? report("not all was written", "", errno) : 0;
}

int print_status(const char *mount_point, bool as_json) {
    int root = open(mount_point, O_RDONLY | O_DIRECTORY | O_CLOEXEC);
    if (root < 0) return report("cannot open ", mount_point, errno);
    int status = print_of(root, mount_point, as_json);
    close(root);
    return status;
}
