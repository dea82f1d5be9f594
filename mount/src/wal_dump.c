// The process of --dump-log: prints the logs of a store as lines of a script ("Logs" and "Script" in docs/FORMATS.md).
//
// Validity: as in store_recover.c, records count up to the first that is not complete or has not the next number. It
// opens the logs for reading alone.
#include "store_inside.h"
#include <errno.h>
#include <fcntl.h>
#include <inttypes.h>
#include <stdio.h>
#include <stdlib.h>
#include <string.h>
#include <sys/mman.h>
#include <sys/stat.h>
#include <unistd.h>

// The lines of a record's body, into room that grows: where there is none, their length alone is told.
static int put_lines(const uint8_t *body, size_t length, struct bytes *room) {
    size_t size = 0;
    uint8_t number = doorvervain_wal_dump(body, length, NULL, 0, &size);
    if (number || !size) return doorvervain_errno(number);
    if (bytes_reserve(room, size)) return ENOMEM;
    number = doorvervain_wal_dump(body, length, (uint8_t *)room->at, room->capacity, &size);
    if (number) return doorvervain_errno(number);
    return fwrite(room->at, 1, size, stdout) == size ? 0 : EIO;
}

// Of the records that lie whole in front. The first of a log of version 2 has no changes.
static int put_records(uint64_t log, const char *bytes, size_t length) {
    struct bytes room = {NULL};
    struct wal_header header = {.salt.length = 0};
    bool is_salted = wal_read_header(bytes, length, store_record(log, 0), &header);
    size_t at = is_salted ? WAL_HEADER_RECORD : 0, size = 0;
    int err = 0;
    if (!is_salted) header.salt.length = 0;
    for (uint64_t index = is_salted; !err; index++) {
        if (!wal_next(bytes + at, length - at, &header.salt, store_record(log, index), &size)) break;
        printf("# record %" PRIu64 " of log.%" PRIu64 ", at byte %zu\n", index, log, at);
        err = put_lines((const uint8_t *)bytes + at + DOORVERVAIN_WAL_HEADER, size, &room);
        at += DOORVERVAIN_WAL_HEADER + size + DOORVERVAIN_WAL_TRAILER;
    }
    if (!err && at < length) printf("# what lies behind byte %zu of log.%" PRIu64 " counts for nothing\n", at, log);
    bytes_free(&room);
    return err;
}

static int put_log(const struct store *store, uint64_t number) {
    char name[STORE_NAME];
    struct stat stat;
    store_name(name, "log", number);
    int err = 0, file = openat(store->directory, name, O_RDONLY | O_CLOEXEC | O_NOFOLLOW);
    if (file < 0 || fstat(file, &stat)) err = errno;
    if (!err && stat.st_size) {
        void *bytes = mmap(NULL, (size_t)stat.st_size, PROT_READ, MAP_PRIVATE, file, 0);
        err = bytes == MAP_FAILED ? errno : put_records(number, bytes, (size_t)stat.st_size);
        if (bytes != MAP_FAILED) munmap(bytes, (size_t)stat.st_size);
    }
    if (file >= 0) close(file);
    if (err) store_report(store, "%s: %s", name, strerror(err));
    return err;
}

static int put_logs(const struct store *store) {
    struct bytes numbers = {NULL};
    int err = store_numbers(store, "log", "", &numbers);
    for (size_t at = 0; !err && at < numbers.length; at += sizeof(uint64_t)) {
        uint64_t number;
        memcpy(&number, numbers.at + at, sizeof number);
        err = put_log(store, number);
    }
    bytes_free(&numbers);
    return err || fflush(stdout);
}

int store_dump_wal(const char *folder) {
    struct store store = {.directory = -1, .lock_file = -1};
    if (access(folder, F_OK)) {
        fprintf(stderr, "doorvervain-mount: %s: %s\n", folder, strerror(errno));
        return 1;
    }
    int err = store_lock(&store, folder);
    if (!err) err = put_logs(&store);
    if (store.lock_file >= 0) close(store.lock_file);
    if (store.directory >= 0) close(store.directory);
    return err != 0;
}
