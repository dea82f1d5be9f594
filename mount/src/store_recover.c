// Recovers a store at its start: the newest complete checkpoint, and the logs from its number on ("Store" in
// docs/FORMATS.md).
//
// Validity: each file is known by the one before it: tree.N and snapshots.N by their digests and log.N by its salt, in
// tree.N.sum, and each later log by the salt and the number of records of the log before, in its header. How many records
// the newest log has at least is noted in the file lock. Records are replayed in order up to the first that is not
// complete. What is after that is cut off if it can be the end of a write that was not synced: it is in the last log that
// has records, no sync marker follows it, and no note counts it. Else the store was damaged, and nothing is written. The
// first byte is written only after all logs were replayed. A rescue takes what is whole up to there, and writes nothing.
#define _GNU_SOURCE
#include "library.h"
#include "own_file.h"
#include "store_inside.h"
#include <errno.h>
#include <fcntl.h>
#include <inttypes.h>
#include <stdio.h>
#include <string.h>
#include <sys/mman.h>
#include <sys/stat.h>
#include <unistd.h>

enum { PIECE = 8 << 20 };

// A log's bytes, and how far its records are whole.
struct wal_file {
    uint64_t number;
    int fd;
    const char *bytes;
    size_t length, whole;
    struct wal_header header; // of version 1: none
    size_t first;             // bytes of the header's record
    size_t records;           // its header too
    unsigned marks;           // sync markers at the end of the records
};

struct wal_files {
    struct wal_file *at;
    size_t count;
    size_t last;           // the log that goes on
    struct last_log noted; // what the last mount noted
};

// A checkpoint that is complete.
struct checkpoint {
    uint64_t number;
    char tree[PATH_MAX]; // empty: there is none
    struct checkpoint_sum sum;
};

static size_t count_of(const struct bytes *numbers) { return numbers->length / sizeof(uint64_t); }

static uint64_t number_at(const struct bytes *numbers, size_t index) { return ((const uint64_t *)numbers->at)[index]; }

// What is damaged ends a start. A rescue goes on without it.
static int lose(struct store *store, int err) {
    if (!err || !store->rescues) return err;
    store->has_lost = true;
    return 0;
}

static int report_missing(const struct store *store, const char *kind, uint64_t number, const char *ending) {
    char name[STORE_NAME];
    store_name_of(name, kind, number, ending);
    store_report(store, "%s is missing", name);
    return EINVAL;
}

// ---- the files of logs

static int map_file(const struct store *store, struct wal_file *file) {
    char name[STORE_NAME];
    struct stat stat;
    store_name(name, "log", file->number);
    file->fd = openat(store->directory, name, (store->rescues ? O_RDONLY : O_RDWR) | O_CLOEXEC | O_NOFOLLOW);
    if (file->fd < 0 || fstat(file->fd, &stat)) return errno;
    int err = store->rescues ? 0 : own_file_check(file->fd);
    if (err) return err;
    file->length = (size_t)stat.st_size;
    if (!file->length) return 0;
    void *at = mmap(NULL, file->length, PROT_READ, MAP_PRIVATE, file->fd, 0);
    if (at == MAP_FAILED) return errno;
    file->bytes = at;
    return 0;
}

static void close_files(struct wal_files *files) {
    for (size_t i = 0; i < files->count; i++) {
        struct wal_file *file = &files->at[i];
        if (file->bytes) munmap((void *)(uintptr_t)file->bytes, file->length);
        if (file->fd >= 0) close(file->fd);
    }
}

static int open_file(const struct store *store, struct wal_file *file) {
    int err = map_file(store, file);
    if (err) store_report(store, "log.%" PRIu64 ": %s", file->number, err == EPERM ? OWN_FILE_REFUSAL : strerror(err));
    return err;
}

static int open_files(struct store *store, struct wal_files *files) {
    int err = 0;
    for (size_t i = 0; !err && i < files->count; i++) {
        err = open_file(store, &files->at[i]);
        if (err && store->rescues) files->count = i;
    }
    return lose(store, err);
}

// ---- each log is the one that its predecessor names

static int refuse(const struct store *store, const struct wal_file *file, const char *why) {
    store_report(store, "log.%" PRIu64 ": %s", file->number, why);
    return EINVAL;
}

static bool is_salted(const struct wal_file *file) { return file->first; }

// A log gets its name with its header on the disk.
static int read_header(const struct store *store, struct wal_file *file, bool may_be_old) {
    if (!wal_is_salted(file->bytes, file->length) && may_be_old) return 0;
    if (!wal_read_header(file->bytes, file->length, store_record(file->number, 0), &file->header))
        return refuse(store, file,
                      "its first record was on the disk, and is damaged or missing, or is that of another log");
    file->first = file->whole = WAL_HEADER_RECORD;
    file->records = 1;
    return 0;
}

static int check_first(const struct store *store, const struct wal_file *file, const struct checkpoint_sum *sum) {
    if (sum->version < 2 || wal_same_salt(&file->header.salt, &sum->salt)) return 0;
    return refuse(store, file, "it is not the log that the file of checksums names");
}

static int check_next(const struct store *store, const struct wal_file *file, const struct wal_file *before) {
    if (!is_salted(file) || wal_same_salt(&file->header.prior_salt, &before->header.salt)) return 0;
    return refuse(store, file, "it does not follow the log before it");
}

static int read_and_check(const struct store *store, struct wal_file *file, const struct wal_file *before,
                          const struct checkpoint_sum *sum) {
    bool may_be_old = sum->version < 2 && !(before && is_salted(before));
    int err = read_header(store, file, may_be_old);
    if (err) return err;
    return before ? check_next(store, file, before) : check_first(store, file, sum);
}

// Where a header is damaged, the salt of its log stands in the file of checksums, or in the next log.
static bool guess_header(struct wal_file *file, const struct wal_file *next, const struct checkpoint_sum *sum) {
    struct wal_header behind = {.prior_salt.length = 0};
    bool has_next = next && wal_read_header(next->bytes, next->length, store_record(next->number, 0), &behind);
    file->header = (struct wal_header){.salt = sum ? sum->salt : behind.prior_salt};
    if (!file->header.salt.length && has_next) file->header.salt = behind.prior_salt;
    if (!file->header.salt.length || file->length < WAL_HEADER_RECORD) return false;
    file->first = file->whole = WAL_HEADER_RECORD;
    file->records = 1;
    return true;
}

static int read_headers(struct store *store, struct wal_files *files, const struct checkpoint_sum *sum) {
    int err = 0;
    for (size_t i = 0; !err && i < files->count; i++) {
        struct wal_file *file = &files->at[i];
        err = read_and_check(store, file, i ? file - 1 : NULL, sum);
        if (!err || !store->rescues) continue;
        err = lose(store, err);
        bool is_guessed = guess_header(file, i + 1 < files->count ? file + 1 : NULL, i ? NULL : sum);
        if (!is_guessed) files->count = i;
    }
    return err;
}

// ---- the records of a log

static size_t markers_at_end(const struct wal_file *file) {
    size_t count = 0, size = 0, at = file->whole;
    while (count < MARKS_OF_ROTATION && at >= file->first + WAL_MARKER && file->records > count) {
        at -= WAL_MARKER;
        uint64_t number = store_record(file->number, file->records - 1 - count);
        if (!wal_next(file->bytes + at, WAL_MARKER, &file->header.salt, number, &size) || size) break;
        count++;
    }
    return count;
}

// Of so many bytes of a log, runs the records that lie whole in front.
static int run_piece(const struct store *store, struct wal_file *file, size_t length, size_t *call) {
    size_t records = 0, size = 0;
    int err = doorvervain_errno(doorvervain_wal_salted_replay(
        store->volume, file->bytes + file->whole, length, file->header.salt.bytes, file->header.salt.length,
        store_record(file->number, file->records), &records, call, &size));
    file->records += records;
    file->whole += size;
    return err;
}

// Runs the records that lie whole in front, one after the other: a piece of the log at a time, which is larger where a
// record is.
static int run_log(struct store *store, struct wal_file *file) {
    size_t call = 0, piece = PIECE, before;
    int err = 0;
    progress_set(store, "replays log", file->number, file->length);
    for (bool ends = false; !err && !ends;) {
        size_t left = file->length - file->whole;
        before = file->whole;
        ends = piece >= left;
        err = run_piece(store, file, ends ? left : piece, &call);
        if (!ends && file->whole == before) piece *= 2;
        store->progress.done = file->whole;
    }
    file->marks = (unsigned)markers_at_end(file);
    if (err)
        store_report(store, "log.%" PRIu64 ": call %zu of record %zu, at byte %zu, is not done: %s", file->number, call,
                     file->records, file->whole, strerror(err));
    return err;
}

static int report_damage(const struct store *store, const struct wal_file *file) {
    store_report(store, "log.%" PRIu64 ": record %zu, at byte %zu, was on the disk and is damaged", file->number,
                 file->records, file->whole);
    return EINVAL;
}

// What a log has after its records until it is closed.
static bool has_zeros_alone(const struct wal_file *file) {
    const char *rest = file->bytes + file->whole;
    size_t count = file->length - file->whole;
    return !rest[0] && !memcmp(rest, rest + 1, count - 1);
}

// A log that others follow is whole, with all records that it had when the next one began.
static int check_end(const struct store *store, const struct wal_file *file, const struct wal_file *next) {
    bool is_whole = file->whole == file->length;
    if (is_salted(next)) is_whole = is_whole && file->records == next->header.prior_records + MARKS_OF_ROTATION;
    return is_whole ? 0 : report_damage(store, file);
}

// What its mount had not synced is not there.
static void report_kill(const struct store *store, const struct wal_file *file) {
    store_report(store, "log.%" PRIu64 ": its mount did not end well; record %zu, which ends at byte %zu, is the last",
                 file->number, file->records - 1, file->whole);
}

// ---- what the last mount noted of the newest log

static int report_missing_record(const struct store *store, const struct wal_file *file) {
    store_report(store,
                 "log.%" PRIu64 ": record %zu, at byte %zu, was on the disk and is missing, as the file lock tells",
                 file->number, file->records - file->marks, file->whole - file->marks * WAL_MARKER);
    return EINVAL;
}

static int report_old_note(const struct store *store, const struct wal_file *file) {
    store_report(store, "lock: it is older than log.%" PRIu64, file->number);
    return 0;
}

// A mount that began, and left the log as it was then, was killed; or the log is an older one.
static int check_noted_log(const struct store *store, const struct wal_file *file, const struct last_log *noted,
                           bool is_newest) {
    uint64_t records = file->records - file->marks;
    if (!wal_same_salt(&file->header.salt, &noted->salt))
        return refuse(store, file, "it is not the log that the file lock names");
    if (records < noted->records) return report_missing_record(store, file);
    bool is_as_noted = records == noted->records && is_newest;
    if (noted->has_ended && !is_as_noted) return report_old_note(store, file);
    if (!noted->has_ended && is_as_noted && file->marks >= MARKS_OF_END) report_kill(store, file);
    return 0;
}

// A loss of power may leave a text of which nothing is known.
static int check_without_note(const struct store *store, const struct wal_file *newest) {
    bool has_changes = newest->records - newest->marks > 1;
    if (is_salted(newest) && has_changes)
        store_report(store,
                     "lock: it does not tell how many records log.%" PRIu64 " had: an older one would not be noticed",
                     newest->number);
    return 0;
}

static int check_noted(const struct store *store, const struct wal_files *files) {
    const struct last_log *noted = &files->noted;
    const struct wal_file *oldest = &files->at[0], *newest = &files->at[files->last];
    if (!noted->is_known) return check_without_note(store, newest);
    if (noted->number > newest->number) return refuse(store, newest, "the file lock names a later log");
    if (noted->number < oldest->number) return noted->has_ended ? report_old_note(store, oldest) : 0;
    const struct wal_file *file = oldest + (noted->number - oldest->number);
    return check_noted_log(store, file, noted, file == newest);
}

// ---- the end of the newest log

// Of version 1 it is not known how a mount ended.
static void report_last(const struct store *store, const struct wal_file *file) {
    if (is_salted(file) && file->marks < MARKS_OF_END) report_kill(store, file);
}

static bool has_marker_behind(const struct wal_file *file) {
    return wal_find_sync_marker(file->bytes + file->whole, file->length - file->whole, &file->header.salt,
                                store_record(file->number, file->records));
}

// A record that is not whole was not synced, and the log ends before it: but not where a mark after it, or the last
// mount, tells that it was.
static int check_last(const struct store *store, const struct wal_files *files) {
    const struct wal_file *file = &files->at[files->last];
    size_t count = file->length - file->whole;
    if (file->marks >= MARKS_OF_ROTATION) return report_missing(store, "log", file->number + 1, "");
    bool is_whole = !count || has_zeros_alone(file);
    if (!is_whole && has_marker_behind(file)) return report_damage(store, file);
    int err = check_noted(store, files);
    if (err) return err;
    if (is_whole) return report_last(store, file), 0;
    store_report(store, "log.%" PRIu64 ": record %zu, at byte %zu, is not whole, and is cut off with %zu bytes",
                 file->number, file->records, file->whole, count);
    return 0;
}

// ---- all logs

static bool has_bytes_behind(const struct wal_files *files, size_t index) {
    for (size_t i = index + 1; i < files->count; i++)
        if (files->at[i].length > files->at[i].first) return true;
    return false;
}

// Whether a log has all that it had when the next one began, which has a header.
static bool is_ended(const struct wal_files *files, size_t index) {
    const struct wal_file *file = &files->at[index];
    if (index + 1 == files->count || file->whole < file->length) return false;
    const struct wal_header *next = &files->at[index + 1].header;
    return next->salt.length && file->records == next->prior_records + MARKS_OF_ROTATION;
}

// A log has nothing after its header until the log before it is on the disk: where that is not at its end, it goes on.
static int run_logs(struct store *store, struct wal_files *files) {
    for (size_t i = 0; i < files->count; i++) {
        int err = run_log(store, &files->at[i]);
        files->last = i;
        if (!err && is_ended(files, i)) continue;
        if (!err && !has_bytes_behind(files, i)) return lose(store, check_last(store, files));
        if (!err) err = check_end(store, &files->at[i], &files->at[i + 1]);
        if (err) return lose(store, err);
    }
    return 0;
}

// What a rescue leaves: the records after the first that is damaged may rest on it.
static void report_left(const struct store *store, const struct wal_files *files) {
    for (size_t i = files->last; i < files->count; i++) {
        const struct wal_file *file = &files->at[i];
        size_t count = 0, size = 0;
        for (size_t at = file->whole; file->first && at + WAL_MARKER <= file->length; at++)
            if (wal_is_salted(file->bytes + at, file->length - at) &&
                wal_next_any(file->bytes + at, file->length - at, &file->header.salt, &size))
                count++, at += WAL_MARKER + size - 1;
        if (count) store_report(store, "log.%" PRIu64 ": %zu whole records behind that are left", file->number, count);
    }
}

static int cut(const struct wal_file *file) {
    if (file->whole < file->length && ftruncate(file->fd, (off_t)file->whole)) return errno;
    return fsync(file->fd) ? errno : 0;
}

// Here the first byte is written. What a mount wrote that was killed may not be on the disk yet.
static int cut_logs(const struct store *store, const struct wal_files *files) {
    char name[STORE_NAME];
    int err = 0;
    for (size_t i = 0; !err && i <= files->last; i++) err = cut(&files->at[i]);
    for (size_t i = files->last + 1; !err && i < files->count; i++) {
        store_name(name, "log", files->at[i].number);
        if (unlinkat(store->directory, name, 0)) err = errno;
    }
    return err;
}

// The log is written on from here. Of the marks of the end of a mount the first stays.
static void go_on(struct store *store, struct wal_file *file) {
    unsigned over = file->marks > 1 ? file->marks - 1 : 0;
    uint64_t length = file->whole - over * WAL_MARKER;
    store->log = (struct wal_log){.file = file->fd,
                                  .number = file->number,
                                  .salt = file->header.salt,
                                  .length = length,
                                  .allocated = length,
                                  .records = file->records - over,
                                  .marks = file->marks - over};
    file->fd = -1;
}

// ---- a store that begins, and one of an older release

// The first log of a new store has nothing yet. It has no file of checksums then, if its beginning was cut short: no
// mount has noted anything.
static bool is_beginning(const struct wal_files *files, const struct checkpoint *checkpoint) {
    if (checkpoint->number || checkpoint->sum.version > 1 || files->noted.is_known) return false;
    return !files->count || (is_salted(&files->at[0]) && files->at[0].length == files->at[0].first);
}

static bool is_old(const struct wal_files *files) { return files->count && !is_salted(&files->at[0]); }

// Only a tree 0 that was put there by hand has no file of checksums.
static int check_beginning(const struct store *store, const struct wal_files *files,
                           const struct checkpoint *checkpoint) {
    if (checkpoint->sum.version > 1 || is_old(files) || is_beginning(files, checkpoint)) return 0;
    return report_missing(store, files->count ? "tree" : "log", checkpoint->number, files->count ? ".sum" : "");
}

static int write_sum_of_tree(const struct store *store, const struct checkpoint *checkpoint) {
    struct checkpoint_sum sum = {.salt = store->log.salt};
    struct bytes text = {NULL};
    int err = sha256_of_file(checkpoint->tree, sum.tree);
    if (!err) err = store_print_sum(&text, checkpoint->number, &sum);
    if (!err) err = bytes_append(&text, "", 1);
    if (!err) err = image_write_sum(checkpoint->tree, text.at);
    bytes_free(&text);
    return err;
}

static int begin(struct store *store, const struct wal_files *files, const struct checkpoint *checkpoint) {
    int err = files->count ? 0 : wal_create(store, 0, NULL, &store->log);
    if (err) return err;
    return *checkpoint->tree ? write_sum_of_tree(store, checkpoint) : store_first_checkpoint(store);
}

static void report_old(struct store *store) {
    store_report(store, "it is of release 0.2 or before: it is read by the rules of that, and written anew soon");
    store->checkpoint_at = 0;
}

// ---- all of it

static int write_first(struct store *store, struct wal_files *files, const struct checkpoint *checkpoint) {
    int err = files->count ? cut_logs(store, files) : 0;
    for (size_t i = 0; files->count && i <= files->last; i++)
        store->wal_bytes += files->at[i].whole - files->at[i].first;
    store->is_synced = true;
    if (!err && files->count) go_on(store, &files->at[files->last]);
    if (!err && is_beginning(files, checkpoint)) err = begin(store, files, checkpoint);
    if (!err && fsync(store->directory)) err = errno;
    if (err) return store_report(store, "%s", strerror(err)), err;
    store_note_last(store, false);
    if (is_old(files)) report_old(store);
    store_clear(store, checkpoint->number);
    return 0;
}

static int run_all(struct store *store, struct wal_files *files, const struct checkpoint *checkpoint) {
    store_read_last(store, &files->noted);
    int err = open_files(store, files);
    if (!err) err = read_headers(store, files, &checkpoint->sum);
    if (!err) err = lose(store, check_beginning(store, files, checkpoint));
    if (!err) err = run_logs(store, files);
    if (!err && store->has_lost) report_left(store, files);
    if (!err && !store->rescues) err = write_first(store, files, checkpoint);
    close_files(files);
    return err;
}

// The logs from the checkpoint's number on, one for each number. Only a new store has none.
static int choose_logs(const struct store *store, const struct bytes *numbers, uint64_t first, struct bytes *out) {
    for (size_t i = 0; i < count_of(numbers); i++) {
        struct wal_file file = {.number = number_at(numbers, i), .fd = -1};
        if (file.number < first) continue;
        uint64_t wanted = first + out->length / sizeof file;
        if (file.number != wanted) return report_missing(store, "log", wanted, "");
        if (bytes_append(out, &file, sizeof file)) return ENOMEM;
    }
    return 0;
}

static int load_logs(struct store *store, const struct checkpoint *checkpoint) {
    struct bytes numbers = {NULL}, chosen = {NULL};
    int err = store_numbers(store, "log", "", &numbers);
    if (!err) err = lose(store, choose_logs(store, &numbers, checkpoint->number, &chosen));
    struct wal_files files = {.at = (struct wal_file *)chosen.at, .count = chosen.length / sizeof(struct wal_file)};
    if (!err && !files.count && (checkpoint->number || checkpoint->sum.version > 1))
        err = lose(store, report_missing(store, "log", checkpoint->number, ""));
    if (!err) err = run_all(store, &files, checkpoint);
    bytes_free(&numbers);
    bytes_free(&chosen);
    return err;
}

// ---- the checkpoint

// Whether that of a number is complete: an image that was put there by hand, as number 0, has no checksums.
static int check_checkpoint(const struct store *store, uint64_t number, struct checkpoint *out) {
    char name[STORE_NAME];
    store_name(name, "tree", number);
    out->number = number;
    int err = store_path(store, name, out->tree);
    if (!err) err = store_read_sum(store, number, &out->sum);
    if (err) return err;
    if (!out->sum.version && number) return report_missing(store, "tree", number, ".sum");
    if (!out->sum.version)
        store_report(store, "%s: no %s.sum stands beside it: whether it is whole is not known", name, name);
    return store_check_files(store, number, &out->sum);
}

static int list_checkpoints(const struct store *store, struct bytes *out) {
    struct bytes sums = {NULL};
    int err = store_numbers(store, "tree", "", out);
    if (!err) err = store_numbers(store, "tree", ".sum", &sums);
    for (size_t i = 0; !err && i < count_of(&sums); i++) {
        bool is_listed = false;
        for (size_t j = 0; j < count_of(out); j++) is_listed |= number_at(out, j) == number_at(&sums, i);
        if (!is_listed) err = bytes_append(out, (uint64_t *)sums.at + i, sizeof(uint64_t));
    }
    bytes_free(&sums);
    return err;
}

// The highest that is complete; none where there is none at all.
static int find_checkpoint(const struct store *store, struct checkpoint *out) {
    struct bytes numbers = {NULL};
    int err = list_checkpoints(store, &numbers);
    size_t count = count_of(&numbers);
    bool is_found = !count;
    for (uint64_t below = UINT64_MAX; !err && !is_found; below = out->number) {
        uint64_t next = 0;
        bool has_next = false;
        for (size_t i = 0; i < count; i++)
            if (number_at(&numbers, i) < below && number_at(&numbers, i) >= next)
                next = number_at(&numbers, i), has_next = true;
        if (!has_next) break;
        is_found = !check_checkpoint(store, next, out);
    }
    bytes_free(&numbers);
    if (!err && is_found && !count) *out = (struct checkpoint){.number = 0};
    return err ? err : is_found ? 0 : EINVAL;
}

// Reports what is taken unverified of an incomplete checkpoint: its tree or, if that has its checksum, its snapshots.
static void report_unknown(const struct store *store, const struct checkpoint *checkpoint) {
    char name[STORE_NAME];
    bool is_right = store_is_tree_of(store, checkpoint->number, &checkpoint->sum);
    store_name(name, is_right ? "snapshots" : "tree", checkpoint->number);
    if (store_has(store, name))
        store_report(store, "%s: it is taken as it is: whether its bytes are right is not known", name);
}

// Where none is complete, a rescue takes the highest tree that there is, whatever its bytes are.
static int find_any_tree(struct store *store, struct checkpoint *out) {
    struct bytes numbers = {NULL};
    int err = store_numbers(store, "tree", "", &numbers);
    size_t count = count_of(&numbers);
    char name[STORE_NAME];
    *out = (struct checkpoint){.number = count ? number_at(&numbers, count - 1) : 0};
    bytes_free(&numbers);
    store->has_lost = true;
    if (err || !count) return err;
    store_name(name, "tree", out->number);
    if (store_read_sum(store, out->number, &out->sum)) out->sum = (struct checkpoint_sum){.version = 1};
    report_unknown(store, out);
    return store_path(store, name, out->tree);
}

static int choose_checkpoint(struct store *store, struct checkpoint *out) {
    int err = find_checkpoint(store, out);
    return err && store->rescues ? find_any_tree(store, out) : err;
}

static bool has_snapshots(const struct store *store, const struct checkpoint *checkpoint) {
    char name[STORE_NAME];
    store_name(name, "snapshots", checkpoint->number);
    return *checkpoint->sum.snapshots || (*checkpoint->tree && checkpoint->sum.version < 2 && store_has(store, name));
}

static uint64_t size_of(const char *file) {
    struct stat stat;
    return !lstat(file, &stat) ? (uint64_t)stat.st_size : 0;
}

// What belongs to a tree, which the volume has, and what the logs after it have.
static int load_behind(struct store *store, const struct checkpoint *checkpoint, const struct backend *backend) {
    uint64_t index_size = 0;
    int err = 0;
    if (has_snapshots(store, checkpoint)) {
        progress_set(store, "makes snapshots", checkpoint->number, 0);
        err = lose(store, store_make_snapshots(store, backend, checkpoint->number, &index_size));
    }
    checkpoint_threshold(store, size_of(checkpoint->tree) + index_size);
    if (!err) err = load_logs(store, checkpoint);
    return err ? err : store_find_snapshots(store);
}

// How many bytes the lines of an image take before the first that is bad; 0 where the first is.
static size_t good_bytes(const struct bytes *text) {
    struct doorvervain volume;
    uint64_t bad = 0;
    if (!doorvervain_load(&volume, DOORVERVAIN_FANOUT, DOORVERVAIN_PENDING, DOORVERVAIN_LEAF, (const uint8_t *)text->at,
                          text->length, &bad)) {
        doorvervain_close(&volume);
        return text->length;
    }
    size_t at = 0;
    for (uint64_t line = 1; line < bad; line++) {
        const char *end = memchr(text->at + at, '\n', text->length - at);
        if (!end) return 0;
        at = (size_t)(end - text->at) + 1;
    }
    return at;
}

// Of an image that is damaged a rescue takes the lines before the first bad one.
static int load_lines_of(const struct bytes *text, struct open_options *options, struct backend *backend) {
    char name[64];
    size_t length = good_bytes(text);
    int copy = memfd_create("lines", MFD_CLOEXEC), err = copy < 0 ? errno : 0;
    for (size_t at = 0; !err && at < length;) {
        ssize_t done = write(copy, text->at + at, length - at);
        if (done < 0) err = errno;
        else at += (size_t)done;
    }
    snprintf(name, sizeof name, "/proc/self/fd/%d", copy);
    options->image = length ? name : NULL;
    if (!err) err = open_library(options, backend);
    if (copy >= 0) close(copy);
    return err;
}

static int load_first_lines(struct open_options *options, struct backend *backend) {
    struct bytes text = {NULL};
    int file = options->image ? open(options->image, O_RDONLY | O_CLOEXEC) : -1;
    int err = file < 0 ? EINVAL : bytes_read_all(&text, file);
    if (!err) err = load_lines_of(&text, options, backend);
    if (file >= 0) close(file);
    bytes_free(&text);
    return err;
}

int store_load(struct store *store, const struct open_options *options, struct backend *backend) {
    struct checkpoint checkpoint;
    int err = choose_checkpoint(store, &checkpoint);
    if (err) return err;
    struct open_options inner = *options;
    inner.image = *checkpoint.tree ? checkpoint.tree : NULL;
    progress_set(store, "loads tree", checkpoint.number, size_of(checkpoint.tree));
    err = open_library(&inner, backend);
    if (err && store->rescues) err = load_first_lines(&inner, backend);
    if (err) return err;
    store->volume = library_volume(backend->self);
    err = load_behind(store, &checkpoint, backend);
    if (err) backend->ops->close(backend->self, NULL);
    return err;
}
