// What the files of a store share. locks.h has the order of its locks.
#ifndef STORE_INSIDE_H
#define STORE_INSIDE_H
#include "worker_pool.h"
#include "image.h"
#include "locks.h"
#include "wal_encode.h"
#include "wal_layer.h"
#include "store.h"
#include <limits.h>
#include <pthread.h>

// The calls of requests that ended, and of the one that is under way.
struct wal_batch {
    struct wal_batch *next;
    struct bytes calls;
    struct bytes ends; // as size_t: where those of each request end
};

// A list of batches.
struct batch_list {
    struct wal_batch *first, *last;
};

// A log that is written.
struct wal_log {
    int file; // -1: there is none
    uint64_t number;
    struct wal_salt salt;
    uint64_t length;    // bytes of its records
    uint64_t allocated; // and with the zeros after them
    uint64_t records;   // its header too
    unsigned marks;     // sync markers at its end
};

// A volume has no more snapshots. Where they are made of an image, the live tree takes one more name.
enum { MAX_SNAPSHOTS = 64, MAX_STORED_SNAPSHOTS = MAX_SNAPSHOTS - 1 };

struct snapshot {
    char name[LONGEST_SNAPSHOT + 1];
    uint64_t number; // that no other one of this mount has or had
};

struct snapshots {
    unsigned count;
    struct snapshot at[MAX_SNAPSHOTS];
};

// The text of a snapshot in a file of them.
struct snapshot_entry {
    uint64_t number, over;       // of the snapshot, and of the one that it is told of; 0: of the live tree
    uint64_t from, length;       // where the text stands
    char sum[SHA256_DIGITS + 1]; // of the text
};

struct snapshot_index {
    uint64_t file; // its number
    unsigned count;
    struct snapshot_entry at[MAX_STORED_SNAPSHOTS];
};

struct waiters {
    struct waiter *first;
    unsigned count;
};

// What a start is at.
struct store_progress {
    const char *folder;
    const char *_Atomic what; // it does with a file of this number
    _Atomic uint64_t number, done, total;
    pthread_t thread;
    pthread_mutex_t lock;
    pthread_cond_t ended;
    bool ends, has_thread;
};

struct store {
    struct wal_layer layer;
    char folder[PATH_MAX];
    int directory, lock_file;   // the directory, and its lock
    struct doorvervain *volume; // that of the library
    struct mount *mount;
    bool syncs_each;
    bool rescues, has_lost; // nothing is written to it, and what is damaged is left out; something was
    uint64_t log_size;
    size_t max_pending; // bytes of calls before the writeback thread is waited for

    // Under the request lock.
    struct wal_batch *batch;
    struct batch_list full_batches; // before it
    unsigned changes;               // requests since the last sync that changed something
    unsigned expected;              // so many were there before the last sync
    unsigned completing;            // above 0: what is done was answered before
    struct snapshots snapshots;     // in the order in which they were taken
    uint64_t last_snapshot;         // the last number

    // Under `wal_lock`.
    struct lock wal_lock;
    struct wal_log log;
    _Atomic uint64_t wal_bytes;    // bytes of all logs after the tree's image; read without the lock
    uint64_t checkpoint_at;        // how many of them make another image worth its while
    bool is_synced;                // all of the log is on the disk
    struct sha256_function digest; // of records
    struct bytes record_buffer;    // records that are put together
    struct bytes frames;
    struct batch_list in_flight;
    struct wal_batch *reserved_batch; // has nothing, and is there where nothing is taken
    int last_checkpoint_err;          // why the last image was not written, as it was said; 0: it was

    pthread_mutex_t queue_lock;     // of what follows
    _Atomic size_t pending_bytes;   // of calls that are not written, but those of `batch`
    struct batch_list free_batches; // have nothing
    unsigned free_batch_count;

    _Atomic uint64_t sync_errseq;
    _Atomic int err; // why changes are refused, until a new image is whole; 0: they are not

    struct store_progress progress;
    struct snapshot_index snapshot_index; // of who writes images: in the last file of snapshots
    struct worker_pool pool;
    pthread_t writeback_thread, sync_thread;
    bool has_writeback, has_sync_thread;
    pthread_mutex_t wake_lock; // of the sleep of both, and of what waits for them
    pthread_cond_t wakes, asks;
    struct waiters for_sync;       // for the next one
    struct waiters for_space;      // until fewer bytes of calls wait to be written
    _Atomic uint64_t took;         // nanoseconds of the last sync that wrote no zeros ahead
    _Atomic uint64_t synced_at;    // when it ended, or when the mount began
    _Atomic bool writeback_wanted; // calls wait, or an image is due
    struct timespec next_sync;
    _Atomic bool ends;
};

// ---- store.c

// Drops `wal_lock`, and answers what waited for room where there is some now.
void store_unlock_wal(struct store *store);

// ---- store_dir.c

enum { STORE_NAME = 40 };
// The name of a file in the directory: `tree`, `snapshots` or `log`, and a number.
void store_name(char out[STORE_NAME], const char *kind, uint64_t number);
// A name with an ending, and the path of a file in the directory: 0 or ENAMETOOLONG.
void store_name_of(char out[STORE_NAME], const char *kind, uint64_t number, const char *ending);
int store_path(const struct store *store, const char *name, char out[PATH_MAX]);
// Opens the directory, which is made where it is missing, and locks it. What failed is said.
int store_lock(struct store *store, const char *folder);
// The same for one that is only read, and that no mount has. What failed is said.
int store_open_to_read(struct store *store, const char *folder);
// The rising numbers of the files of a kind with an ending.
int store_numbers(const struct store *store, const char *kind, const char *ending, struct bytes *out);
bool store_has(const struct store *store, const char *name);
// Takes out the images and logs below a number, and parts of images.
void store_clear(const struct store *store, uint64_t number);
// Says something on standard error and to syslog.
void store_report(const struct store *store, const char *form, ...) __attribute__((format(printf, 2, 3)));

// ---- wal_queue.c

// How many bytes of a batch's calls are of requests that ended.
size_t store_ended_bytes(const struct wal_batch *batch);
int store_batches_begin(struct store *store);
void store_batches_free(struct store *store);
// At the end of a request: if the batch has enough, another one begins. Under the request lock.
void store_next_batch(struct store *store);
// The batch has no calls then: 0 or ENOMEM.
int store_fresh_batch(struct store *store);
// What waits of a request is at its end. Under the request lock.
int store_end_calls(struct store *store);
// Takes the calls of all requests out of their batches, which are at their end then; under both locks. Where that is
// refused, all of them wait on.
int wal_take_batches(struct store *store);
// The first batch of those that were taken, null where there is none; and it is written, or dropped. Under `wal_lock`.
const struct wal_batch *store_first_in_flight(const struct store *store);
void store_drop_in_flight(struct store *store);

// ---- wal_file.c

// Writes what was taken, and syncs; under `wal_lock`. A failure is noted, and changes are refused from then on.
int wal_write_in_flight(struct store *store);
int wal_sync_in_flight(struct store *store);
// Whether the next sync writes zeros ahead of the records, which takes longer.
bool wal_lacks_zeros(const struct store *store);
uint64_t store_clock(void);
// What was written is on its way to the disk, before it is synced.
void store_begin_sync(struct store *store);
// How many sync markers a log has at its end where a mount ended, and where another log follows.
enum { MARKS_OF_END = 2, MARKS_OF_ROTATION = 3 };
// Makes a log. It gets its name when its header is on the disk. `prior` is the log before it; null: there is none.
int wal_create(struct store *store, uint64_t number, const struct wal_log *prior, struct wal_log *out);
// The log is at its end, until another mount: what is found damaged in it then was on the disk.
int store_close_log(struct store *store);
// Begins the next log, and brings all of the former one onto the disk: both under `wal_lock`. So what the next one has
// after its header is never there without it.
int wal_rotate(struct store *store, struct wal_log *former);
int store_end_log(struct store *store, struct wal_log *former);
// Whether a log has no record but its header.
bool wal_is_new(const struct wal_log *log);
// The number of a record.
uint64_t store_record(uint64_t log, uint64_t index);

// ---- store_progress.c

// From its third second on, a start says what it is at.
void progress_begin(struct store *store);
void progress_set(struct store *store, const char *what, uint64_t number, uint64_t total);
void progress_end(struct store *store);

// ---- store_sum.c

// What tree.N.sum has.
struct checkpoint_sum {
    // 0: there is no such file; 1: that of release 0.2 and before, which has the tree's checksum alone
    unsigned version;
    char tree[SHA256_DIGITS + 1];
    char snapshots[SHA256_DIGITS + 1]; // empty: there is no snapshots.N
    struct wal_salt salt;              // of log.N
};
// Parts of such texts: a salt, with the end of its line, as the last word of which it is read; and the last line, which
// has the digest of those before.
int store_put_salt(struct bytes *out, const struct wal_salt *salt);
bool store_read_salt(const char *line, struct wal_salt *out);
int store_put_digest(struct bytes *out);
// The text of version 2.
int store_print_sum(struct bytes *out, uint64_t number, const struct checkpoint_sum *sum);
// EINVAL where the file is there, and is none; which is said.
int store_read_sum(const struct store *store, uint64_t number, struct checkpoint_sum *out);
// Whether the files of a checkpoint are what this says of them. What is not so is said.
int store_check_files(const struct store *store, uint64_t number, const struct checkpoint_sum *sum);
// Whether the tree alone has its checksum. Nothing is reported.
bool store_is_tree_of(const struct store *store, uint64_t number, const struct checkpoint_sum *sum);

// ---- store_last.c

// What `lock` has: the newest log, as a mount found it or left it on the disk.
struct last_log {
    bool is_known, has_ended; // has_ended: it was left so
    uint64_t number, records; // of the log; without the sync markers at its end
    struct wal_salt salt;
};
void store_read_last(const struct store *store, struct last_log *out);
// Writes it, of the log that goes on or was closed. What failed is said, and then the next start may say more.
void store_note_last(const struct store *store, bool has_ended);

// ---- store_recover.c

int store_load(struct store *store, const struct open_options *options, struct backend *backend);

// ---- store_checkpoint.c

// A file that is being written while requests go on.
struct checkpoint_file {
    struct store *store;
    void (*meanwhile)(struct store *store); // called between pieces; null: nothing is
    struct image image;
    uint64_t size, pieces;
};

int store_open_checkpoint_file(struct checkpoint_file *file, const char *kind, uint64_t number);
int store_put_bytes(struct checkpoint_file *file, const char *bytes, size_t count);
// Does what is due between two pieces: ECANCELED where the end of the mount has come.
int writeback_tick(struct checkpoint_file *file);
// Ends it with its fault: the file gets its name where there is none, with a file of these checksums beside it (null:
// none), and else it goes.
int store_end_checkpoint_file(struct checkpoint_file *file, const char *sum, int err);
// Writes an image of the tree as it is, and takes out what lies before it. Called with no lock; between its pieces
// it calls `meanwhile`.
int store_checkpoint(struct store *store, void (*meanwhile)(struct store *store));
// Writes that of a new store, whose log has begun.
int store_first_checkpoint(struct store *store);
// Another is due when the logs after one of so many bytes are longer than twice that, and than `log_size`.
void checkpoint_threshold(struct store *store, uint64_t image);
bool checkpoint_is_due(struct store *store);

// ---- store_snapshots.c

// A snapshot was taken or dropped.
void store_note_snapshot(struct store *store, enum snapshot_call what, const char *name);
// Finds out which stand after a start. Those that no image had are the last.
int store_find_snapshots(struct store *store);
// Whether they are too many for an image: so the log goes on.
bool store_has_too_many(const struct store *store);

// Snapshots as they stood at one moment, from the last taken to the first, each with the edits to it from the tree that it
// is told of: the live one, or that of the snapshot before it. Where the text is in the last file they are not begun.
struct snapshot_edits {
    unsigned count;
    struct snapshot at[MAX_STORED_SNAPSHOTS];
    struct doorvervain_edits edits[MAX_STORED_SNAPSHOTS];
};
// Under the request lock. They are to be ended whatever is answered, with no lock.
int store_begin_snapshots(struct store *store, struct snapshot_edits *out);
void store_end_snapshots(struct snapshot_edits *snapshots);
// Writes them into the file that belongs to an image; where there are none, no such file is left. `sum` is its checksum.
int store_put_snapshots(const struct checkpoint_file *tree, uint64_t number, struct snapshot_edits *snapshots,
                        struct snapshot_index *out, char sum[SHA256_DIGITS + 1], uint64_t *size);
// Makes those of the file that belongs to the image of a number, which the volume has. What failed is said. `size` is
// that of the file.
int store_make_snapshots(struct store *store, const struct backend *backend, uint64_t number, uint64_t *size);
#endif
