// Checkpoints of the shared log: images in etcd, by parts ("A log that mounts share" in docs/FORMATS.md).
//
// Validity: a checkpoint counts if its key exists, all of its parts are there and their SHA-256 digest is `sum`. Its
// key is put after all parts, and only if it is still as it was read, so a newer one is never replaced by an older one;
// parts of older versions are deleted after that.
//
// The tree is frozen by the thread that serves, and printed by another, while requests go on.
#define _GNU_SOURCE
#include "replica_checkpoint.h"
#include "replica_inside.h"
#include "memlimit.h"
#include "sha256.h"
#include <errno.h>
#include <stdio.h>
#include <stdlib.h>
#include <string.h>
#include <sys/mman.h>
#include <unistd.h>

// The key of a part: by the version and its number.
#define PARTS "image/%020llu/%llu"
enum { LONGEST_KEY = 512, TIMES = 200, SECONDS_TO_ASK = 30 };

static _Atomic bool gives_up; // the mount is at its end

// A checkpoint that is being made.
struct checkpoint_task {
    struct replica *replica;
    struct etcd_client etcd;
    struct checkpoint checkpoint;
    uint64_t former; // the checkpoint that this mount knows of
    uint64_t size;   // of the image, or of the last one, until all of it is put
    struct sha256 sum;
    pthread_t thread;
    struct doorvervain_printer printing; // of the tree at one version, which is frozen
    _Atomic bool has_ended, ends;
    uint8_t piece[LARGEST_VALUE];
};

// ---- questions

static const char *name_key(const struct etcd_client *etcd, char out[LONGEST_KEY], const char *form, uint64_t version,
                            uint64_t part) {
    char rest[96];
    snprintf(rest, sizeof rest, form, (unsigned long long)version, (unsigned long long)part);
    snprintf(out, LONGEST_KEY, "%s/%s", etcd->members->options->prefix, rest);
    return out;
}

// Asks until a member answers, for some time, and each at least once. The question goes.
static json_t *ask(struct etcd_client *etcd, const char *path, json_t *question) {
    json_t *answer = NULL;
    uint64_t end = replica_clock() + (uint64_t)SECONDS_TO_ASK * NANOSECONDS;
    for (size_t asked = 0; question && !answer && !gives_up; asked++) {
        if (asked >= etcd->members->count && replica_clock() >= end) break;
        answer = etcd_ask(etcd, path, json_incref(question));
        if (!answer) etcd_pause();
    }
    json_decref(question);
    return answer;
}

// What a key has, and the revision at which it was put: 0, ENOENT, or EIO.
static int get_put(struct etcd_client *etcd, const char *key, struct bytes *out, uint64_t *put_at) {
    json_t *answer = ask(etcd, "/v3/kv/range", json_pack("{s:o}", "key", etcd_key(key)));
    json_t *pair = json_array_get(json_object_get(answer, "kvs"), 0);
    const char *text = json_string_value(json_object_get(pair, "value"));
    int err = !answer ? EIO : !text ? ENOENT : etcd_decode(text, out);
    *put_at = etcd_number(pair, "mod_revision");
    json_decref(answer);
    return err;
}

static int get(struct etcd_client *etcd, const char *key, struct bytes *out) {
    uint64_t put_at;
    return get_put(etcd, key, out, &put_at);
}

static int put(struct etcd_client *etcd, const char *key, const void *bytes, size_t length) {
    json_t *answer =
        ask(etcd, "/v3/kv/put", json_pack("{s:o, s:o}", "key", etcd_key(key), "value", etcd_encode(bytes, length)));
    json_decref(answer);
    return answer ? 0 : EIO;
}

// Takes the parts of all checkpoints before one away, also of those that were never whole.
static void drop_before(struct etcd_client *etcd, uint64_t version) {
    char first[LONGEST_KEY], end[LONGEST_KEY];
    name_key(etcd, first, PARTS, 0, 0);
    name_key(etcd, end, PARTS, version, 0);
    json_decref(
        ask(etcd, "/v3/kv/deleterange", json_pack("{s:o, s:o}", "key", etcd_key(first), "range_end", etcd_key(end))));
}

static int read_checkpoint(struct etcd_client *etcd, struct checkpoint *out) {
    char key[LONGEST_KEY];
    struct bytes text = {NULL};
    *out = (struct checkpoint){0};
    int err = get_put(etcd, name_key(etcd, key, "checkpoint", 0, 0), &text, &out->put_at);
    json_t *reply = err ? NULL : json_loadb(text.at, text.length, 0, NULL);
    const char *sum = json_string_value(json_object_get(reply, "sum"));
    if (!err && !sum) err = EBADMSG;
    if (!err) {
        out->version = etcd_number(reply, "version");
        out->revision = etcd_number(reply, "revision");
        out->parts = etcd_number(reply, "parts");
        snprintf(out->sum, sizeof out->sum, "%s", sum);
    }
    json_decref(reply);
    bytes_free(&text);
    return err == ENOENT ? 0 : err;
}

// ---- an image is fetched

static int write_all(int file, const struct bytes *bytes) {
    size_t done = 0;
    while (done < bytes->length) {
        ssize_t count = write(file, bytes->at + done, bytes->length - done);
        if (count < 0) return errno;
        done += (size_t)count;
    }
    return 0;
}

static int fetch_parts(struct etcd_client *etcd, const struct checkpoint *checkpoint, int file, struct sha256 *sum) {
    char key[LONGEST_KEY];
    struct bytes part = {NULL};
    int err = 0;
    for (uint64_t i = 0; !err && i < checkpoint->parts; i++) {
        part.length = 0;
        err = get(etcd, name_key(etcd, key, PARTS, checkpoint->version, i), &part);
        if (!err) err = sha256_add(sum, part.at, part.length);
        if (!err) err = write_all(file, &part);
    }
    bytes_free(&part);
    return err;
}

static int fetch(struct etcd_client *etcd, const struct checkpoint *checkpoint, int file) {
    struct sha256 sum;
    char digits[SHA256_DIGITS + 1];
    int err = sha256_begin(&sum);
    if (!err) err = fetch_parts(etcd, checkpoint, file, &sum);
    int other = sha256_end(&sum, digits);
    if (!err) err = other;
    return err ? err : strcmp(digits, checkpoint->sum) ? EBADMSG : 0;
}

// Parts that are gone are of a checkpoint that another one has replaced.
int checkpoint_fetch(struct etcd_client *etcd, uint64_t after, struct checkpoint *out, int *file) {
    int err = ENOENT;
    *file = -1;
    for (int i = 0; i < TIMES && err == ENOENT; i++) {
        if (*file >= 0) close(*file);
        *file = -1;
        err = read_checkpoint(etcd, out);
        if (err || out->version <= after) break;
        *file = memfd_create("image", MFD_CLOEXEC);
        err = *file < 0 ? errno : fetch(etcd, out, *file);
    }
    return err;
}

int checkpoint_fetch_last_put(struct etcd_client *etcd, uint64_t mount, struct bytes *out) {
    char key[LONGEST_KEY];
    out->length = 0;
    int err = get(etcd, name_key(etcd, key, MARK, mount, 0), out);
    return err == ENOENT ? 0 : err;
}

// ---- an image is kept

// The next piece of the image; of length 0 at its end.
static int print_piece(struct checkpoint_task *task, size_t *length) {
    size_t count = 1;
    int err = 0;
    *length = 0;
    while (!err && count && *length < sizeof task->piece) {
        err = doorvervain_errno(
            doorvervain_print_next(&task->printing, task->piece + *length, sizeof task->piece - *length, &count));
        *length += count;
    }
    return task->ends ? ECANCELED : err;
}

static int put_pieces(struct checkpoint_task *task) {
    char key[LONGEST_KEY];
    int err;
    uint64_t size = 0;
    size_t length;
    struct checkpoint *checkpoint = &task->checkpoint;
    while (!(err = print_piece(task, &length)) && length) {
        name_key(&task->etcd, key, PARTS, checkpoint->version, checkpoint->parts++);
        err = sha256_add(&task->sum, task->piece, length);
        if (!err) err = put(&task->etcd, key, task->piece, length);
        size += length;
        if (err) break;
    }
    if (!err) task->size = size;
    return err;
}

static json_t *print_checkpoint(const struct checkpoint *checkpoint) {
    char numbers[3][32];
    const uint64_t values[] = {checkpoint->version, checkpoint->revision, checkpoint->parts};
    for (size_t i = 0; i < 3; i++) snprintf(numbers[i], sizeof numbers[i], "%llu", (unsigned long long)values[i]);
    return json_pack("{s:s, s:s, s:s, s:s}", "version", numbers[0], "revision", numbers[1], "parts", numbers[2], "sum",
                     checkpoint->sum);
}

// Puts a text where the key is the one that was put at a revision: else EAGAIN.
static int put_behind(struct etcd_client *etcd, const char *key, const char *text, uint64_t put_at) {
    char at[32];
    snprintf(at, sizeof at, "%llu", (unsigned long long)put_at);
    json_t *question = json_pack("{s:[{s:o, s:s, s:s}], s:[{s:{s:o, s:o}}]}", "compare", "key", etcd_key(key), "target",
                                 "MOD", "mod_revision", at, "success", "request_put", "key", etcd_key(key), "value",
                                 etcd_encode(text, strlen(text)));
    json_t *answer = ask(etcd, "/v3/kv/txn", question);
    int err = !answer ? EIO : json_is_true(json_object_get(answer, "succeeded")) ? 0 : EAGAIN;
    json_decref(answer);
    return err;
}

static int put_checkpoint(struct checkpoint_task *task, uint64_t put_at) {
    char key[LONGEST_KEY];
    json_t *object = print_checkpoint(&task->checkpoint);
    char *text = object ? json_dumps(object, JSON_COMPACT) : NULL;
    name_key(&task->etcd, key, "checkpoint", 0, 0);
    int err = text ? put_behind(&task->etcd, key, text, put_at) : ENOMEM;
    free(text);
    json_decref(object);
    return err;
}

// Another mount may have made one meanwhile: the newer one stays, of whose parts alone none was dropped. One of the
// same
// version and image is this one, whose answer was lost.
static int replace(struct checkpoint_task *task) {
    struct checkpoint there, *own = &task->checkpoint;
    int err = EAGAIN;
    while (err == EAGAIN) {
        err = read_checkpoint(&task->etcd, &there);
        if (!err && there.version == own->version && !strcmp(there.sum, own->sum)) break;
        if (!err && there.version >= own->version) err = EEXIST;
        if (!err) err = put_checkpoint(task, there.put_at);
    }
    if (!err) drop_before(&task->etcd, own->version);
    return err;
}

static int put_all(struct checkpoint_task *task) {
    struct checkpoint there;
    int err = read_checkpoint(&task->etcd, &there);
    if (!err && there.version > task->former) {
        task->former = there.version;
        return EEXIST;
    }
    err = put_pieces(task);
    int other = sha256_end(&task->sum, task->checkpoint.sum);
    if (!err) err = other;
    if (!err) err = replace(task);
    if (!err) task->former = task->checkpoint.version;
    return err;
}

static void *run_task(void *self) {
    struct checkpoint_task *task = self;
    int err = put_all(task);
    if (err && err != EEXIST && err != ECANCELED)
        fprintf(stderr, "doorvervain-mount: --replica: no checkpoint is made: %s\n", strerror(err));
    doorvervain_print_end(&task->printing);
    task->has_ended = true;
    etcd_log_wake(task->replica->log);
    return NULL;
}

static int open_task(struct checkpoint_task *task) {
    struct doorvervain_frozen tree;
    int err = etcd_open(&task->etcd, etcd_log_members(task->replica->log), 0);
    if (!err) err = sha256_begin(&task->sum);
    if (!err) err = doorvervain_errno(doorvervain_freeze(task->replica->volume, &tree));
    if (!err) err = doorvervain_errno(doorvervain_print_begin(&task->printing, &tree));
    return err ? err : pthread_create(&task->thread, NULL, run_task, task);
}

static void free_task(struct checkpoint_task *task) {
    doorvervain_print_end(&task->printing);
    sha256_end(&task->sum, task->checkpoint.sum);
    etcd_close(&task->etcd);
    mem_free(task);
}

void checkpoint_begin(struct replica *replica) {
    uint64_t enough = 2 * replica->image_size > replica->log_size ? 2 * replica->image_size : replica->log_size;
    if (replica->bytes_since_checkpoint < enough) return;
    struct checkpoint_task *task = replica->checkpoint_task ? NULL : mem_calloc(1, sizeof *task);
    if (!task) return;
    task->replica = replica;
    task->former = replica->checkpoint_version;
    task->size = replica->image_size;
    task->checkpoint = (struct checkpoint){.version = replica->done, .revision = replica->revision};
    replica->bytes_since_checkpoint = 0;
    if (open_task(task)) free_task(task);
    else replica->checkpoint_task = task;
}

// What is known here meanwhile may be newer.
static void finish(struct replica *replica) {
    struct checkpoint_task *task = replica->checkpoint_task;
    pthread_join(task->thread, NULL);
    if (task->former >= replica->checkpoint_version) {
        replica->checkpoint_version = task->former;
        replica->image_size = task->size;
    }
    free_task(task);
    replica->checkpoint_task = NULL;
}

void checkpoint_step(struct replica *replica) {
    if (replica->checkpoint_task && replica->checkpoint_task->has_ended) finish(replica);
}

void checkpoint_cancel(struct replica *replica) {
    if (replica->checkpoint_task) replica->checkpoint_task->ends = true;
}

void checkpoint_give_up(void) { gives_up = true; }

void checkpoint_end(struct replica *replica) {
    checkpoint_give_up();
    checkpoint_cancel(replica);
    if (replica->checkpoint_task) finish(replica);
}
