// The shared log, in etcd: one thread puts values and one watches ("A log that mounts share" in docs/FORMATS.md).
//
// Validity: the watcher hands on a value only if its version is the one after the last that it handed on; after a gap
// the log cannot be read on (ESTALE) until `etcd_log_resume`. A value is put only for a given version of the key, which
// etcd compares, so no two mounts put the same version.
#include "etcd_log.h"
#include "etcd_client.h"
#include <errno.h>
#include <pthread.h>
#include <stdatomic.h>
#include <stdio.h>
#include <stdlib.h>
#include <string.h>
#include <sys/eventfd.h>
#include <time.h>
#include <unistd.h>

enum { SECONDS_TO_BEGIN = 30, MOST_TAKEN = 64 << 20 };

struct received_value {
    struct received_value *next;
    struct value value;
};

struct etcd_log {
    struct members members;
    char *key, *mark;  // that has the log, and that has the front of this mount's last value
    uint64_t revision; // from which on it is watched
    uint64_t seen;     // the newest version that was
    uint64_t until;    // in seconds: when it gives up to begin
    int event;         // is raised where something came
    _Atomic bool ends;
    struct bytes line; // of the watch
    struct etcd_client puts, watches;

    pthread_mutex_t lock; // of what follows
    pthread_cond_t wakes, has_space, goes_on;
    pthread_t putter, watcher;
    struct received_value *first, *last;
    size_t waiting_bytes; // bytes of them
    int err;              // it is not watched any more
    uint64_t wishes;      // counts what was to be put
    uint64_t version;
    struct bytes value; // none: nothing is to be put
};

static char *name_key(const struct etcd_options *options, const char *name) {
    size_t size = strlen(options->prefix) + strlen(name) + 2;
    char *key = malloc(size);
    if (key) snprintf(key, size, "%s/%s", options->prefix, name);
    return key;
}

void etcd_log_wake(struct etcd_log *log) {
    if (eventfd_write(log->event, 1)) return;
}

// ---- what is put

static json_t *put_of(const char *key, const void *bytes, size_t length) {
    return json_pack("{s:{s:o, s:o}}", "request_put", "key", etcd_key(key), "value", etcd_encode(bytes, length));
}

// Where a version stands already the keys stay as they are: the watch tells which value that is. Where the watch missed
// it, the mark does.
static json_t *question_of_put(struct etcd_log *log, uint64_t version, const struct bytes *value) {
    char before[32];
    snprintf(before, sizeof before, "%llu", (unsigned long long)(version - 1));
    return json_pack("{s:[{s:o, s:s, s:s}], s:[o, o]}", "compare", "key", etcd_key(log->key), "target", "VERSION",
                     "version", before, "success", put_of(log->key, value->at, value->length),
                     put_of(log->mark, value->at, sizeof(struct value_header)));
}

// Waits for something to put: which wish that is, and 0 at the end, or where memory is wanting.
static uint64_t next_wish(struct etcd_log *log, uint64_t done, uint64_t *version, struct bytes *out) {
    pthread_mutex_lock(&log->lock);
    while (!log->ends && (log->wishes == done || !log->value.length)) pthread_cond_wait(&log->wakes, &log->lock);
    uint64_t wish = log->ends ? 0 : log->wishes;
    *version = log->version;
    out->length = 0;
    if (wish && bytes_append(out, log->value.at, log->value.length)) wish = 0;
    pthread_mutex_unlock(&log->lock);
    return wish;
}

static void *serve_puts(void *self) {
    struct etcd_log *log = self;
    struct bytes value = {NULL};
    uint64_t done = 0, version, wish;
    while ((wish = next_wish(log, done, &version, &value)) || !log->ends) {
        json_t *answer = wish ? etcd_ask(&log->puts, "/v3/kv/txn", question_of_put(log, version, &value)) : NULL;
        if (answer) done = wish;
        else etcd_pause();
        json_decref(answer);
    }
    bytes_free(&value);
    return NULL;
}

int etcd_log_put(struct etcd_log *log, uint64_t version, const struct bytes *value) {
    pthread_mutex_lock(&log->lock);
    log->wishes++;
    log->version = version;
    log->value.length = 0;
    int err = value ? bytes_append(&log->value, value->at, value->length) : 0;
    pthread_cond_signal(&log->wakes);
    pthread_mutex_unlock(&log->lock);
    return err;
}

// ---- what comes

static void fail(struct etcd_log *log, int err) {
    pthread_mutex_lock(&log->lock);
    log->err = err;
    pthread_mutex_unlock(&log->lock);
    etcd_log_wake(log);
}

// Who does the values is behind: the member waits.
static void append_received(struct etcd_log *log, struct received_value *received) {
    pthread_mutex_lock(&log->lock);
    while (!log->ends && log->waiting_bytes > MOST_TAKEN) pthread_cond_wait(&log->has_space, &log->lock);
    if (log->last) log->last->next = received;
    else log->first = received;
    log->last = received;
    log->waiting_bytes += received->value.bytes.length;
    pthread_mutex_unlock(&log->lock);
    etcd_log_wake(log);
}

static int read_pair(struct etcd_log *log, const json_t *pair) {
    const char *text = json_string_value(json_object_get(pair, "value"));
    uint64_t version = etcd_number(pair, "version");
    if (version <= log->seen) return 0;
    if (version != log->seen + 1) return ESTALE;
    struct received_value *received = calloc(1, sizeof *received);
    if (!received) return ENOMEM;
    received->value.version = version;
    received->value.revision = etcd_number(pair, "mod_revision");
    int err = text ? etcd_decode(text, &received->value.bytes) : EBADMSG;
    if (err) {
        bytes_free(&received->value.bytes);
        free(received);
        return err;
    }
    log->seen = version;
    log->revision = received->value.revision + 1;
    append_received(log, received);
    return 0;
}

// One line of the watch. A log that was cut, or whose key was taken away, is none that can be followed.
static int read_line(struct etcd_log *log, const char *line, size_t length) {
    size_t index;
    json_t *reply = json_loadb(line, length, 0, NULL), *event, *result = json_object_get(reply, "result");
    int err = !reply ? EBADMSG : json_object_get(result, "compact_revision") ? ESTALE : 0;
    json_array_foreach(json_object_get(result, "events"), index, event) {
        if (!err && json_object_get(event, "type")) err = ESTALE;
        if (!err) err = read_pair(log, json_object_get(event, "kv"));
    }
    json_decref(reply);
    return err;
}

static int read_lines(struct etcd_log *log) {
    char *end;
    int err = 0;
    size_t from = 0;
    while (!err && (end = memchr(log->line.at + from, '\n', log->line.length - from))) {
        size_t length = (size_t)(end - log->line.at) - from;
        if (length) err = read_line(log, log->line.at + from, length);
        from += length + 1;
    }
    memmove(log->line.at, log->line.at + from, log->line.length - from);
    log->line.length -= from;
    return err;
}

static size_t take_bytes(char *bytes, size_t size, size_t count, void *self) {
    struct etcd_log *log = self;
    size_t all = size * count;
    int err = bytes_append(&log->line, bytes, all);
    if (!err && memchr(bytes, '\n', all)) err = read_lines(log);
    if (err == ESTALE) fail(log, err);
    return err ? 0 : all;
}

static int ends(void *self, curl_off_t a, curl_off_t b, curl_off_t c, curl_off_t d) {
    struct etcd_log *log = self;
    (void)a, (void)b, (void)c, (void)d;
    return log->ends;
}

// Waits while the log cannot be read: false at the end.
static bool may_watch(struct etcd_log *log) {
    pthread_mutex_lock(&log->lock);
    while (!log->ends && log->err) pthread_cond_wait(&log->goes_on, &log->lock);
    pthread_mutex_unlock(&log->lock);
    return !log->ends;
}

// Of large answers the pieces come one by one.
static void *watch(void *self) {
    struct etcd_log *log = self;
    char from[32];
    while (may_watch(log)) {
        snprintf(from, sizeof from, "%llu", (unsigned long long)log->revision);
        log->line.length = 0;
        etcd_watch(&log->watches, "/v3/watch",
                   json_pack("{s:{s:o, s:s, s:b}}", "create_request", "key", etcd_key(log->key), "start_revision", from,
                             "fragment", 1),
                   take_bytes, ends, log);
        if (!log->ends) etcd_pause();
    }
    return NULL;
}

// All that was seen was taken, and the thread that watches waits.
void etcd_log_resume(struct etcd_log *log, const struct checkpoint *from) {
    pthread_mutex_lock(&log->lock);
    log->seen = from->version;
    log->revision = from->revision + 1;
    log->err = 0;
    pthread_cond_signal(&log->goes_on);
    pthread_mutex_unlock(&log->lock);
}

int etcd_log_event(const struct etcd_log *log) { return log->event; }

bool etcd_log_next(struct etcd_log *log, struct value *out, int *err) {
    eventfd_t count;
    pthread_mutex_lock(&log->lock);
    struct received_value *received = log->first;
    *err = received ? 0 : log->err;
    if (received) {
        log->first = received->next;
        if (!log->first) log->last = NULL;
        log->waiting_bytes -= received->value.bytes.length;
        pthread_cond_signal(&log->has_space);
    } else if (eventfd_read(log->event, &count)) errno = 0;
    pthread_mutex_unlock(&log->lock);
    if (!received) return false;
    *out = received->value;
    free(received);
    return true;
}

// ---- its beginning and its end

static uint64_t seconds(void) {
    struct timespec now;
    clock_gettime(CLOCK_MONOTONIC, &now);
    return (uint64_t)now.tv_sec;
}

// Asks one member after the other, each at least once; the question stays the caller's.
static json_t *ask_all(struct etcd_log *log, const char *path, json_t *question) {
    json_t *answer = NULL;
    for (size_t asked = 0; !answer && (asked < log->members.count || seconds() < log->until); asked++) {
        answer = etcd_ask(&log->puts, path, json_incref(question));
        if (!answer) etcd_pause();
    }
    if (answer) return answer;
    fprintf(stderr, "doorvervain-mount: --replica: no member answers %s\n", path);
    etcd_print_errors(&log->puts);
    return NULL;
}

// The number of a mount is how many there were: a key's version, which is put and read at one moment.
static int ask_number(struct etcd_log *log, uint64_t *out) {
    char *key = name_key(log->members.options, "mounts");
    json_t *question = key ? json_pack("{s:[{s:{s:o, s:s}}, {s:{s:o}}]}", "success", "request_put", "key",
                                       etcd_key(key), "value", "", "request_range", "key", etcd_key(key))
                           : NULL;
    json_t *answer = question ? ask_all(log, "/v3/kv/txn", question) : NULL;
    json_t *range = json_object_get(json_array_get(json_object_get(answer, "responses"), 1), "response_range");
    *out = etcd_number(json_array_get(json_object_get(range, "kvs"), 0), "version");
    json_decref(answer);
    json_decref(question);
    free(key);
    return !answer ? EIO : *out ? 0 : EBADMSG;
}

static int name_mark(struct etcd_log *log, uint64_t number) {
    char name[64];
    snprintf(name, sizeof name, MARK, (unsigned long long)number);
    log->mark = name_key(log->members.options, name);
    return log->mark ? 0 : ENOMEM;
}

static int ask_newest(struct etcd_log *log, uint64_t *newest) {
    json_t *question = json_pack("{s:o}", "key", etcd_key(log->key));
    json_t *answer = question ? ask_all(log, "/v3/kv/range", question) : NULL;
    json_t *pair = json_array_get(json_object_get(answer, "kvs"), 0);
    *newest = etcd_number(pair, "version");
    log->revision =
        pair ? etcd_number(pair, "create_revision") : etcd_number(json_object_get(answer, "header"), "revision") + 1;
    int err = answer ? 0 : EIO;
    json_decref(answer);
    json_decref(question);
    return err;
}

static int begin_threads(struct etcd_log *log) {
    int err = pthread_create(&log->putter, NULL, serve_puts, log);
    if (!err) err = pthread_create(&log->watcher, NULL, watch, log);
    return err;
}

// The log is watched after a checkpoint, or from its first version on.
static int begin_at_checkpoint(struct etcd_log *log, struct log_start *start) {
    int err = ask_newest(log, &start->newest);
    if (err) return err;
    err = checkpoint_fetch(&log->puts, 0, &start->checkpoint, &start->image);
    if (err) fprintf(stderr, "doorvervain-mount: --replica: no checkpoint is read: %s\n", strerror(err));
    if (err) etcd_print_errors(&log->puts);
    if (err || !start->checkpoint.version) return err;
    log->seen = start->checkpoint.version;
    log->revision = start->checkpoint.revision + 1;
    return 0;
}

const struct members *etcd_log_members(const struct etcd_log *log) { return &log->members; }

static int open_all(struct etcd_log *log, const struct etcd_options *options, struct log_start *start) {
    int err = members_read(options, &log->members);
    log->key = err ? NULL : name_key(options, "log");
    if (!err && !log->key) err = ENOMEM;
    if (!err) err = etcd_open(&log->puts, &log->members, (size_t)getpid());
    if (!err) err = etcd_open(&log->watches, &log->members, (size_t)getpid());
    log->until = seconds() + SECONDS_TO_BEGIN;
    if (!err) err = ask_number(log, &start->number);
    if (!err) err = name_mark(log, start->number);
    if (!err) err = begin_at_checkpoint(log, start);
    return err ? err : begin_threads(log);
}

int etcd_log_open(const struct etcd_options *options, struct etcd_log **out, struct log_start *start) {
    struct etcd_log *log = calloc(1, sizeof *log);
    *start = (struct log_start){.image = -1};
    if (!log) return ENOMEM;
    json_set_alloc_funcs(malloc, free);
    curl_global_init(CURL_GLOBAL_DEFAULT);
    pthread_mutex_init(&log->lock, NULL);
    pthread_cond_init(&log->wakes, NULL);
    pthread_cond_init(&log->has_space, NULL);
    pthread_cond_init(&log->goes_on, NULL);
    log->event = eventfd(0, EFD_CLOEXEC | EFD_NONBLOCK);
    int err = log->event < 0 ? errno : open_all(log, options, start);
    if (err) etcd_log_close(log);
    *out = err ? NULL : log;
    return err;
}

static void end_threads(struct etcd_log *log) {
    pthread_mutex_lock(&log->lock);
    log->ends = true;
    pthread_cond_broadcast(&log->wakes);
    pthread_cond_broadcast(&log->has_space);
    pthread_cond_broadcast(&log->goes_on);
    pthread_mutex_unlock(&log->lock);
    if (log->putter) pthread_join(log->putter, NULL);
    if (log->watcher) pthread_join(log->watcher, NULL);
    log->putter = log->watcher = 0;
}

void etcd_log_print_errors(struct etcd_log *log) {
    end_threads(log);
    etcd_print_errors(&log->watches);
}

void etcd_log_close(struct etcd_log *log) {
    end_threads(log);
    for (struct received_value *next; log->first; log->first = next) {
        next = log->first->next;
        bytes_free(&log->first->value.bytes);
        free(log->first);
    }
    etcd_close(&log->puts);
    etcd_close(&log->watches);
    members_free(&log->members);
    bytes_free(&log->value);
    bytes_free(&log->line);
    free(log->key);
    free(log->mark);
    if (log->event >= 0) close(log->event);
    free(log);
}
