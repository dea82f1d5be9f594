// The backend of --trace, for tests: writes each call as a line of a script, and each reply ("Script" in
// docs/FORMATS.md).
//
// Invariant: apart from notes, both files have the same number of lines, so any program of the language gives the same
// replies. A write that is longer than a line becomes several lines, and a hole becomes writes of zeros. A long write
// or a hole that fails, and each call that fails for lack of memory, become notes.
#include "exit_report.h"
#include "backend.h"
#include "memlimit.h"
#include "script.h"
#include <errno.h>
#include <fcntl.h>
#include <inttypes.h>
#include <stdarg.h>
#include <stdio.h>
#include <stdlib.h>
#include <string.h>
#include <sys/types.h>
#include <unistd.h>

// A reply takes at most SHORT_REPLY bytes, and in addition two for each byte read, and three for each byte of names.
enum { LONGEST_NOTE = 100, WRITTEN_AT_ONCE = 1 << 16, SHORT_REPLY = 64 };

// One of the two files: the length of the whole lines in it, and the lines that are not written yet.
struct trace_file {
    int fd;
    off_t whole;
    struct bytes lines;
};

struct trace {
    struct backend inner;
    const char *name;
    struct trace_file calls, replies;
    int err;     // why the trace ended before the mount; 0: it goes on
    uint64_t at; // the timestamp of the lines that follow
    struct bytes line, reply;
};

// Empties a buffer and reserves memory for the next line. If memory is lacking, the trace ends, and the mount goes on.
static struct bytes *fresh(struct trace *trace, struct bytes *bytes, size_t capacity) {
    bytes->length = 0;
    if (memlimit_reserve(bytes, capacity)) trace->err = ENOMEM;
    return bytes;
}

static struct bytes *fresh_line(struct trace *trace) { return fresh(trace, &trace->line, LONGEST_LINE); }

static struct bytes *fresh_reply(struct trace *trace, size_t capacity) { return fresh(trace, &trace->reply, capacity); }

static void write_file(struct trace *trace, struct trace_file *file) {
    for (size_t from = 0; !trace->err && from < file->lines.length;) {
        ssize_t done = write(file->fd, file->lines.at + from, file->lines.length - from);
        if (done < 0 && errno != EINTR) trace->err = errno;
        if (done > 0) from += (size_t)done;
    }
}

static void cut_file(struct trace_file *file) {
    if (ftruncate(file->fd, file->whole)) return;
}

// Writes the waiting lines to both files. If that fails, both are cut to the lines before, and get no others.
static void flush(struct trace *trace) {
    if (!trace->err) write_file(trace, &trace->calls);
    if (!trace->err) write_file(trace, &trace->replies);
    if (trace->err && (trace->calls.lines.length || trace->replies.lines.length)) {
        exit_report_error("the record ends before the mount does: ", trace->name, trace->err);
        cut_file(&trace->calls);
        cut_file(&trace->replies);
    }
    trace->calls.whole += (off_t)trace->calls.lines.length;
    trace->replies.whole += (off_t)trace->replies.lines.length;
    trace->calls.lines.length = trace->replies.lines.length = 0;
}

static int append(struct bytes *lines, const struct bytes *more) {
    int err = memlimit_reserve(lines, more->length);
    return err ? err : bytes_append(lines, more->at, more->length);
}

// Adds as many lines to both files; a note, without a reply, is added to the calls alone.
static void put_lines(struct trace *trace, const struct bytes *line, const struct bytes *reply) {
    if (trace->err) return;
    int err = append(&trace->calls.lines, line);
    if (!err && reply) err = append(&trace->replies.lines, reply);
    if (err) trace->err = err;
    if (err || trace->calls.lines.length >= WRITTEN_AT_ONCE) flush(trace);
}

static void put_note(struct trace *trace, const char *form, ...) __attribute__((format(printf, 2, 3)));
static void put_note(struct trace *trace, const char *form, ...) {
    char text[2 * LONGEST_NOTE];
    va_list words;
    va_start(words, form);
    int length = vsnprintf(text, sizeof text, form, words);
    va_end(words);
    put_lines(trace, &(struct bytes){text, (size_t)length, 0}, NULL);
}

// Notes a call that failed for lack of memory, since another program might do it.
static int note_line(struct trace *trace) {
    size_t length = trace->line.length - 1;
    if (length > LONGEST_NOTE) length = LONGEST_NOTE;
    put_note(trace, "# memory was wanting for: %.*s\n", (int)length, trace->line.at);
    return ENOMEM;
}

// Adds the line in `line` with its reply: the fault, or the reply in `reply`.
static int trace_call(struct trace *trace, int err) {
    if (err == ENOMEM) return note_line(trace);
    if (err) reply_fault(fresh_reply(trace, SHORT_REPLY), err);
    put_lines(trace, &trace->line, &trace->reply);
    return err;
}

static int trace_done(struct trace *trace, int err) {
    bytes_append(fresh_reply(trace, SHORT_REPLY), "ok\n", 3);
    return trace_call(trace, err);
}

// Sets the timestamp of the lines that follow, if it differs.
static void trace_timestamp(struct trace *trace, uint64_t at) {
    if (at == trace->at) return;
    trace->at = at;
    script_timestamp(fresh_line(trace), at);
    trace_done(trace, 0);
}

static void trace_line(struct trace *trace, enum path_call what, const char *path) {
    script_change(fresh_line(trace), what, path);
    trace_done(trace, 0);
}

// Finds a path in a directory, with a name of one byte, at which there is no entry. False if there is none.
static bool find_free_path(struct trace *trace, const char *directory, char *path, size_t capacity) {
    size_t length = strcmp(directory, "/") ? strlen(directory) : 0;
    struct node_stat node_stat;
    if (length + 3 > capacity) return false;
    memcpy(path, directory, length);
    memcpy(path + length, "/?", 3);
    for (int byte = '0'; byte < 256; byte++) {
        path[length + 1] = (char)byte;
        if (backend_stat(&trace->inner, (struct path_ref){NULL, path}, &node_stat) == ENOENT) return true;
    }
    return false;
}

// No line of a script sets an mtime. In its place the lines truncate a file to the length that it has, or create an
// entry in a directory and remove it.
static int trace_set_mtime(struct trace *trace, const char *path, uint64_t at) {
    char entry[LONGEST_PATH + 1];
    struct node_stat node_stat = {0};
    int err = trace->inner.ops->change(trace->inner.self, CALL_SET_MTIME, path, at);
    if (!err) err = backend_stat(&trace->inner, (struct path_ref){NULL, path}, &node_stat);
    if (err) return err;
    trace_timestamp(trace, at);
    if (!node_stat.is_directory) {
        script_truncate(fresh_line(trace), path, node_stat.length);
        trace_done(trace, 0);
    } else if (find_free_path(trace, path, entry, sizeof entry)) {
        trace_line(trace, CALL_CREATE, entry);
        trace_line(trace, CALL_UNLINK, entry);
    } else put_note(trace, "# an mtime was set\n");
    return 0;
}

static int trace_change(void *self, enum path_call what, const char *path, uint64_t at) {
    struct trace *trace = self;
    if (what == CALL_SET_MTIME) return trace_set_mtime(trace, path, at);
    trace_timestamp(trace, at);
    script_change(fresh_line(trace), what, path);
    return trace_done(trace, trace->inner.ops->change(trace->inner.self, what, path, at));
}

static int trace_rename(void *self, const char *from, const char *to, uint64_t at) {
    struct trace *trace = self;
    trace_timestamp(trace, at);
    script_rename(fresh_line(trace), from, to);
    return trace_done(trace, trace->inner.ops->rename(trace->inner.self, from, to, at));
}

static int trace_truncate(void *self, const char *path, uint64_t length, uint64_t at) {
    struct trace *trace = self;
    trace_timestamp(trace, at);
    script_truncate(fresh_line(trace), path, length);
    return trace_done(trace, trace->inner.ops->truncate(trace->inner.self, path, length, at));
}

static void trace_write_call(struct trace *trace, const char *path, uint64_t offset, const char *bytes, size_t count) {
    script_write(fresh_line(trace), path, offset, bytes, count);
    bytes_print(fresh_reply(trace, SHORT_REPLY), "count %zu\n", count);
    trace_call(trace, 0);
}

static int trace_write(void *self, const char *path, uint64_t offset, const char *bytes, size_t count, uint64_t at,
                       size_t *done) {
    struct trace *trace = self;
    trace_timestamp(trace, at);
    int err = trace->inner.ops->write(trace->inner.self, path, offset, bytes, count, at, done);
    for (size_t from = 0; from < *done; from += LARGEST_LINE_WRITE)
        trace_write_call(trace, path, offset + from, bytes + from,
                         *done - from < LARGEST_LINE_WRITE ? *done - from : LARGEST_LINE_WRITE);
    if (!err) return 0;
    if (count - *done <= LARGEST_LINE_WRITE) {
        script_write(fresh_line(trace), path, offset + *done, bytes + *done, count - *done);
        return trace_call(trace, err);
    }
    put_note(trace, "# a write of %zu bytes was refused\n", count - *done);
    return err;
}

static int trace_read(void *self, struct path_ref ref, uint64_t offset, char *out, size_t capacity, size_t *got) {
    struct trace *trace = self;
    int err = backend_read(&trace->inner, ref, offset, out, capacity, got);
    script_read(fresh_line(trace), ref, offset, capacity);
    if (!err) reply_read(fresh_reply(trace, SHORT_REPLY + 2 * *got), out, *got);
    return trace_call(trace, err);
}

static int trace_stat(void *self, struct path_ref ref, struct node_stat *out) {
    struct trace *trace = self;
    int err = backend_stat(&trace->inner, ref, out);
    script_stat(fresh_line(trace), ref);
    if (!err) reply_stat(fresh_reply(trace, SHORT_REPLY), *out);
    return trace_call(trace, err);
}

static int trace_readdir(void *self, struct path_ref ref, struct bytes *out) {
    struct trace *trace = self;
    size_t before = out->length;
    int err = backend_readdir(&trace->inner, ref, out);
    script_readdir(fresh_line(trace), ref);
    size_t length = out->length - before;
    if (!err) reply_readdir(fresh_reply(trace, SHORT_REPLY + 3 * length), out->at + before, length);
    return trace_call(trace, err);
}

static int trace_snapshot(void *self, enum snapshot_call what, const char *snapshot) {
    struct trace *trace = self;
    script_snapshot(fresh_line(trace), what, snapshot);
    return trace_done(trace, trace->inner.ops->snapshot(trace->inner.self, what, snapshot));
}

// Appends the extents that are stored in a range of a file.
static int find_extents(struct trace *trace, const char *path, struct extent range, struct bytes *out) {
    struct extent extent = range;
    for (uint64_t from = range.from; from < range.to; from = extent.to) {
        int err = backend_next_extent(&trace->inner, (struct path_ref){NULL, path}, from, &extent);
        if (err) return err;
        if (extent.from >= range.to || extent.from == extent.to) break;
        if (extent.to > range.to) extent.to = range.to;
        if (bytes_append(out, &extent, sizeof extent)) return ENOMEM;
    }
    return 0;
}

static void trace_zeros(struct trace *trace, const char *path, struct extent extent) {
    static const char zeros[LARGEST_LINE_WRITE];
    for (uint64_t at = extent.from; at < extent.to; at += LARGEST_LINE_WRITE)
        trace_write_call(trace, path, at, zeros,
                         extent.to - at < LARGEST_LINE_WRITE ? extent.to - at : LARGEST_LINE_WRITE);
}

// Writes zeros for a hole: over each extent that was stored, or over one byte if there was none.
static void trace_hole(struct trace *trace, const char *path, uint64_t offset, const struct bytes *runs, uint64_t at) {
    trace_timestamp(trace, at);
    for (size_t i = 0; i < runs->length; i += sizeof(struct extent)) {
        struct extent extent;
        memcpy(&extent, runs->at + i, sizeof extent);
        trace_zeros(trace, path, extent);
    }
    if (!runs->length) trace_zeros(trace, path, (struct extent){offset, offset + 1});
}

// The part of a hole that lies within the file.
static struct extent within(uint64_t offset, uint64_t count, uint64_t length) {
    uint64_t end = offset < length ? length : offset;
    return (struct extent){offset, count < end - offset ? offset + count : end};
}

// The extents that are stored are found before the hole is made, and their lines are added after it was.
static int trace_punch(void *self, const char *path, uint64_t offset, uint64_t count, uint64_t at) {
    struct trace *trace = self;
    struct node_stat node_stat = {0};
    struct bytes runs = {NULL};
    int err = backend_stat(&trace->inner, (struct path_ref){NULL, path}, &node_stat);
    struct extent hole = within(offset, count, node_stat.length);
    if (!err) err = find_extents(trace, path, hole, &runs);
    if (!err) err = trace->inner.ops->punch(trace->inner.self, path, offset, count, at);
    if (err) put_note(trace, "# a hole of %" PRIu64 " bytes was refused\n", count);
    else if (hole.from < hole.to) trace_hole(trace, path, offset, &runs, at);
    bytes_free(&runs);
    return err;
}

// No line of a script copies a range, so the kernel has to read and write the bytes.
static int trace_copy_range(void *self, const struct copy_range *range, uint64_t at, uint64_t *copied) {
    (void)self, (void)range, (void)at;
    *copied = 0;
    return EOPNOTSUPP;
}

// No line of a script makes a fork.
static int trace_fork(void *self, struct backend *out) {
    (void)self;
    *out = (struct backend){NULL};
    return EOPNOTSUPP;
}

static void free_trace(struct trace *trace) {
    if (trace->calls.fd >= 0) close(trace->calls.fd);
    if (trace->replies.fd >= 0) close(trace->replies.fd);
    struct bytes *all[] = {&trace->line, &trace->reply, &trace->calls.lines, &trace->replies.lines};
    for (size_t i = 0; i < sizeof all / sizeof *all; i++) bytes_free(all[i]);
    mem_free(trace);
}

static int trace_close(void *self, struct image *image) {
    struct trace *trace = self;
    int err = trace->inner.ops->close(trace->inner.self, image);
    flush(trace);
    if (trace->err && !err) err = trace->err;
    free_trace(trace);
    return err;
}

// No line of a script finds extents or does steps, so these calls are not traced.
static const struct backend_ops trace_ops = {
    .change = trace_change,
    .rename = trace_rename,
    .truncate = trace_truncate,
    .write = trace_write,
    .read = trace_read,
    .stat = trace_stat,
    .readdir = trace_readdir,
    .snapshot = trace_snapshot,
    .punch = trace_punch,
    .copy_range = trace_copy_range,
    .fork = trace_fork,
    .close = trace_close,
};

// Only the owner may read a trace, since it has bytes of files that only their owner may read. An existing file is not
// replaced.
static int open_file(const char *name, const char *ending, struct trace_file *out) {
    struct bytes file = {NULL};
    int err = bytes_append(&file, name, strlen(name));
    if (!err) err = bytes_append(&file, ending, strlen(ending) + 1);
    if (!err) out->fd = open(file.at, O_WRONLY | O_CREAT | O_EXCL | O_CLOEXEC, 0600);
    if (!err && out->fd < 0) err = errno;
    if (err) fprintf(stderr, "doorvervain-mount: %s%s: %s\n", name, ending, strerror(err));
    bytes_free(&file);
    return err;
}

int open_trace(const struct open_options *options, struct backend *backend) {
    struct trace *trace = mem_calloc(1, sizeof *trace);
    if (!trace) return ENOMEM;
    trace->inner = *backend;
    trace->name = options->trace;
    trace->calls.fd = trace->replies.fd = -1;
    int err = open_file(options->trace, ".in", &trace->calls);
    if (!err) err = open_file(options->trace, ".out", &trace->replies);
    if (err) {
        free_trace(trace);
        return err;
    }
    *backend = (struct backend){.ops = &trace_ops, .self = trace, .tree = trace->inner.tree};
    return 0;
}
