// Prints calls as lines of the script language, and their replies ("Script" in docs/FORMATS.md).
//
// Validity: each path, name and byte string is one word in percent form or hexadecimal, so each call is exactly one line
// whatever a user's names are. Nothing is read back here.
#include "script.h"
#include "text.h"
#include <errno.h>
#include <inttypes.h>
#include <stdio.h>
#include <string.h>

static const struct {
    const char *word;
    int number;
} faults[] = {
    {"ENOENT", ENOENT},       {"ENOTDIR", ENOTDIR}, {"EISDIR", EISDIR}, {"EEXIST", EEXIST},
    {"ENOTEMPTY", ENOTEMPTY}, {"EPERM", EPERM},     {"EINVAL", EINVAL}, {"ENAMETOOLONG", ENAMETOOLONG},
    {"EFBIG", EFBIG},         {"EBUSY", EBUSY},     {"ENOMEM", ENOMEM}, {"ENOSPC", ENOSPC},
};
enum { FAULTS = sizeof faults / sizeof *faults };

static const char *const call_words[] = {
    [CALL_MKDIR] = "mkdir", [CALL_CREATE] = "create", [CALL_UNLINK] = "unlink",
    [CALL_RMDIR] = "rmdir", [CALL_RMTREE] = "rmtree",
};
static const char *const snapshot_words[] = {
    [TAKE_SNAPSHOT] = "snapshot",
    [DROP_SNAPSHOT] = "drop",
    [RESTORE_SNAPSHOT] = "restore",
};

// A word, a space, and a path or a name in percent form.
static int append_call(struct bytes *line, const char *word, const char *path) {
    int err = bytes_print(line, "%s ", word);
    return err ? err : text_escape(line, path);
}

static int append_look(struct bytes *line, const char *word, struct path_ref ref) {
    int err = bytes_print(line, ref.snapshot ? "%s@" : "%s", word);
    if (!err && ref.snapshot) err = text_escape(line, ref.snapshot);
    if (!err) err = bytes_append(line, " ", 1);
    return err ? err : text_escape(line, ref.path);
}

static int end_line(struct bytes *line, int err) { return err ? err : bytes_append(line, "\n", 1); }

int script_timestamp(struct bytes *line, uint64_t at) { return bytes_print(line, "at %" PRIu64 "\n", at); }

int script_change(struct bytes *line, enum path_call what, const char *path) {
    return end_line(line, append_call(line, call_words[what], path));
}

int script_rename(struct bytes *line, const char *from, const char *to) {
    int err = append_call(line, "rename", from);
    if (!err) err = bytes_append(line, " ", 1);
    return end_line(line, err ? err : text_escape(line, to));
}

int script_truncate(struct bytes *line, const char *path, uint64_t length) {
    int err = append_call(line, "truncate", path);
    return err ? err : bytes_print(line, " %" PRIu64 "\n", length);
}

int script_write(struct bytes *line, const char *path, uint64_t offset, const char *bytes, size_t count) {
    int err = append_call(line, "write", path);
    if (!err) err = bytes_print(line, " %" PRIu64 " ", offset);
    return end_line(line, err ? err : text_hex(line, bytes, count));
}

int script_read(struct bytes *line, struct path_ref ref, uint64_t offset, size_t count) {
    int err = append_look(line, "read", ref);
    return err ? err : bytes_print(line, " %" PRIu64 " %zu\n", offset, count);
}

int script_stat(struct bytes *line, struct path_ref ref) { return end_line(line, append_look(line, "stat", ref)); }

int script_readdir(struct bytes *line, struct path_ref ref) {
    return end_line(line, append_look(line, "readdir", ref));
}

// A user's text may be no name of a snapshot: in percent form it is one word of one line all the same.
int script_snapshot(struct bytes *line, enum snapshot_call what, const char *snapshot) {
    return end_line(line, append_call(line, snapshot_words[what], snapshot));
}

int reply_fault(struct bytes *reply, int number) {
    for (size_t i = 0; i < FAULTS; i++)
        if (faults[i].number == number) return bytes_print(reply, "fault %s\n", faults[i].word);
    return bytes_print(reply, "error %d\n", number);
}

int reply_read(struct bytes *reply, const char *bytes, size_t count) {
    int err = bytes_append(reply, "bytes ", 6);
    return end_line(reply, err ? err : text_hex(reply, bytes, count));
}

int reply_stat(struct bytes *reply, struct node_stat node_stat) {
    if (node_stat.is_directory) return bytes_print(reply, "dir 0 %" PRIu64 "\n", node_stat.mtime_ns);
    return bytes_print(reply, "file %" PRIu64 " %" PRIu64 "\n", node_stat.length, node_stat.mtime_ns);
}

static size_t names_of(const char *listing, size_t length) {
    size_t names = 0;
    for (size_t i = 0; i < length; i++) names += listing[i] == 0;
    return names;
}

int reply_readdir(struct bytes *reply, const char *listing, size_t length) {
    int err = bytes_print(reply, "names %zu\n", names_of(listing, length));
    for (size_t at = 0; !err && at < length; at += strlen(listing + at) + 1) {
        err = bytes_print(reply, "%c ", listing[at]);
        err = end_line(reply, err ? err : text_escape(reply, listing + at + 1));
    }
    return err;
}
