// What the file `lock` of a store says of its newest log ("Store" in docs/FORMATS.md).
//
// Each other file is known by the one before it, and a later one tells how many records it had. Nothing comes after the
// newest log: an older copy of it, from an earlier end of a mount, would be whole. So a mount notes how many records the
// newest log has once it has read the store, and again when it ends.
//
// Validity: the text is exactly what is printed of its parts, with the digest of its lines. It is written in place, since
// the file is locked: so a loss of power may leave another text, of which nothing is known.
#include "store_inside.h"
#include <errno.h>
#include <inttypes.h>
#include <stdio.h>
#include <string.h>
#include <unistd.h>

enum { LONGEST_TEXT = 256 };
static const char first_line[] = "doorvervain mount 2\n", began[] = "began", ended[] = "ended";

static int print(struct bytes *out, const struct last_log *last) {
    const char *word = last->has_ended ? ended : began;
    int err =
        bytes_print(out, "%s%s log %" PRIu64 " records %" PRIu64 " ", first_line, word, last->number, last->records);
    if (!err) err = store_put_salt(out, &last->salt);
    return err ? err : store_put_digest(out);
}

// ---- reading

// Its parts, as far as they are there: whether it is the text of them is seen when they are printed.
static bool read_parts(const char *text, struct last_log *out) {
    char word[sizeof began] = "", line[LONGEST_TEXT];
    const char *at = text + sizeof first_line - 1;
    if (strncmp(text, first_line, sizeof first_line - 1)) return false;
    snprintf(line, sizeof line, "%.*s", (int)strcspn(at, "\n"), at);
    if (sscanf(line, "%5s log %" SCNu64 " records %" SCNu64, word, &out->number, &out->records) != 3) return false;
    out->has_ended = !strcmp(word, ended);
    return store_read_salt(line, &out->salt);
}

static bool is_text_of(const char *text, size_t length, const struct last_log *last) {
    struct bytes again = {NULL};
    bool is = !print(&again, last) && again.length == length && !memcmp(again.at, text, length);
    bytes_free(&again);
    return is;
}

void store_read_last(const struct store *store, struct last_log *out) {
    char text[LONGEST_TEXT + 1];
    ssize_t got = store->lock_file < 0 ? -1 : pread(store->lock_file, text, LONGEST_TEXT, 0);
    *out = (struct last_log){.is_known = false};
    if (got <= 0) return;
    text[got] = 0;
    out->is_known = read_parts(text, out) && is_text_of(text, (size_t)got, out);
}

// ---- writing

static int write_text(int file, const struct bytes *text) {
    ssize_t done;
    do done = pwrite(file, text->at, text->length, 0);
    while (done < 0 && errno == EINTR);
    if (done < 0) return errno;
    if ((size_t)done < text->length) return ENOSPC;
    return ftruncate(file, (off_t)text->length) || fdatasync(file) ? errno : 0;
}

// A log of version 1 has no salt: an older release may go on with it, which notes nothing.
void store_note_last(const struct store *store, bool has_ended) {
    const struct wal_log *log = &store->log;
    struct last_log last = {true, has_ended, log->number, log->records - log->marks, log->salt};
    struct bytes text = {NULL};
    if (!log->salt.length) return;
    int err = print(&text, &last);
    if (!err) err = write_text(store->lock_file, &text);
    if (err)
        store_report(store, "lock: what is to be known of log.%" PRIu64 " is not written: %s", log->number,
                     strerror(err));
    bytes_free(&text);
}
