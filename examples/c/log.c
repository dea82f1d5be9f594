// Writes the log of three requests, and replays it whole, truncated at each byte, and with each byte changed; dumps its bodies.
// It prints what it finds; examples/run compares that with log.expected, whose numbers are computed independently, and the digest by another
// program.
//
// Built with -DREFUSE (examples/run does so), it also has each allocation of a run fail in turn.
#include "doorvervain.h"
#include <stdio.h>
#include <stdlib.h>
#include <string.h>

enum { FIRST = 5, RECORDS = 3, CAPACITY = 512, OLD = 99 };

// A log in memory.
struct log {
    uint8_t at[CAPACITY];
    size_t length;
    uint64_t next;
};

// Appends a record with this body to the log.
static uint8_t append(struct log *log, const uint8_t *body, size_t length) {
    uint8_t ends[DOORVERVAIN_WAL_HEADER + DOORVERVAIN_WAL_TRAILER];
    size_t size;
    uint8_t number = doorvervain_wal_frame(log->next, body, length, ends, sizeof ends, &size);
    if (number) return number;
    memcpy(log->at + log->length, ends, DOORVERVAIN_WAL_HEADER);
    memcpy(log->at + log->length + DOORVERVAIN_WAL_HEADER, body, length);
    memcpy(log->at + log->length + DOORVERVAIN_WAL_HEADER + length, ends + DOORVERVAIN_WAL_HEADER, DOORVERVAIN_WAL_TRAILER);
    log->length += size + length;
    log->next++;
    return 0;
}

// A directory; a file in it with two bytes; a snapshot.
static uint8_t write_log(struct log *log) {
    uint8_t body[CAPACITY];
    size_t size, more;
    *log = (struct log){.next = FIRST};
    uint8_t number = doorvervain_wal_mkdir("/a", 2, 7, body, sizeof body, &size);
    if (!number) number = append(log, body, size);
    if (!number) number = doorvervain_wal_create("/a/x", 4, 8, body, sizeof body, &size);
    if (!number)
        number = doorvervain_wal_write("/a/x", 4, 2, "hi", 2, 9, body + size, sizeof body - size, &more);
    if (!number) number = append(log, body, size + more);
    if (!number) number = doorvervain_wal_snapshot("s", 1, body, sizeof body, &size);
    return number ? number : append(log, body, size);
}

static uint8_t new_volume(struct doorvervain *fs) {
    return doorvervain_open(fs, DOORVERVAIN_FANOUT, DOORVERVAIN_PENDING, DOORVERVAIN_LEAF);
}

// What is found of a log on a new volume.
struct found {
    uint8_t number;
    size_t records, done, size;
    uint64_t length; // of the file
};

static struct found replay(const uint8_t *log, size_t length, uint64_t first) {
    struct found found = {OLD, OLD, OLD, OLD, OLD};
    struct doorvervain fs = {0};
    uint8_t kind;
    uint64_t modified;
    if (new_volume(&fs)) return found;
    found.number = doorvervain_wal_replay(&fs, log, length, first, &found.records, &found.done, &found.size);
    doorvervain_stat(&fs, "/a/x", 4, &kind, &found.length, &modified);
    doorvervain_close(&fs);
    return found;
}

static void say(const char *what, struct found found) {
    printf("%s: answer %d, records %zu, done %zu, bytes %zu, the file has %llu\n", what, found.number, found.records,
        found.done, found.size, (unsigned long long)found.length);
}

// Prints how many records are replayed, as ranges of lengths with the same number.
static void say_runs(const char *what, const struct log *log, size_t places, int changes) {
    struct found last = {0, OLD, 0, 0, 0};
    printf("%s", what);
    for (size_t place = 0; place < places; place++) {
        uint8_t bytes[CAPACITY];
        memcpy(bytes, log->at, log->length);
        if (changes) bytes[place] ^= 0x10;
        struct found found = replay(bytes, changes ? log->length : place, FIRST);
        if (found.number || found.records != last.records)
            printf(" | from %zu: answer %d, records %zu", place, found.number, found.records);
        last = found;
    }
    printf("\n");
}

// Prints how many bytes the bodies of a log have.
static void say_bodies(const struct log *log) {
    size_t at = 0, size;
    printf("bodies:");
    for (uint64_t number = FIRST; !doorvervain_wal_next(log->at + at, log->length - at, number, &size); number++) {
        printf(" %zu", size);
        at += DOORVERVAIN_WAL_HEADER + size + DOORVERVAIN_WAL_TRAILER;
    }
    int number = doorvervain_wal_next(log->at + at, log->length - at, 0, &size);
    printf("; then %d, size %zu\n", number, size);
}

// Prints how many bytes the dump of a body has, and the dump if it fits into a buffer with this capacity.
static void say_lines(const char *what, const uint8_t *body, size_t length, size_t capacity) {
    uint8_t text[CAPACITY] = {OLD};
    size_t size = OLD;
    int number = doorvervain_wal_dump(body, length, text, capacity, &size);
    printf("%s: answer %d, size %zu", what, number, size);
    if (number || size > capacity) {
        printf(", first byte %d\n", text[0]);
    } else {
        printf("\n%.*s", (int)size, (const char *)text);
    }
}

// Prints the dump of each body of a log, and of bodies that cannot be dumped.
static void say_all_lines(const struct log *log) {
    uint8_t body[CAPACITY];
    size_t at = 0, size;
    for (uint64_t number = FIRST; !doorvervain_wal_next(log->at + at, log->length - at, number, &size); number++) {
        say_lines("lines", log->at + at + DOORVERVAIN_WAL_HEADER, size, CAPACITY);
        at += DOORVERVAIN_WAL_HEADER + size + DOORVERVAIN_WAL_TRAILER;
    }
    doorvervain_wal_punch("/a b", 4, 3, 4, 5, body, sizeof body, &size);
    say_lines("a hole", body, size, CAPACITY);
    say_lines("one byte too few", body, size, 18);
    say_lines("no capacity", body, size, 0);
    say_lines("no body", body, size - 1, CAPACITY);
    doorvervain_wal_set_mtime("/a b", 4, 5, body, sizeof body, &size);
    say_lines("an mtime", body, size, CAPACITY);
    doorvervain_wal_copy_range("/a b", 4, 3, "/%", 2, 4, 5, 6, body, sizeof body, &size);
    say_lines("a copy", body, size, CAPACITY);
    doorvervain_wal_edits("delta 2\nend\n", 12, body, sizeof body, &size);
    say_lines("edits", body, size, CAPACITY);
    doorvervain_wal_write("/a", 2, UINT64_MAX, "x", 1, 5, body, sizeof body, &size);
    say_lines("too far", body, size, CAPACITY);
}

static void say_digest(const struct log *log, size_t end) {
    printf("digest:");
    for (size_t i = end - DOORVERVAIN_WAL_TRAILER; i < end; i++)
        printf(" %02x", log->at[i]);
    printf("\n");
}

// Texts that are invalid, buffers that are too short, and bytes that are not a body.
static void say_refusals(void) {
    uint8_t out[CAPACITY] = {OLD};
    struct doorvervain fs = {0};
    size_t size = OLD, done = OLD;
    int number = doorvervain_wal_rmdir("", 0, 1, out, sizeof out, &size);
    printf("no text: %d, size %zu", number, size);
    number = doorvervain_wal_rename("/a", 2, "b", 1, 1, out, sizeof out, &size);
    printf("; no path: %d, size %zu", number, size);
    number = doorvervain_wal_drop("/", 1, out, sizeof out, &size);
    printf("; no name: %d, size %zu, first byte %d\n", number, size, out[0]);
    number = doorvervain_wal_truncate("/a", 2, 3, 4, out, 49, &size);
    printf("short: %d, size %zu, first byte %d", number, size, out[0]);
    number = doorvervain_wal_punch("/a", 2, 3, 4, 5, NULL, 0, &size);
    printf("; no capacity: %d, size %zu", number, size);
    number = doorvervain_wal_unlink("/a", 2, 3, NULL, 1, &size);
    printf("; null: %d\n", number);
    if (new_volume(&fs)) return;
    number = doorvervain_wal_apply(&fs, "none", 4, &done);
    printf("no body: %d, done %zu", number, done);
    doorvervain_wal_mkdir("/a", 2, 7, out, sizeof out, &size);
    doorvervain_wal_rmtree("/b", 2, 7, out + size, sizeof out - size, &size);
    number = doorvervain_wal_apply(&fs, out, 50 + size, &done);
    printf("; refused: %d, done %zu\n", number, done);
    doorvervain_wal_restore("s", 1, out, sizeof out, &size);
    number = doorvervain_wal_apply(&fs, out, size, &done);
    printf("no snapshot: %d, done %zu\n", number, done);
    doorvervain_wal_edits("delta 2\n- D /b 1\nend\n", 21, out, sizeof out, &size);
    number = doorvervain_wal_apply(&fs, out, size, &done);
    printf("edits that do not fit: %d, done %zu", number, done);
    doorvervain_wal_edits("delta 2\n", 8, out, sizeof out, &size);
    number = doorvervain_wal_apply(&fs, out, size, &done);
    printf("; no edits: %d, done %zu\n", number, done);
    doorvervain_close(&fs);
}

#ifdef REFUSE
#include "refused_memory.h"

// Applies the second body with each allocation failing in turn: it returns ENOMEM, and the changes before that are there.
static int keeps_its_word(const struct log *log, long grant, uint8_t *number) {
    struct doorvervain fs = {0};
    size_t records, done, size;
    uint8_t kind;
    uint64_t length, modified;
    if (new_volume(&fs)) return 0;
    refused_request = grant + 1;
    *number = doorvervain_wal_replay(&fs, log->at, log->length, FIRST, &records, &done, &size);
    refused_request = 0;
    uint8_t stands = doorvervain_stat(&fs, "/a/x", 4, &kind, &length, &modified);
    int has_file = records > 1 || (records == 1 && done > 0);
    doorvervain_close(&fs);
    return (*number == 0 || *number == DOORVERVAIN_ENOMEM) && (stands == 0) == has_file;
}

static void try_refusals(const struct log *log) {
    uint8_t number = DOORVERVAIN_ENOMEM;
    long grant = 0;
    for (; number == DOORVERVAIN_ENOMEM && grant < 10000; grant++)
        if (!keeps_its_word(log, grant, &number)) {
            printf("with %ld requests granted it does not keep its word\n", grant);
            exit(1);
        }
}
#else
static void try_refusals(const struct log *log) { (void)log; }
#endif

int main(void) {
    struct log log;
    printf("DOORVERVAIN_WAL_HEADER = %d\n", DOORVERVAIN_WAL_HEADER);
    printf("DOORVERVAIN_WAL_TRAILER = %d\n", DOORVERVAIN_WAL_TRAILER);
    printf("DOORVERVAIN_WAL_ENTRY = %d\n", DOORVERVAIN_WAL_ENTRY);
    int written = write_log(&log);
    printf("write: %d, bytes %zu\n", written, log.length);
    say_digest(&log, 106);
    say_bodies(&log);
    say("whole", replay(log.at, log.length, FIRST));
    say("from the second on", replay(log.at + 106, log.length - 106, FIRST + 1));
    say("another number", replay(log.at, log.length, 0));
    say("a number too great", replay(log.at, log.length, UINT64_MAX));
    say_runs("cut", &log, log.length + 1, 0);
    say_runs("changed", &log, log.length, 1);
    say_refusals();
    say_all_lines(&log);
    try_refusals(&log);
    return 0;
}
