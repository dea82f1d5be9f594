// Encodes calls as entries, and frames them as records of the log, by functions of the library ("Logs" in
// docs/FORMATS.md).
//
// Validity: a record counts if its magic bytes, number and length are right and the SHA-256 digest at its end is that of
// the log's salt and all bytes before. An encoder that fails leaves the bytes as they were.
#include "wal_encode.h"
#include <errno.h>
#include <string.h>
#include <sys/random.h>

// What an entry takes beside its texts.
enum { ENTRY = DOORVERVAIN_WAL_ENTRY };

static uint8_t *end_of(struct bytes *out) { return (uint8_t *)out->at + out->length; }

// The room for an entry whose texts have so many bytes.
static int reserve(struct bytes *out, size_t texts) { return bytes_reserve(out, ENTRY + texts); }

// An entry that was put there takes its place.
static int put(struct bytes *out, uint8_t number, const size_t *size) {
    if (!number) out->length += *size;
    return doorvervain_errno(number);
}

int wal_encode_change(struct bytes *out, enum path_call what, const char *path, uint64_t at) {
    static uint8_t (*const calls[])(const char *, size_t, uint64_t, void *, size_t, size_t *) = {
        [CALL_MKDIR] = doorvervain_wal_mkdir,   [CALL_CREATE] = doorvervain_wal_create,
        [CALL_UNLINK] = doorvervain_wal_unlink, [CALL_RMDIR] = doorvervain_wal_rmdir,
        [CALL_RMTREE] = doorvervain_wal_rmtree, [CALL_SET_MTIME] = doorvervain_wal_set_mtime,
    };
    size_t length = strlen(path), size = 0;
    if (reserve(out, length)) return ENOMEM;
    return put(out, calls[what](path, length, at, end_of(out), ENTRY + length, &size), &size);
}

int wal_encode_rename(struct bytes *out, const char *from, const char *to, uint64_t at) {
    size_t length = strlen(from), other = strlen(to), size = 0;
    if (reserve(out, length + other)) return ENOMEM;
    uint8_t number = doorvervain_wal_rename(from, length, to, other, at, end_of(out), ENTRY + length + other, &size);
    return put(out, number, &size);
}

int wal_encode_truncate(struct bytes *out, const char *path, uint64_t bytes, uint64_t at) {
    size_t length = strlen(path), size = 0;
    if (reserve(out, length)) return ENOMEM;
    return put(out, doorvervain_wal_truncate(path, length, bytes, at, end_of(out), ENTRY + length, &size), &size);
}

int wal_encode_write(struct bytes *out, const char *path, uint64_t offset, const char *bytes, size_t count,
                     uint64_t at) {
    size_t length = strlen(path), size = 0;
    if (reserve(out, length + count)) return ENOMEM;
    uint8_t number =
        doorvervain_wal_write(path, length, offset, bytes, count, at, end_of(out), ENTRY + length + count, &size);
    return put(out, number, &size);
}

int wal_encode_punch(struct bytes *out, const char *path, uint64_t offset, uint64_t count, uint64_t at) {
    size_t length = strlen(path), size = 0;
    if (reserve(out, length)) return ENOMEM;
    uint8_t number = doorvervain_wal_punch(path, length, offset, count, at, end_of(out), ENTRY + length, &size);
    return put(out, number, &size);
}

// The second text is the target offset, in 8 bytes, and the path.
int wal_encode_copy_range(struct bytes *out, const struct copy_range *range, uint64_t at) {
    size_t length = strlen(range->from), other = strlen(range->to), size = 0;
    size_t texts = length + sizeof range->target + other;
    if (reserve(out, texts)) return ENOMEM;
    uint8_t number = doorvervain_wal_copy_range(range->from, length, range->offset, range->to, other, range->target,
                                                range->count, at, end_of(out), ENTRY + texts, &size);
    return put(out, number, &size);
}

int wal_encode_edits(struct bytes *out, const struct bytes *text) {
    size_t size = 0;
    if (reserve(out, text->length)) return ENOMEM;
    return put(out, doorvervain_wal_edits(text->at, text->length, end_of(out), ENTRY + text->length, &size), &size);
}

int wal_encode_snapshot(struct bytes *out, enum snapshot_call what, const char *snapshot) {
    static uint8_t (*const calls[])(const char *, size_t, void *, size_t, size_t *) = {
        [TAKE_SNAPSHOT] = doorvervain_wal_snapshot,
        [DROP_SNAPSHOT] = doorvervain_wal_drop,
        [RESTORE_SNAPSHOT] = doorvervain_wal_restore,
    };
    size_t length = strlen(snapshot), size = 0;
    if (reserve(out, length)) return ENOMEM;
    return put(out, calls[what](snapshot, length, end_of(out), ENTRY + length, &size), &size);
}

// ---- records

static const char magic_1[8] = "dvlog 1\n", magic_2[8] = "dvlog 2\n";

int wal_new_salt(struct wal_salt *out) {
    out->length = WAL_SALT;
    return getrandom(out->bytes, WAL_SALT, 0) == WAL_SALT ? 0 : EIO;
}

bool wal_same_salt(const struct wal_salt *one, const struct wal_salt *other) {
    return one->length == other->length && !memcmp(one->bytes, other->bytes, one->length);
}

int wal_frame(struct record_frame *out, const struct wal_salt *salt, uint64_t number, const char *calls, size_t length) {
    size_t size = 0;
    return doorvervain_errno(doorvervain_wal_salted_frame(salt->bytes, salt->length, number, calls, length, out->ends,
                                                          sizeof out->ends, &size));
}

static void put_number(char *at, uint64_t number) {
    for (size_t i = 0; i < 8; i++) at[i] = (char)(number >> 8 * i);
}

// The parts of the frame are those of "Logs" in docs/FORMATS.md.
int wal_frame_by(const struct sha256_function *function, struct record_frame *out, const struct wal_salt *salt,
                 uint64_t number, const char *calls, size_t length) {
    char *front = (char *)out->ends;
    memcpy(front, salt->length ? magic_2 : magic_1, sizeof magic_1);
    put_number(front + 8, number);
    put_number(front + 16, length);
    struct sha256_part parts[] = {{salt->bytes, salt->length}, {front, DOORVERVAIN_WAL_HEADER}, {calls, length}};
    int err = sha256_of_parts(function, parts, 3, out->ends + DOORVERVAIN_WAL_HEADER);
    return err ? wal_frame(out, salt, number, calls, length) : 0;
}

void wal_check_function(struct sha256_function *function) {
    static const char calls[200] = "calls";
    struct wal_salt salt = {.bytes = "salt", .length = WAL_SALT};
    struct record_frame one, other;
    bool is_same = !wal_frame(&one, &salt, 1, calls, sizeof calls) &&
                   !wal_frame_by(function, &other, &salt, 1, calls, sizeof calls) && !memcmp(&one, &other, sizeof one);
    if (!is_same) sha256_function_end(function);
}

int wal_put_record(struct bytes *out, const struct record_frame *frame, const char *calls, size_t length) {
    if (bytes_reserve(out, sizeof frame->ends + length)) return ENOMEM;
    bytes_append(out, frame->ends, DOORVERVAIN_WAL_HEADER);
    bytes_append(out, calls, length);
    return bytes_append(out, frame->ends + DOORVERVAIN_WAL_HEADER, DOORVERVAIN_WAL_TRAILER);
}

bool wal_next(const char *log, size_t length, const struct wal_salt *salt, uint64_t number, size_t *size) {
    return !doorvervain_wal_salted_next(log, length, salt->bytes, salt->length, number, size);
}

static uint64_t number_at(const char *at) {
    uint64_t number = 0;
    for (size_t i = 8; i-- > 0;) number = number << 8 | (uint8_t)at[i];
    return number;
}

bool wal_next_any(const char *log, size_t length, const struct wal_salt *salt, size_t *size) {
    return length >= DOORVERVAIN_WAL_HEADER && wal_next(log, length, salt, number_at(log + 8), size);
}

// The number of the record whose front may stand at a place; 0 where none of no calls does.
static uint64_t sync_marker_at(const char *at, const char magic[8]) {
    return memcmp(at, magic, 8) || number_at(at + 16) ? 0 : number_at(at + 8);
}

bool wal_find_sync_marker(const char *log, size_t length, const struct wal_salt *salt, uint64_t number) {
    const char *at = log, *magic = salt->length ? magic_2 : magic_1;
    size_t left = length, count;
    while (left >= WAL_MARKER && (at = memchr(at, 'd', left - WAL_MARKER + 1))) {
        left = length - (size_t)(at - log);
        if (sync_marker_at(at, magic) > number && wal_next(at, left, salt, sync_marker_at(at, magic), &count)) return true;
        at++, left--;
    }
    return false;
}

// ---- the first record of a log

bool wal_is_salted(const char *log, size_t length) { return length >= 8 && !memcmp(log, magic_2, 8); }

// The last part is a sync marker of version 1, with a number above that of the header. A program that reads version 1
// alone finds it, takes the log as damaged, and does not cut it off.
static int put_old_marker(char out[WAL_MARKER], uint64_t number) {
    struct record_frame frame;
    int err = wal_frame(&frame, &(struct wal_salt){.length = 0}, number, "", 0);
    if (!err) memcpy(out, frame.ends, WAL_MARKER);
    return err;
}

int wal_put_header(struct bytes *out, const struct wal_header *header, uint64_t number) {
    char body[WAL_HEADER_BODY] = {0}, *at = body;
    struct record_frame frame;
    memcpy(at, header->salt.bytes, WAL_SALT);
    put_number(at + WAL_SALT, header->prior_records);
    memcpy(at + WAL_SALT + 8, header->prior_salt.bytes, header->prior_salt.length);
    int err = put_old_marker(at + 2 * WAL_SALT + 8, number + 1);
    if (!err) err = wal_frame(&frame, &header->salt, number, body, sizeof body);
    return err ? err : wal_put_record(out, &frame, body, sizeof body);
}

bool wal_read_header(const char *log, size_t length, uint64_t number, struct wal_header *out) {
    static const char none[WAL_SALT];
    size_t size = 0;
    if (length < WAL_HEADER_RECORD) return false;
    const char *at = log + DOORVERVAIN_WAL_HEADER;
    out->salt.length = WAL_SALT;
    memcpy(out->salt.bytes, at, WAL_SALT);
    out->prior_records = number_at(at + WAL_SALT);
    memcpy(out->prior_salt.bytes, at + WAL_SALT + 8, WAL_SALT);
    out->prior_salt.length = memcmp(out->prior_salt.bytes, none, WAL_SALT) ? WAL_SALT : 0;
    return wal_next(log, length, &out->salt, number, &size) && size == WAL_HEADER_BODY;
}
