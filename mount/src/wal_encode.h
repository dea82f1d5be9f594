// Encodes calls as entries, and entries as records of the log, by functions of the library, into growable buffers.
#ifndef WAL_ENCODE_H
#define WAL_ENCODE_H
#include "backend.h"
#include "sha256.h"

// Each puts a call after those that are there: 0, or why it is refused.
int wal_encode_change(struct bytes *out, enum path_call what, const char *path, uint64_t at);
int wal_encode_rename(struct bytes *out, const char *from, const char *to, uint64_t at);
int wal_encode_truncate(struct bytes *out, const char *path, uint64_t length, uint64_t at);
int wal_encode_write(struct bytes *out, const char *path, uint64_t offset, const char *bytes, size_t count,
                     uint64_t at);
int wal_encode_punch(struct bytes *out, const char *path, uint64_t offset, uint64_t count, uint64_t at);
int wal_encode_copy_range(struct bytes *out, const struct copy_range *range, uint64_t at);
int wal_encode_edits(struct bytes *out, const struct bytes *text);
int wal_encode_snapshot(struct bytes *out, enum snapshot_call what, const char *snapshot);

// The random bytes of a log, which the digest of each of its records includes: so no record of another log, and no
// contents of a file, are a record of it. A log of version 1 has none.
enum { WAL_SALT = 16 };
struct wal_salt {
    uint8_t bytes[WAL_SALT];
    size_t length;
};
int wal_new_salt(struct wal_salt *out);
bool wal_same_salt(const struct wal_salt *one, const struct wal_salt *other);

// What precedes and follows the calls of a record.
struct record_frame {
    uint8_t ends[DOORVERVAIN_WAL_HEADER + DOORVERVAIN_WAL_TRAILER];
};
// The frame of the record with this number in the log of a salt, of these calls. It is made by any thread.
int wal_frame(struct record_frame *out, const struct wal_salt *salt, uint64_t number, const char *calls, size_t length);
// The same by a function of libcrypto, which takes less than half the time; by the library where there is none.
int wal_frame_by(const struct sha256_function *function, struct record_frame *out, const struct wal_salt *salt,
                 uint64_t number, const char *calls, size_t length);
// Leaves the function only if it makes the frame of a record that the library makes.
void wal_check_function(struct sha256_function *function);
// Puts a record after what is there: 0 or ENOMEM.
int wal_put_record(struct bytes *out, const struct record_frame *frame, const char *calls, size_t length);
// How many bytes of calls the record has with which a log of a salt begins: false where it begins with none of this
// number.
bool wal_next(const char *log, size_t length, const struct wal_salt *salt, uint64_t number, size_t *size);
// The same for whatever number it has.
bool wal_next_any(const char *log, size_t length, const struct wal_salt *salt, size_t *size);
// Whether a record of no calls, with a higher number than this one, lies whole somewhere in a log's bytes.
bool wal_find_sync_marker(const char *log, size_t length, const struct wal_salt *salt, uint64_t number);

// The first record of a log of version 2.
struct wal_header {
    struct wal_salt salt;       // of the log
    struct wal_salt prior_salt; // of the log before it; none where that is of version 1, or there is none
    uint64_t prior_records;     // how many records that had when this log began
};
enum {
    WAL_MARKER = DOORVERVAIN_WAL_HEADER + DOORVERVAIN_WAL_TRAILER,
    WAL_HEADER_BODY = 2 * WAL_SALT + 8 + WAL_MARKER,
    WAL_HEADER_RECORD = DOORVERVAIN_WAL_HEADER + WAL_HEADER_BODY + DOORVERVAIN_WAL_TRAILER,
};
// Puts it, as the record of this number, after what is there.
int wal_put_header(struct bytes *out, const struct wal_header *header, uint64_t number);
// That with which a log begins: false where it does not begin with one of this number.
bool wal_read_header(const char *log, size_t length, uint64_t number, struct wal_header *out);
// Whether a log, by its first bytes, is of version 2.
bool wal_is_salted(const char *log, size_t length);
#endif
