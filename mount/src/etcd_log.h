// The shared log in etcd, by the JSON interface of its members: one thread puts values, and one watches.
#ifndef ETCD_LOG_H
#define ETCD_LOG_H
#include "replica_checkpoint.h"

enum { LARGEST_VALUE = 1000000 };

// What precedes a value: which mount put it, which of its puts it was, and which part of that, of how many.
struct value_header {
    char mark[8];
    uint64_t mount, serial, part, parts;
};
#define VALUE_MARK "dvput 1\n"
_Static_assert(__BYTE_ORDER__ == __ORDER_LITTLE_ENDIAN__, "numbers in the log have their least byte first");

// A value that came from the log, and the revision of etcd that it has.
struct value {
    uint64_t version, revision;
    struct bytes bytes;
};

struct etcd_log;

// What a mount begins with.
struct log_start {
    uint64_t number; // that no other mount has
    uint64_t newest; // version of the log
    struct checkpoint checkpoint;
    int image; // the file of its image; -1: there is none
};

// Refuses members that may not be spoken to, with a word on standard error; begins to watch after the checkpoint.
int etcd_log_open(const struct etcd_options *options, struct etcd_log **out, struct log_start *start);
const struct members *etcd_log_members(const struct etcd_log *log);
// Lets the file that is polled for be read.
void etcd_log_wake(struct etcd_log *log);
// Once the log could not be read any more: it is read after another checkpoint.
void etcd_log_resume(struct etcd_log *log, const struct checkpoint *from);
// Ends its threads, and says on standard error what each member that gave no values answered.
void etcd_log_print_errors(struct etcd_log *log);
void etcd_log_close(struct etcd_log *log);
// A file to poll for: it can be read where a value has come.
int etcd_log_event(const struct etcd_log *log);
// The next value: false where none has come. Its bytes are the caller's. Where the log cannot be read any more, `err`
// says why.
bool etcd_log_next(struct etcd_log *log, struct value *out, int *err);
// Puts a value where the key has one version less, in place of what was being put: until another is put, or none
// (null).
// 0, or ENOMEM: none is put.
int etcd_log_put(struct etcd_log *log, uint64_t version, const struct bytes *value);
#endif
