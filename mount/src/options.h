// The command line.
#ifndef OPTIONS_H
#define OPTIONS_H
#include "backend.h"

struct options {
    struct open_options open;
    const char *mount_point;
    const char *image;      // where the image goes at the end
    const char *restore;    // the snapshot to restore in a running mount
    const char *diff_from;  // the snapshot from which on changes are told
    const char *send_from;  // or from which on the difference is sent
    const char *until;      // and the one up to which; null: the live tree
    uint64_t size;          // bytes of memory that the tree may take; 0: as many as there are
    unsigned busy_poll;     // microseconds for which the next request is looked for
    bool receives;          // a difference makes of the tree of a running mount another one
    bool dumps_log;         // prints the logs of a store, which `mount_point` names
    const char *rescue;     // the directory of a new store, with what is whole of that one
    bool prints_status;     // what a running mount tells of itself
    bool as_json;           // as JSON
    bool unmounts;          // takes a mount away, and waits for its end
    bool in_foreground;     // in the foreground
    bool allows_other;      // users may go in
    bool trusts_attributes; // owners, set-user bits and devices of records hold
    bool no_suid, no_dev;   // but not its set-user bits, or its devices
    bool prints_help, prints_version;
};

// 0, or 2 where the command line is refused, which is said on standard error.
int read_options(int count, char **words, struct options *out);
void print_help(void);
void print_version(void);
#endif
