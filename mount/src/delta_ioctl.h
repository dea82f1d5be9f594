// The ioctls of --send and --receive, on the root of the mount. The text is transferred in pieces, and belongs to the
// root as it was opened, so it is freed with the process that opened it.
#ifndef DELTA_IOCTL_H
#define DELTA_IOCTL_H
#include "request.h"
#include <sys/ioctl.h>

enum { DELTA_PIECE = 16000 };

// The difference from a snapshot to another one, or to the live tree where the second name is empty, is to be read.
struct send_request {
    char from[LONGEST_SNAPSHOT + 1], to[LONGEST_SNAPSHOT + 1];
};
#define SEND_REQUEST _IOW('D', 3, struct send_request)

// The next bytes of the text: fewer than fit only at its end.
struct delta_piece {
    uint32_t count;
    char bytes[DELTA_PIECE];
};
#define SENT_PIECE_REQUEST _IOR('D', 4, struct delta_piece)

// More of a text comes, in a piece that may have fewer bytes than fit.
#define COMING_PIECE_REQUEST _IOW('D', 5, struct delta_piece)

// All of it came: it is to be applied to the live tree.
enum { DELTA_IS_DONE, DELTA_IS_NONE, DELTA_DOES_NOT_FIT, DELTA_MAKES_NO_TREE };
struct delta_answer {
    uint32_t outcome;
    uint64_t line; // DELTA_IS_NONE, DELTA_DOES_NOT_FIT: the first that is bad, or does not fit
};
#define RECEIVE_REQUEST _IOR('D', 6, struct delta_answer)

// These are called in the mount.

// Under the request lock: takes both trees. They are printed with no lock, and freed by doorvervain_edits_end, whatever is
// answered.
int delta_begin(struct mount *mount, const struct send_request *wanted, struct doorvervain_edits *out);
// With no lock: it is taken twice for a moment, and for all of it only where the tree changes thrice meanwhile, or memory
// is wanting. A text is applied to the live tree, and snapshots stay. With a fault, and with another outcome, the tree is
// as it was. EOPNOTSUPP: nothing can be forked. What the kernel has to forget goes to `stale`, as with snapshot_restore.
int delta_receive(struct request *request, const struct bytes *text, struct delta_answer *answer, struct bytes *stale);
#endif
