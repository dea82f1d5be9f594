// A fork of the live tree, which calls change while requests are served, and which then replaces the live tree.
#ifndef BRANCH_H
#define BRANCH_H
#include "mount.h"
#include "wal_layer.h"

struct branch {
    struct wal_layer layer; // notes the calls that are done to the fork
    struct bytes calls;     // as entries for a log
    struct backend backend; // where calls go; its `tree` is the fork
};

// Under the request lock, in constant time. EOPNOTSUPP: all calls have to be made to the live tree. It is to be ended
// whatever is answered.
int branch_begin(const struct mount *mount, struct branch *out);
// Under the request lock: the live tree becomes that of the branch, and a log gets the calls that made it. EAGAIN: the
// live tree has changed since the branch began. With a fault nothing has happened.
int branch_adopt(const struct mount *mount, struct branch *branch);
// With no lock, or with it.
void branch_end(struct branch *branch);
#endif
