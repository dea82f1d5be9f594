// Replaces replica.c if libcurl or jansson is missing: --replica fails, and the other functions do nothing.
//
// Invariant: `mount->replica` is null always, so no request is deferred.
#include "replica.h"
#include <errno.h>
#include <stdio.h>

int replica_open(const struct open_options *options, struct mount *mount) {
    (void)options, (void)mount;
    fputs("doorvervain-mount: made without --replica: that takes libcurl and jansson\n", stderr);
    return ENOSYS;
}

int replica_serve(struct fuse_session *session, struct mount *mount) { return (void)session, (void)mount, 1; }

void replica_end(struct mount *mount) { (void)mount; }

void replica_change_begins(struct mount *mount) { (void)mount; }

int replica_change_ends(struct mount *mount, int err) { return (void)mount, err; }

void replica_fill_status(const struct mount *mount, struct replica_status *out) { (void)mount, (void)out; }

uint64_t replica_timestamp(const struct mount *mount) { return (void)mount, 0; }

bool replica_may_answer(const struct mount *mount, int *err) { return (void)mount, (void)err, true; }

void replica_note_moved(struct mount *mount, const struct inode *inode) { (void)mount, (void)inode; }
