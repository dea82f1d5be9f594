// Negotiates who clears the set-user bits and the capability of a file whose bytes or owner change. Kernels since 5.11
// leave it to a mount that offers FUSE_HANDLE_KILLPRIV_V2; then they do not ask for the capability before each write.
#ifndef KILLPRIV_H
#define KILLPRIV_H
#include "requests.h"

// Makes the offer. It is called once the session is mounted, before its first request. If libfuse has no means for it,
// the kernel clears the bits itself.
void killpriv_negotiate(struct fuse_session *session);
// Notes the request that is processed next, in the bytes that the kernel wrote.
void killpriv_note(const struct fuse_buf *request);
// Whether the mount clears the bits.
bool killpriv_is_handled(void);
// Whether the request that was noted last asks that set-user bits be cleared: the caller has no CAP_FSETID, or the
// owner changes.
bool killpriv_is_requested(void);
#endif
