// Whether the serving thread polls for the next request instead of sleeping. Waking it takes several microseconds, and
// under a dense load the next request comes sooner than that.
#ifndef BUSY_POLL_H
#define BUSY_POLL_H
#include <stdbool.h>

// For how many microseconds it looks at most; for none where 0 is said, or where there is one processor alone.
void busy_poll_set(unsigned microseconds);
// Whether the next request is there.
bool busy_poll_ready(int device);
// Looks for it for so long, where the last ones came as soon as that, unless it was seen before: whether it is there.
bool busy_poll_wait(int device, bool has_come);
// The next request has come, whether it was looked for or not.
void busy_poll_note(void);
#endif
