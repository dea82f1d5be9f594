// Aborts the kernel's connection of a mount whose process was killed.
//
// A thread that notifies the kernel of stale names or bytes may wait for a lock whose holder waits for the mount. If
// the process is killed then, that thread does not end, and the connection stays open until it is aborted.
#ifndef ABORT_WATCH_H
#define ABORT_WATCH_H

struct abort_watch {
    int process; // 0: there is none
    int pipe;
};

#define ABORT_WATCH_NONE                                                                                               \
    { 0, -1 }

// Begins to watch the thread that calls it, and with it its process: it is called while that has one thread and little
// memory. Without such a process a mount works as well.
void abort_watch_begin(struct abort_watch *watch);
// The mount stands: it is aborted where the process is killed from now on, if the kernel lets this user do so.
void abort_watch_mounted(struct abort_watch *watch, const char *mount_point);
// The mount comes to an end by itself.
void abort_watch_end(struct abort_watch *watch);
#endif
