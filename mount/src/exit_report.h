// The report of how a mount ended, for the process of --unmount.
//
// A mount has a pipe to which it alone writes. The process of --unmount finds it by ioctl(2), opens it through /proc,
// unmounts, and reads it to its end: the error messages, and last the status.
#ifndef EXIT_REPORT_H
#define EXIT_REPORT_H
#include <stdint.h>
#include <sys/ioctl.h>

struct exit_report_pipe {
    int32_t process, file;
};
#define EXIT_REPORT_REQUEST _IOR('D', 2, struct exit_report_pipe)

// In the mount: 0, or a number of <errno.h>.
int exit_report_open(void);
struct exit_report_pipe exit_report_pipe(void);
// Says what failed, also on standard error and to the log of the system.
void exit_report_error(const char *what, const char *which, int err);
// Says what happened, with a fault where it went wrong, on standard error and to the log of the system alone.
void exit_report_note(const char *what, int err);
// Says how the process ends, and gives the status back.
int exit_report_status(int status);

// Takes a mount away and waits for the end of its process: its status, or 1 where it could not be asked.
int exit_report_wait(const char *mount_point);
#endif
