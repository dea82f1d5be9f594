// The processes of --send and --receive, which ask a mount for a delta, or give it one.
#ifndef DELTA_CLIENT_H
#define DELTA_CLIENT_H

// Writes the difference from a snapshot to another one, or to the live tree where `to` is null, to standard output. The
// status.
int send_delta(const char *mount_point, const char *from, const char *to);
// Makes of the live tree what the difference on standard input makes of it. The status.
int receive_delta(const char *mount_point);
#endif
