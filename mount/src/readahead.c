// Raises the kernel's readahead for the mount, by /sys/class/bdi.
//
// Invariant: it never calls into the mount itself, since its requests are not served yet; a failure is ignored.
#include "readahead.h"
#include "backend.h"
#include <stdio.h>
#include <stdlib.h>
#include <string.h>

static bool is_octal(char digit) { return digit >= '0' && digit <= '7'; }

// Takes back what mountinfo writes for a space, a tab, a line feed and a backslash: one more and three octal digits.
static void read_octal(char *text) {
    char *to = text;
    for (const char *from = text; *from; from++, to++) {
        bool is_written = from[0] == '\\' && is_octal(from[1]) && is_octal(from[2]) && is_octal(from[3]);
        *to = is_written ? (char)((from[1] - '0') * 64 + (from[2] - '0') * 8 + (from[3] - '0')) : *from;
        if (is_written) from += 3;
    }
    *to = 0;
}

static bool is_mount_on(const char *line, const char *folder, char number[32]) {
    char point[4096];
    if (sscanf(line, "%*s %*s %31s %*s %4095s", number, point) != 2) return false;
    read_octal(point);
    return !strcmp(point, folder);
}

// The device of the newest mount on a folder, as `MAJOR:MINOR`, which a stat of it would have to ask this very process
// for.
static bool find_device(const char *folder, char device[32]) {
    char line[8192], number[32];
    FILE *mounts = fopen("/proc/self/mountinfo", "re");
    bool found = false;
    while (mounts && fgets(line, sizeof line, mounts))
        if (is_mount_on(line, folder, number)) {
            memcpy(device, number, sizeof number);
            found = true;
        }
    if (mounts) fclose(mounts);
    return found;
}

void raise_readahead(const char *mount_point) {
    char device[32], file[96];
    if (!find_device(mount_point, device)) return;
    snprintf(file, sizeof file, "/sys/class/bdi/%s/read_ahead_kb", device);
    FILE *control = fopen(file, "we");
    if (!control) return;
    fprintf(control, "%d\n", LARGEST_READ / 1024);
    fclose(control);
}
