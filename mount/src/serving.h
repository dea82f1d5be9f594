// A mount from start to end.
#ifndef SERVING_H
#define SERVING_H
#include "options.h"

// Opens the volume, mounts it and serves the kernel until it is taken away; the image is kept then. `stands` is called
// once it is mounted. The status of the process.
int serve_mount(const struct options *options, void (*stands)(void));
#endif
