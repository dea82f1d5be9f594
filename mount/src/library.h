// The backend over the static library, and its volume.
#ifndef LIBRARY_H
#define LIBRARY_H
#include "doorvervain.h"

struct doorvervain *library_volume(void *self);
#endif
