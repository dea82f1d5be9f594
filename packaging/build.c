// Says what a library or program was built from. The Makefiles compile this anew for each commit, with the line of packaging/stamp.
#include "../include/doorvervain.h"

// The words before the line are what the build of the crate for Rust looks for in the archive.
static const char before[] = "doorvervain build: ";
static const char build[] = "doorvervain build: " DOORVERVAIN_BUILD;

const char *doorvervain_build(void) { return build + sizeof before - 1; }
