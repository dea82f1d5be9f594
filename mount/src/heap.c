// The memory of the library: the three functions that it leaves to whoever links it, over memory that is counted.
//
// Invariant: as the library's contracts say, a block is aligned to 16 bytes, and after a failure the old block is as it
// was. The pointer is not null then either, though nobody uses it.
#include "memlimit.h"

struct tried {
    size_t is_done;
    void *at;
};

struct tried rattle_alloc(size_t count, size_t alignment);
struct tried rattle_realloc(void *old, size_t kept, size_t count, size_t alignment);
void rattle_dealloc(void *at);

static struct tried tried(void *at) {
    static char nothing;
    return at ? (struct tried){1, at} : (struct tried){0, &nothing};
}

// No bytes are a block of their own too.
struct tried rattle_alloc(size_t count, size_t alignment) {
    return tried(mem_alloc(count ? count : alignment));
}

struct tried rattle_realloc(void *old, size_t kept, size_t count, size_t alignment) {
    (void)kept;
    return tried(mem_realloc(old, count ? count : alignment));
}

void rattle_dealloc(void *at) { mem_free(at); }
