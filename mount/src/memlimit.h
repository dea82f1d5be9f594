// Counts the memory in use, and limits what the tree may take of it (--size).
//
// The library allocates through heap.c, and the mount through the functions below, which count it. A call that makes
// the tree grow gets no memory beyond the size less a reserve. The volume then fails with ENOMEM and is unchanged, and
// the reply is ENOSPC. Every other call may take more, also from the reserve: a removal needs some memory before it
// frees any.
#ifndef MEMLIMIT_H
#define MEMLIMIT_H
#include "backend.h"

enum { SMALLEST_SIZE = 16 << 20, SHARE_KEPT = 8 };

// As malloc(3) and strdup(3).
void *mem_alloc(size_t count);
void *mem_calloc(size_t many, size_t count);
void *mem_realloc(void *old, size_t count);
void mem_free(void *at);
char *mem_strdup(const char *text);

// In bytes. Where no size is set, all memory of the machine, and what is not available of it.
struct mem_usage {
    uint64_t size, taken, reserve;
};

void memlimit_set(uint64_t size);
struct mem_usage memlimit_usage(void);
// The size that is set; 0: none is.
uint64_t memlimit_size(void);
// Whether much was given back since the last trim, which is asked after each request, by the thread that serves them;
// and that trim: all that malloc does not need goes back to the system.
bool memlimit_has_freed(void);
void memlimit_trim(void);
// What is taken now.
uint64_t memlimit_taken(void);

// What a call that makes the tree grow may take.
struct mem_budget {
    uint64_t most; // of all memory that is counted
    bool was_refused;
};

// Such a call is between these two, and is done again for as long as the second says so: steps of the tree gave memory
// back meanwhile. One that was refused memory fails with ENOSPC.
void memlimit_begin(struct mem_budget *budget);
bool memlimit_retry(struct mem_budget *budget, const struct backend *backend, int *err);
// Between them: what undoes a call that was refused may take what it needs.
void memlimit_suspend(void);
// Makes room in bytes that are no part of the tree, also between them: 0 or ENOMEM.
int memlimit_reserve(struct bytes *bytes, size_t more);
#endif
