// Makes allocations fail, for programs that are linked with -Wl,--wrap=malloc
// -Wl,--wrap=realloc: the library asks the heap for memory by these two.
// Included by the one .c file of a program.
#ifndef REFUSED_MEMORY_H
#define REFUSED_MEMORY_H

#include <stddef.h>

enum { ALL_REQUESTS = -1 };

// Which allocation from now on fails, or ALL_REQUESTS; none if it is 0.
static long refused_request;

void *__real_malloc(size_t size);
void *__real_realloc(void *old, size_t size);

static int refuses(void) {
  return refused_request == ALL_REQUESTS ||
         (refused_request > 0 && --refused_request == 0);
}

void *__wrap_malloc(size_t size) {
  return refuses() ? NULL : __real_malloc(size);
}

void *__wrap_realloc(void *old, size_t size) {
  return refuses() ? NULL : __real_realloc(old, size);
}

#endif
