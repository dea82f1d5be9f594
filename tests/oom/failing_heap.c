/* The memory of the static library in tests/oom/library: the three functions that the library leaves to whoever links it. It counts
 * the requests, and refuses the one of a number, or all. It also counts the blocks that stand. All of it is in one array, which can be
 * saved and put back: so each call of a test begins with the same memory.
 *
 * Invariant: a block has its size and a mark before it, and marked bytes behind it; a block without them that is given back ends the
 * program. New bytes and those given back are overwritten, and a block that grows always moves, so that no use of old memory stays
 * unseen.
 */
#include <stddef.h>
#include <stdint.h>
#include <stdlib.h>
#include <string.h>

enum { FRONT = 16, BACK = 16, NEW = 0xa5, OLD = 0xdd, EDGE = 0x5a, KINDS = 48 };

static const uint64_t MARK = 0x6b636f6c62206c6c;
static const size_t MOST = (size_t)1 << 25;

struct tried {
    size_t is_done;
    void *at;
};

/* What a test sets and reads: which request is refused (0 for none, -1 for all), and what was counted; `end` is where the array is
 * unused from, and `given_back` has the place of the first unused block of each power of two, and 0 for none. */
struct failing_heap {
    long wanted, seen, asked, refused, blocks;
    uint64_t end, given_back[KINDS];
};

extern struct failing_heap failing_heap;
struct failing_heap failing_heap = {0, 0, 0, 0, 0, FRONT, {0}};

static _Alignas(16) uint8_t array[(size_t)1 << 26];
static struct failing_heap saved;
static uint8_t *saved_array;

struct tried rattle_alloc(size_t count, size_t alignment);
struct tried rattle_realloc(void *old, size_t kept, size_t count, size_t alignment);
void rattle_dealloc(void *at);
void heap_save(void);
void heap_restore(void);

/* Keeps what stands. */
void heap_save(void)
{
    free(saved_array);
    saved = failing_heap;
    saved_array = malloc(saved.end);
    if (!saved_array)
        abort();
    memcpy(saved_array, array, saved.end);
}

/* Puts back what was kept. */
void heap_restore(void)
{
    failing_heap = saved;
    memcpy(array, saved_array, saved.end);
}

/* The answer without memory: the pointer is not null, though nobody uses it. */
static struct tried none(void)
{
    static char nothing;
    return (struct tried){0, &nothing};
}

/* Counts a request; whether it is refused. */
static int is_refused(size_t size)
{
    failing_heap.seen++;
    failing_heap.asked += (long)size;
    if (failing_heap.wanted != -1 && failing_heap.wanted != failing_heap.seen)
        return 0;
    failing_heap.refused++;
    return 1;
}

/* The power of two that a block of this size takes, with what is before and behind it. */
static unsigned kind_of(size_t size)
{
    unsigned kind = 5;
    while (((size_t)1 << kind) < FRONT + size + BACK)
        kind++;
    return kind;
}

/* Room for a block: one that was given back, or the front of what is unused. */
static uint8_t *room_of(unsigned kind)
{
    uint64_t at = failing_heap.given_back[kind];
    if (at)
        memcpy(&failing_heap.given_back[kind], array + at, sizeof at);
    else if (((uint64_t)1 << kind) > sizeof array - failing_heap.end)
        abort();
    else {
        at = failing_heap.end;
        failing_heap.end += (uint64_t)1 << kind;
    }
    return array + at;
}

/* The size of a block, whose marks are whole. */
static size_t size_of(const uint8_t *block)
{
    uint64_t front[2];
    memcpy(front, block - FRONT, sizeof front);
    if (front[1] != MARK)
        abort();
    for (size_t i = 0; i < BACK; i++)
        if (block[front[0] + i] != EDGE)
            abort();
    return front[0];
}

struct tried rattle_alloc(size_t count, size_t alignment)
{
    size_t size = count ? count : alignment;
    const uint64_t front[2] = {size, MARK};
    uint8_t *made;
    if (is_refused(size) || size > MOST)
        return none();
    made = room_of(kind_of(size));
    memcpy(made, front, sizeof front);
    memset(made + FRONT, NEW, size);
    memset(made + FRONT + size, EDGE, BACK);
    failing_heap.blocks++;
    return (struct tried){1, made + FRONT};
}

void rattle_dealloc(void *at)
{
    uint8_t *block = (uint8_t *)at - FRONT;
    size_t size = size_of(at);
    uint64_t place = (uint64_t)(block - array), *first = &failing_heap.given_back[kind_of(size)];
    failing_heap.blocks--;
    memset(block, OLD, FRONT + size + BACK);
    memcpy(block, first, sizeof *first);
    *first = place;
}

struct tried rattle_realloc(void *old, size_t kept, size_t count, size_t alignment)
{
    struct tried made = rattle_alloc(count, alignment);
    size_t size = size_of(old);
    if (!made.is_done)
        return made;
    if (kept > size || kept > size_of(made.at))
        abort();
    memcpy(made.at, old, kept);
    rattle_dealloc(old);
    return made;
}
