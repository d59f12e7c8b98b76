/* One fixed arena of 65,536 bytes for each of newlib's allocators, as in an embedded program. */
#include "arena.h"

enum { ARENA = 65536 };

typedef struct {
    _Alignas(4096) char bytes[ARENA];
    ptrdiff_t used;
} Arena;

static Arena full, nano;

static void *grow(Arena *arena, ptrdiff_t by)
{
    ptrdiff_t was = arena->used;
    if (by > ARENA - was || by < -was)
        return (void *)-1;
    arena->used = was + by;
    return arena->bytes + was;
}

void *full_sbrk(ptrdiff_t by)
{
    return grow(&full, by);
}

void *nano_sbrk(ptrdiff_t by)
{
    return grow(&nano, by);
}
