/* The sbrk of newlib's allocators: (void *)-1 at the arena's end. */
#include <stddef.h>

void *full_sbrk(ptrdiff_t by);
void *nano_sbrk(ptrdiff_t by);
