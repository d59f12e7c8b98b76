/* The part of C's stdio.h that the programs in examples/ use; bare/stdio.c has it, over bare/host.h. */
#ifndef KZ_BARE_STDIO_H
#define KZ_BARE_STDIO_H

#include <stddef.h>

typedef struct FILE FILE;

/* Knows %u, %x, %lu, %lx, %zu, %zx, %d, %s and %%, without widths; at another conversion the program ends. Gives 0. */
int printf(const char *format, ...) __attribute__((__format__(__printf__, 1, 2)));

int puts(const char *line);

/* For reading alone. At most two files, which stay open. */
FILE *fopen(const char *name, const char *mode);

size_t fread(void *to, size_t size, size_t count, FILE *from);

#endif
