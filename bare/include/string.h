/* The part of C's string.h that compilers call too; bare/runtime.c has it. */
#ifndef KZ_BARE_STRING_H
#define KZ_BARE_STRING_H

#include <stddef.h>

void *memcpy(void *to, const void *from, size_t n);
void *memmove(void *to, const void *from, size_t n);
void *memset(void *to, int value, size_t n);
int memcmp(const void *left, const void *right, size_t n);

#endif
