/* What the machine that runs or debugs the program does for it: text is shown, files are read. bare/semihosting.c asks a debugger or an emulator;
   wasm/host.mjs is asked from WebAssembly. */
#ifndef KZ_BARE_HOST_H
#define KZ_BARE_HOST_H

#include <stddef.h>

/* The file's number, negative if it can't be read. */
int host_open(const char *name);

/* How many bytes were read; 0 at the end. */
size_t host_read(int file, void *to, size_t n);

void host_write(const char *text, size_t n);

/* Ends the program; 0 is success. */
void host_exit(int status);

#endif
