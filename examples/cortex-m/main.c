/* The demonstration, and then the stored vectors: two programs in one. */
#define main demo
#include "../demo.c"
#undef main

#define main vectors
#include "../vectors.c"
#undef main

int main(void) { return demo() != 0 || vectors() != 0; }
