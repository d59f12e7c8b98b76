/* The exact-width types, as the compiler defines them for its target. */
#ifndef KZ_BARE_STDINT_H
#define KZ_BARE_STDINT_H

typedef __INT32_TYPE__ int32_t;
typedef __UINT8_TYPE__ uint8_t;
typedef __UINT32_TYPE__ uint32_t;
typedef __UINT64_TYPE__ uint64_t;
typedef __UINTPTR_TYPE__ uintptr_t;

#endif
