#ifndef KZ_BARE_STDDEF_H
#define KZ_BARE_STDDEF_H

typedef __SIZE_TYPE__ size_t;
#define NULL ((void *)0)

#endif
