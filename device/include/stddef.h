/* The part of the standard header that the programs here use: the kit's compiler comes without it. */
#ifndef DEVICE_STDDEF_H
#define DEVICE_STDDEF_H

typedef __SIZE_TYPE__ size_t;
typedef __PTRDIFF_TYPE__ ptrdiff_t;
#define NULL ((void *)0)
#define offsetof(type, member) __builtin_offsetof(type, member)

#endif
