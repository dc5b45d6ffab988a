/* What the programs here use of stddef.h, for the kit's compiler, which brings no headers. */
#ifndef LIBC_STDDEF_H
#define LIBC_STDDEF_H
typedef __SIZE_TYPE__ size_t;
#define NULL ((void *)0)
#define offsetof(type, field) __builtin_offsetof(type, field)
#endif
