/* Sizes and places; the kit's compiler comes without this header. */
#ifndef OWN_STDDEF_H
#define OWN_STDDEF_H
typedef __SIZE_TYPE__ size_t;
#define NULL ((void *)0)
#define offsetof(type, member) __builtin_offsetof(type, member)
#endif
