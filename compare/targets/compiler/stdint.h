/* The numbers of a width; the kit's compiler comes without this header. */
#ifndef OWN_STDINT_H
#define OWN_STDINT_H
typedef __UINT8_TYPE__ uint8_t;
typedef __UINT16_TYPE__ uint16_t;
typedef __UINT32_TYPE__ uint32_t;
typedef __UINT64_TYPE__ uint64_t;
typedef __UINTPTR_TYPE__ uintptr_t;
#define UINT32_C(n) n##u
#define UINT64_C(n) n##ull
#define SIZE_MAX __SIZE_MAX__
#endif
