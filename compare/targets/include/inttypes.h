/* The forms of numbers, where int and long have 32 bits. */
#ifndef SMALL_INTTYPES_H
#define SMALL_INTTYPES_H
#include <stdint.h>
#define PRIu32 "u"
#define PRIX32 "X"
#define PRIu64 "llu"
#endif
