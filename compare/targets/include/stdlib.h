/* What driver and bench read their words, have memory and end with, where there is no C library. */
#ifndef SMALL_STDLIB_H
#define SMALL_STDLIB_H
#include <stddef.h>
_Noreturn void exit(int status);
unsigned long long strtoull(const char *digits, char **end, int base);
long strtol(const char *digits, char **end, int base);
unsigned long strtoul(const char *digits, char **end, int base);
long long llabs(long long n);
void *aligned_alloc(size_t alignment, size_t n);
void free(void *memory);
#endif
