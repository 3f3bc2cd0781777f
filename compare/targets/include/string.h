/* What the two sides copy and compare with, where there is no C library. */
#ifndef SMALL_STRING_H
#define SMALL_STRING_H
#include <stddef.h>
void *memcpy(void *to, const void *from, size_t n);
void *memmove(void *to, const void *from, size_t n);
void *memset(void *to, int byte, size_t n);
int memcmp(const void *a, const void *b, size_t n);
int strcmp(const char *a, const char *b);
size_t strcspn(const char *text, const char *ends);
#endif
