/* What the driver prints with, where there is no C library. */
#ifndef SMALL_STDIO_H
#define SMALL_STDIO_H
#include <stddef.h>
typedef struct small_file FILE;
#define stderr ((FILE *)0)
#define stdin ((FILE *)0)
int printf(const char *form, ...);
int fprintf(FILE *file, const char *form, ...);
int snprintf(char *to, size_t size, const char *form, ...);
int sprintf(char *to, const char *form, ...);
int putchar(int c);
int puts(const char *text);
char *fgets(char *to, int size, FILE *file);
#endif
