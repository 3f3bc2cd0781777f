/* What a machine without an operating system brings: a way to print, and an end. */
#ifndef SMALL_H
#define SMALL_H
#include <stddef.h>

/* The program, under the name that it is compiled with. */
int program(int argc, char **argv);

void put_bytes(const char *bytes, size_t n);
_Noreturn void leave(int status);

/* Prints what is kept. */
void flush(void);

/* Splits words at blanks and runs the program over them. */
_Noreturn void run_over(char *words);
#endif
