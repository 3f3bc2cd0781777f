/* The start in a browser or in node: printing and the end are imports, seed and count of calls are handed in. */
#include "small.h"

#include <stdio.h>

void host_put(const char *bytes, size_t n);
_Noreturn void host_leave(int status);

void put_bytes(const char *bytes, size_t n)
{
    host_put(bytes, n);
}

void leave(int status)
{
    host_leave(status);
}

/* Runs the program over a seed and a count. */
void run(unsigned seed, unsigned calls)
{
    static char words[40];
    snprintf(words, sizeof words, "drive %u %u", seed, calls);
    run_over(words);
}
