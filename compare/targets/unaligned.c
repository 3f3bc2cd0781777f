/* Reads a word from an address that is not a multiple of 4, to show that the machine traps it. */
#include <stdint.h>
#include <stdio.h>

int program(int argc, char **argv)
{
    static uint32_t words[2];
    uintptr_t at = (uintptr_t)words + 1;
    (void)argc, (void)argv;
    __asm__ volatile("ldr %0, [%0]" : "+l"(at));
    printf("an unaligned access is NOT trapped\n");
    return 0;
}
