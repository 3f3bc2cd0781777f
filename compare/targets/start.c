/* The start on a bare machine, Cortex-M or RISC-V, under an emulator: memory that is to be 0 is cleared, the words come by
 * semihosting, and so do printing and the end. */
#include "small.h"

#include <stdint.h>

extern uint32_t bss_begin[], bss_end[], stack_end[];

/* One call of semihosting. */
static uintptr_t ask(uintptr_t what, void *with)
{
#ifdef __arm__
    register uintptr_t r0 __asm__("r0") = what;
    register void *r1 __asm__("r1") = with;
    __asm__ volatile("bkpt 0xAB" : "+r"(r0) : "r"(r1) : "memory");
    return r0;
#else
    register uintptr_t a0 __asm__("a0") = what;
    register void *a1 __asm__("a1") = with;
    __asm__ volatile(".balign 16\n.option push\n.option norvc\nslli x0, x0, 0x1f\nebreak\nsrai x0, x0, 7\n.option pop"
                     : "+r"(a0) : "r"(a1) : "memory");
    return a0;
#endif
}

enum { SYS_OPEN = 0x01, SYS_WRITE = 0x05, SYS_GET_CMDLINE = 0x15, SYS_EXIT_EXTENDED = 0x20, APPLICATION_EXIT = 0x20026 };

void put_bytes(const char *bytes, size_t n)
{
    static uintptr_t handle;
    if (handle == 0) {
        uintptr_t open[3] = {(uintptr_t)":tt", 4, 3};
        handle = ask(SYS_OPEN, open);
    }
    uintptr_t write[3] = {handle, (uintptr_t)bytes, n};
    ask(SYS_WRITE, write);
}

void leave(int status)
{
    uintptr_t end[2] = {APPLICATION_EXIT, (uintptr_t)status};
    for (;;)
        ask(SYS_EXIT_EXTENDED, end);
}

/* A fault of the machine ends the run with a status of its own. */
__attribute__((aligned(4))) static void fault(void)
{
    flush();
    put_bytes("FAULT of the machine\n", 21);
    leave(3);
}

/* Runs the program over the words of the emulator. */
__attribute__((used)) static void begin(void)
{
    static char words[128];
    uintptr_t line[2] = {(uintptr_t)words, sizeof words};
    for (uint32_t *p = bss_begin; p < bss_end; p++)
        *p = 0;
#ifdef __ARM_ARCH_6M__
    *(volatile uint32_t *)0xE000ED14 |= 1u << 3; /* CCR.UNALIGN_TRP: an unaligned access is a fault, as on a Cortex-M0 */
#endif
#ifdef __riscv
    __asm__ volatile(".option push\n.option arch, +zicsr\ncsrw mtvec, %0\n.option pop" : : "r"(fault));
#endif
    ask(SYS_GET_CMDLINE, line);
    run_over(words);
}

#ifdef __arm__
/* The stack, the start, and the faults. */
__attribute__((section(".start"), used)) static const uintptr_t vectors[16] = {
    (uintptr_t)stack_end, (uintptr_t)begin, (uintptr_t)fault, (uintptr_t)fault, (uintptr_t)fault, (uintptr_t)fault,
    (uintptr_t)fault,
};
#else
__attribute__((section(".start"), naked, used)) void first(void)
{
    __asm__ volatile("la sp, stack_end\nj begin");
}
#endif
