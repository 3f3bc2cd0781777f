/* The board: ARM's MPS2 with a Cortex-M4 (image AN386), as qemu-system-arm has it. Its first UART is the serial line. */
#include "board.h"

#include <stdint.h>

extern uint32_t data_from[], data_begin[], data_end[], bss_begin[], bss_end[], stack_end[];

int main(void);

/* The registers of the UART: data, state (1 sending, 2 something came), control (1 send, 2 receive), baud rate. */
#define UART ((volatile uint32_t *)0x40004000)
enum { DATA = 0, STATE = 1, CONTROL = 2, BAUD = 4, SENDING = 1, CAME = 2, END_OF_TEXT = 4 };

int board_get(void)
{
    while ((UART[STATE] & CAME) == 0)
        ;
    uint32_t c = UART[DATA];
    return c == END_OF_TEXT ? -1 : (int)c;
}

void board_put(char c)
{
    while ((UART[STATE] & SENDING) != 0)
        ;
    UART[DATA] = (uint8_t)c;
}

/* Ends the emulator by semihosting: 0 where main came to its end. A board on a desk would wait here. */
static void leave(uint32_t status)
{
    uint32_t end[2] = {0x20026, status};
    register uint32_t what __asm__("r0") = 0x20;
    register uint32_t *with __asm__("r1") = end;
    for (;;)
        __asm__ volatile("bkpt 0xAB" : "+r"(what) : "r"(with) : "memory");
}

/* The reset: memory as C wants it, the serial line, and the main loop. */
static void reset(void)
{
    for (uint32_t *to = data_begin, *from = data_from; to < data_end;)
        *to++ = *from++;
    for (uint32_t *to = bss_begin; to < bss_end;)
        *to++ = 0;
    UART[BAUD] = 16;
    UART[CONTROL] = 3;
    leave((uint32_t)main());
}

/* A fault of the machine. */
static void fault(void)
{
    leave(3);
}

typedef void handler(void);

/* The end of the stack, the reset, and the faults. */
__attribute__((section(".vectors"), used)) static const struct {
    uint32_t *stack;
    handler *handlers[15];
} vectors = {stack_end, {reset, fault, fault, fault, fault, fault}};
