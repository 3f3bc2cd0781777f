/* A clock of instructions, on the emulator's boards mps2: under `-icount shift=10` an instruction takes 1024 ns, and the
 * board's timer 0 counts down by 25 MHz, so 128 ticks are 5 instructions. What it tells as nanoseconds are instructions. */
#include <stdint.h>
#include <time.h>

#define TIMER ((volatile uint32_t *)0x40000000) /* control, value, reload */

int clock_gettime(int clock, struct timespec *t)
{
    (void)clock;
    if (TIMER[0] == 0) {
        TIMER[2] = TIMER[1] = 0xFFFFFFFF;
        TIMER[0] = 1;
    }
    t->tv_sec = 0;
    t->tv_nsec = (long)((uint64_t)(0xFFFFFFFF - TIMER[1]) * 5 / 128);
    return 0;
}
