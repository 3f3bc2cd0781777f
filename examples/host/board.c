/* A program on Linux as the board: its standard input and output are the serial line. */
#include "board.h"

#include <stdio.h>

int board_get(void)
{
    int c = getchar();
    return c == EOF ? -1 : c;
}

void board_put(char c)
{
    putchar(c);
}
