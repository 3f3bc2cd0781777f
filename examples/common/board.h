/* What the example needs of a board: a serial line both ways, and an end. */
#ifndef BOARD_H
#define BOARD_H

/* The next character of the serial line, or -1 where nothing more will come. */
int board_get(void);

/* Sends a character on the serial line. */
void board_put(char c);

#endif
