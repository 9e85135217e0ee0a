/* What a board gives: a serial port, the time, a way to tell something, and room for files. */
#ifndef BOARD_H
#define BOARD_H

#include <stddef.h>
#include <stdint.h>

/* Before all else. */
void board_init(void);

/* The serial port: 115,200 baud, 8 bits, no parity. */
void uart_write(const uint8_t *bytes, size_t len);

/* Takes bytes that have come, at most so many, and waits for none. Tells how many. */
size_t uart_read(uint8_t *bytes, size_t most);

/* Milliseconds since the board began. */
uint64_t milliseconds(void);

/* How many bytes of the stack were used so far: it was painted at first. */
size_t stack_used(void);

/* The memory for files. */
extern uint8_t room[], room_end[];

/* Text, a number in decimal, and one in so many hexadecimal digits: print.c, for every board. */
void print(const char *text);
void print_number(uint32_t number);
void print_hex(uint64_t number, int digits);

#endif
