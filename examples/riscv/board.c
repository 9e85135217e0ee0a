/* QEMU's board `virt`, RISC-V of 32 bits: its serial port is a 16550, and its clock has 10 MHz. */
#include "board.h"

#define UART 0x10000000u
#define TIME 0x0200BFF8u

enum { DATA = 0, INTERRUPTS = 1, DIVIDER = 0, DIVIDER_HIGH = 1, QUEUES = 2, FORM = 3, STATE = 5 };
enum { CAME = 1, ROOM = 0x20, EIGHT_BITS = 3, SETS_DIVIDER = 0x80 };
enum { PORT_CLOCK = 3686400, TICKS_A_MILLISECOND = 10000 };

#define UNUSED_STACK 0xA5A5A5A5u

extern uint32_t stack_low[], stack_end[];

static volatile uint8_t *uart(uint32_t offset) {
    return (volatile uint8_t *)(uintptr_t)(UART + offset);
}

static uint32_t clock_half(uint32_t offset) {
    return *(volatile uint32_t *)(uintptr_t)(TIME + offset);
}

void board_init(void) {
    *uart(INTERRUPTS) = 0;
    *uart(FORM) = SETS_DIVIDER | EIGHT_BITS;
    *uart(DIVIDER) = PORT_CLOCK / 16 / 115200;
    *uart(DIVIDER_HIGH) = 0;
    *uart(FORM) = EIGHT_BITS;
    *uart(QUEUES) = 1;
}

void uart_write(const uint8_t *bytes, size_t len) {
    for (size_t i = 0; i < len; i++) {
        while (!(*uart(STATE) & ROOM)) {}
        *uart(DATA) = bytes[i];
    }
}

size_t uart_read(uint8_t *bytes, size_t most) {
    size_t came = 0;
    while (came < most && *uart(STATE) & CAME) bytes[came++] = *uart(DATA);
    return came;
}

/* It is read in two halves, between which it may go on. */
uint64_t milliseconds(void) {
    uint32_t high, low;
    do {
        high = clock_half(4);
        low = clock_half(0);
    } while (high != clock_half(4));
    return ((uint64_t)high << 32 | low) / TICKS_A_MILLISECOND;
}

size_t stack_used(void) {
    uint32_t *word = stack_low;
    while (word < stack_end && *word == UNUSED_STACK) word++;
    return (size_t)(stack_end - word) * sizeof *word;
}
