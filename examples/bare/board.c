/* The serial port (PL011) and the clock of QEMU's board `virt`, 64-bit ARM, and the four functions
   of a C library that the library for C wants. */
#include "board.h"

enum { DR = 0x00, FR = 0x18, IBRD = 0x24, FBRD = 0x28, LCR_H = 0x2c, CR = 0x30, IMSC = 0x38 };
enum { NOTHING_CAME = 1 << 4, NO_ROOM = 1 << 5 };

static volatile uint32_t *uart(int offset) {
    return (volatile uint32_t *)(uintptr_t)(0x09000000 + offset);
}

/* The port's clock has 24 MHz, and 24,000,000 / (16 * 115,200) is 13 and 1/64. */
void board_init(void) {
    *uart(CR) = 0;
    *uart(IMSC) = 0;
    *uart(IBRD) = 13;
    *uart(FBRD) = 1;
    *uart(LCR_H) = 3 << 5 | 1 << 4; /* 8 bits, with the queues on */
    *uart(CR) = 1 << 9 | 1 << 8 | 1;
}

void uart_write(const uint8_t *bytes, size_t len) {
    for (size_t i = 0; i < len; i++) {
        while (*uart(FR) & NO_ROOM) {}
        *uart(DR) = bytes[i];
    }
}

static uint64_t ticks(void) {
    uint64_t now;
    __asm__ volatile("isb; mrs %0, cntvct_el0" : "=r"(now));
    return now;
}

static uint64_t ticks_a_second(void) {
    uint64_t many;
    __asm__("mrs %0, cntfrq_el0" : "=r"(many));
    return many;
}

/* Errors that the port tells beside a byte are the check's to find. */
size_t uart_read(uint8_t *bytes, size_t most) {
    size_t came = 0;
    while (came < most && !(*uart(FR) & NOTHING_CAME)) bytes[came++] = (uint8_t)*uart(DR);
    return came;
}

uint64_t milliseconds(void) {
    return ticks() / (ticks_a_second() / 1000);
}

size_t stack_used(void) {
    extern uint64_t stack[], stack_end[];
    uint64_t *at = stack;
    while (at < stack_end && *at == 0xa5a5a5a5a5a5a5a5) at++;
    return (size_t)((uint8_t *)stack_end - (uint8_t *)at);
}

/* Where an exception was taken; it came to nobody. */
void trap(uint64_t syndrome, uint64_t at, uint64_t address);

void trap(uint64_t syndrome, uint64_t at, uint64_t address) {
    print("trap: ESR ");
    print_hex(syndrome, 8);
    print(", ELR ");
    print_hex(at, 16);
    print(", FAR ");
    print_hex(address, 16);
    print("\r\n");
    for (;;) __asm__ volatile("wfe");
}

/* A compiler may call these where no source does. It is told (-fno-builtin) not to make calls of
   them out of their own loops. */
void *memcpy(void *to, const void *from, size_t len);
void *memmove(void *to, const void *from, size_t len);
void *memset(void *to, int value, size_t len);
int memcmp(const void *one, const void *other, size_t len);

void *memcpy(void *to, const void *from, size_t len) {
    uint8_t *put = to;
    const uint8_t *take = from;
    while (len--) *put++ = *take++;
    return to;
}

void *memmove(void *to, const void *from, size_t len) {
    uint8_t *put = to;
    const uint8_t *take = from;
    if (put <= take) return memcpy(to, from, len);
    while (len--) put[len] = take[len];
    return to;
}

void *memset(void *to, int value, size_t len) {
    uint8_t *put = to;
    while (len--) *put++ = (uint8_t)value;
    return to;
}

int memcmp(const void *one, const void *other, size_t len) {
    const uint8_t *a = one, *b = other;
    for (; len; len--, a++, b++) {
        if (*a != *b) return *a - *b;
    }
    return 0;
}
