/* QEMU's board mps2-an385: a Cortex-M3 at 25 MHz, with a CMSDK UART and a CMSDK timer. */
#include "board.h"

#define REGISTER(address) (*(volatile uint32_t *)(address))

#define UART 0x40004000u
#define TIMER 0x40000000u

enum { CLOCK = 25000000 };
enum { DATA = 0, STATE = 4, CONTROL = 8, DIVIDER = 16, FULL_OUT = 1, FULL_IN = 2 };
enum { RUNS = 0, VALUE = 4, RELOAD = 8 };

#define UNUSED_STACK 0xA5A5A5A5u

extern uint32_t bss[], bss_end[], stack_low[], stack_end[];
/* The same place, as the first vector has it. */
void stack_top(void);
int main(void);
void reset(void);

/* What the timer told last. */
static uint32_t last;

static void stop(void) {
    for (;;) {}
}

void board_init(void) {
    REGISTER(UART + DIVIDER) = CLOCK / 115200;
    REGISTER(UART + CONTROL) = 3;
    /* Drops what stands there. QEMU looks for bytes anew at this, and not when it is turned on. */
    (void)REGISTER(UART + DATA);
    REGISTER(TIMER + RELOAD) = 0xFFFFFFFFu;
    REGISTER(TIMER + VALUE) = 0xFFFFFFFFu;
    REGISTER(TIMER + RUNS) = 1;
    last = 0xFFFFFFFFu;
}

void uart_write(const uint8_t *bytes, size_t len) {
    for (size_t i = 0; i < len; i++) {
        while (REGISTER(UART + STATE) & FULL_OUT) {}
        REGISTER(UART + DATA) = bytes[i];
    }
}

size_t uart_read(uint8_t *bytes, size_t most) {
    size_t came = 0;
    while (came < most && REGISTER(UART + STATE) & FULL_IN) {
        bytes[came++] = (uint8_t)REGISTER(UART + DATA);
    }
    return came;
}

/* The timer counts down, and begins again after 171 seconds: it is looked at more often. Nothing
   here takes an interrupt. */
uint64_t milliseconds(void) {
    static uint64_t passed;
    static uint32_t rest;
    uint32_t value = REGISTER(TIMER + VALUE);
    rest += last - value;
    last = value;
    passed += rest / (CLOCK / 1000);
    rest %= CLOCK / 1000;
    return passed;
}

size_t stack_used(void) {
    uint32_t *word = stack_low;
    while (word < stack_end && *word == UNUSED_STACK) word++;
    return (size_t)(stack_end - word) * sizeof *word;
}

/* All below this frame is free yet. */
void reset(void) {
    uint32_t here;
    for (uint32_t *word = bss; word < bss_end; word++) *word = 0;
    uintptr_t used = (uintptr_t)&here - 64;
    for (uint32_t *word = stack_low; (uintptr_t)word < used; word++) *word = UNUSED_STACK;
    main();
    stop();
}

typedef void (*vector)(void);
extern const vector vectors[16];
__attribute__((section(".vectors"), used)) const vector vectors[16] = {
    stack_top, reset, stop, stop, stop, stop, stop, 0, 0, 0, 0, stop, stop, 0, stop, stop
};
