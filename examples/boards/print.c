/* What a program tells over the serial port of its board. */
#include "board.h"

void print(const char *text) {
    for (; *text; text++) uart_write((const uint8_t *)text, 1);
}

void print_number(uint32_t number) {
    char digits[11];
    char *at = digits + sizeof digits - 1;
    *at = 0;
    do {
        *--at = (char)('0' + number % 10);
        number /= 10;
    } while (number);
    print(at);
}

void print_hex(uint64_t number, int digits) {
    while (digits--) {
        char digit[2] = { "0123456789abcdef"[number >> 4 * digits & 15], 0 };
        print(digit);
    }
}
