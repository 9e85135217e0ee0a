/* What a receiver that keeps no file has of a batch, and how it tells it. */
#ifndef SUM_H
#define SUM_H

#include "board.h"
#include "crc32.h"

/* How many files came, and the CRC-32 of their names and bytes so far: it begins with ~0. */
struct sum {
    uint32_t files, crc;
};

/* Tells how the batch ended, what came, and how much of the stack was used. */
static void sum_tell(const struct sum *sum, const char *how) {
    print("\r\n");
    print(how);
    print(": files ");
    print_number(sum->files);
    print(", CRC-32 ");
    print_hex(~sum->crc, 8);
    print("; the stack was used to ");
    print_number((uint32_t)stack_used());
    print(" bytes\r\n");
}

#endif
