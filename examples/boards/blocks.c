/* Tells how long blocks of 1024 bytes take in the library's calls, in milliseconds. */
#include "block_costs.h"
#include "board.h"

static void tell(const char *what, int (*of)(uint32_t), uint32_t blocks) {
    uint64_t began = milliseconds();
    int is_done = of(blocks);
    uint64_t took = milliseconds() - began;
    print(what);
    print(is_done ? ": " : ", not done: ");
    print_number(blocks);
    print(" blocks, ");
    print_number((uint32_t)took);
    print(" ms\r\n");
}

int main(void) {
    board_init();
    costs_begin();
    tell("receiver, fed in bulk", costs_in_bulk, 5000);
    tell("receiver, fed byte by byte", costs_by_bytes, 500);
    tell("sender", costs_of_sender, 5000);
    print("the end\r\n");
    for (;;) {}
}
