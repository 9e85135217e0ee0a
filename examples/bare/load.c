/* A loader: receives files by YMODEM over the serial port into memory, tells the name, length and
   CRC-32 of each, and goes on at the start of the first. The others, such as a device tree or a RAM
   disk, stand behind it, each at a multiple of 64 KiB. */
#include "board.h"
#include "port.h"
#include "store.h"

static struct store store;

__attribute__((noreturn)) void enter(const uint8_t *start, const uint8_t *end);

int main(void) {
    const struct stored *first = &store.files[0];
    board_init();
    do print("loader: send files by YMODEM\r\n"); while (!store_receive(&store, &port));
    store_tell(&store);
    print("loader: the stack was used to ");
    print_number((uint32_t)stack_used());
    print(" bytes; going on at ");
    print_hex((uintptr_t)first->start, 8);
    print("\r\n");
    enter(first->start, first->start + first->length);
}
