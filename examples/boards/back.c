/* Receives files by YMODEM over the serial port into memory, tells the length and CRC-32 of each,
   and sends them back by YMODEM; and again. */
#include "board.h"
#include "port.h"
#include "store.h"

static struct store store;
static uint64_t blocks[STORE_FILES];

static void tell_stack(void) {
    print("the stack was used to ");
    print_number((uint32_t)stack_used());
    print(" bytes; ");
}

int main(void) {
    board_init();
    for (;;) {
        print("send files by YMODEM\r\n");
        if (!store_receive(&store, &port)) continue;
        store_tell(&store);
        tell_stack();
        print("now receive them by YMODEM\r\n");
        ym_source source = { &store, store.count, blocks, store_about, store_fill };
        ym_error error = ym_send(&port, &source);
        print("\r\nsending: ");
        print(ym_text(error));
        print("; ");
        tell_stack();
        print("the end\r\n");
    }
}
