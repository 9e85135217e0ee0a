/* The serial port of a board as the line of ymodem_io.h. */
#ifndef PORT_H
#define PORT_H

#include "board.h"
#include "ymodem_io.h"

/* Milliseconds without a byte behind which a piece has ended. */
enum { PIECE_ENDS = 2 };

/* Waits for a byte, and then takes all that comes until the piece is full, or nothing comes. So what
   is heard of it is done while the line is quiet, or a piece is full: a port that holds but a byte
   or two may lose one then, and needs an interrupt that fills a queue. Bytes that are there are
   taken before the time counts as over. */
static int port_read(void *user, uint8_t *bytes, size_t len, uint32_t wait) {
    uint64_t since = milliseconds();
    size_t came = 0, more;
    (void)user;
    for (;;) {
        int is_over = milliseconds() - since > (came ? PIECE_ENDS : wait);
        more = uart_read(bytes + came, len - came);
        came += more;
        if (came == len || (is_over && !more)) return (int)came;
        if (more) since = milliseconds();
    }
}

static int port_write(void *user, const uint8_t *bytes, size_t len) {
    (void)user;
    uart_write(bytes, len);
    return 0;
}

static uint64_t port_clock(void *user) {
    (void)user;
    return milliseconds();
}

static const ym_io port = { NULL, port_read, port_write, port_clock };

#endif
