/* A receiver alone: receives files by YMODEM over the serial port, keeps none, and tells how many
   there were, and the CRC-32 of their names and bytes, one behind the other; and again. */
#include "port.h"
#include "sum.h"

static int begin(void *user, const ym_file *file) {
    struct sum *sum = user;
    sum->crc = crc32_add(sum->crc, file->name, file->name_len);
    return 1;
}

static int add(void *user, const uint8_t *bytes, size_t len) {
    struct sum *sum = user;
    sum->crc = crc32_add(sum->crc, bytes, len);
    return 1;
}

static int commit(void *user) {
    ((struct sum *)user)->files++;
    return 1;
}

int main(void) {
    board_init();
    for (;;) {
        struct sum sum = { 0, ~0u };
        ym_sink sink = { &sum, begin, add, commit };
        print("send files by YMODEM\r\n");
        ym_error error = ym_receive(&port, &sink);
        sum_tell(&sum, ym_text(error));
    }
}
