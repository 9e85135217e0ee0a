/* The receiver that docs/library.md shows, on standard input and output: what it takes as given, and
   the listing itself. It stores files in the folder that it runs in. The first one is begun so many
   seconds late, as where flash is erased for it. usage: shown [SECONDS] */
#include "ymodem.h"

#include <poll.h>
#include <stdio.h>
#include <stdlib.h>
#include <string.h>
#include <unistd.h>

static FILE *file;
static unsigned late;

static size_t uart_read(uint8_t *bytes, size_t most, int milliseconds) {
    struct pollfd line = { .fd = 0, .events = POLLIN };
    if (poll(&line, 1, milliseconds) <= 0) return 0;
    ssize_t came = read(0, bytes, most);
    return came > 0 ? (size_t)came : 0;
}

static void uart_write(const uint8_t *bytes, size_t len) {
    if (write(1, bytes, len) != (ssize_t)len) fprintf(stderr, "shown: it writes less\n");
}

static int act(uint32_t kind, const uint8_t *bytes, uint64_t count, uint64_t length) {
    char name[256] = { 0 };
    (void)length;
    switch (kind) {
    case YM_BEGIN:
        sleep(late);
        late = 0;
        memcpy(name, bytes, (size_t)count);
        return (file = fopen(name, "wb")) != NULL;
    case YM_ADD: return fwrite(bytes, 1, (size_t)count, file) == count;
    case YM_COMMIT: return fclose(file) == 0;
    default: return 1;
    }
}

int main(int count, char **words) {
    if (count > 1) late = (unsigned)atoi(words[1]);
#include "shown.inc"
    return r.stand.state == YM_FINISHED ? 0 : 1;
}
