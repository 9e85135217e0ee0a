/* A plain stop and wait over standard input and output: 1029 bytes there, and one byte back for
 * them, as often as it is told. It is what a transfer over terminals is measured against.
 *
 * usage: stopwait send|receive BLOCKS */

#include <stdlib.h>
#include <string.h>
#include <unistd.h>

enum { FRAME = 1029, ACK = 0x06 };

static char frame[FRAME];

static void put(const char *from, size_t count) {
    while (count) {
        ssize_t done = write(1, from, count);
        if (done <= 0)
            exit(3);
        from += done;
        count -= (size_t)done;
    }
}

static void take(size_t count) {
    while (count) {
        ssize_t done = read(0, frame, count);
        if (done <= 0)
            exit(3);
        count -= (size_t)done;
    }
}

int main(int count, char **words) {
    const char ack = ACK;
    if (count != 3)
        return 2;
    for (long left = atol(words[2]); left; left--) {
        if (strcmp(words[1], "send") == 0) {
            put(frame, FRAME);
            take(1);
        } else {
            take(FRAME);
            put(&ack, 1);
        }
    }
    return 0;
}
