/* Sends a file over a loopback connection by stop and wait, as little as that takes: blocks of 1024 bytes with a head of 3 and a check of 2,
 * each of which is answered by one byte. It is what the program is measured against: the same system calls per block, and nothing else.
 * The check goes byte by byte over a table of 256 words, or by slicing by eight, or there is none, which is the floor.
 *
 * usage: pingpong bytes|slices|none FROM TO      prints the seconds from the first block to the last answer */

#include <fcntl.h>
#include <netinet/in.h>
#include <netinet/tcp.h>
#include <stdint.h>
#include <stdio.h>
#include <stdlib.h>
#include <string.h>
#include <sys/socket.h>
#include <sys/wait.h>
#include <time.h>
#include <unistd.h>

enum { HEAD = 3, BODY = 1024, FRAME = HEAD + BODY + 2, ACK = 0x06, EOT = 0x04, STX = 0x02 };

typedef uint16_t check_of(const uint8_t *body);

/* word i of table k is the check of the byte i and k zero bytes behind it */
static uint16_t tables[8][256];

static void fill_tables(void) {
    for (int byte = 0; byte < 256; byte++) {
        uint16_t word = (uint16_t)(byte << 8);
        for (int bit = 0; bit < 8; bit++)
            word = (uint16_t)(word & 0x8000 ? word << 1 ^ 0x1021 : word << 1);
        tables[0][byte] = word;
    }
    for (int k = 1; k < 8; k++)
        for (int byte = 0; byte < 256; byte++) {
            uint16_t word = tables[k - 1][byte];
            tables[k][byte] = (uint16_t)(word << 8 ^ tables[0][word >> 8]);
        }
}

static uint16_t by_bytes(const uint8_t *body) {
    uint16_t value = 0;
    for (int at = 0; at < BODY; at++)
        value = (uint16_t)(value << 8 ^ tables[0][value >> 8 ^ body[at]]);
    return value;
}

static uint16_t by_slices(const uint8_t *body) {
    uint16_t value = 0;
    for (int at = 0; at < BODY; at += 8) {
        const uint8_t *b = body + at;
        value = tables[7][b[0] ^ value >> 8] ^ tables[6][b[1] ^ (value & 255)] ^ tables[5][b[2]] ^ tables[4][b[3]] ^ tables[3][b[4]] ^
                tables[2][b[5]] ^ tables[1][b[6]] ^ tables[0][b[7]];
    }
    return value;
}

static uint16_t no_check(const uint8_t *body) {
    (void)body;
    return 0;
}

static void must(int holds, const char *what) {
    if (!holds) {
        perror(what);
        exit(1);
    }
}

static void no_delay(int end) {
    int one = 1;
    setsockopt(end, IPPROTO_TCP, TCP_NODELAY, &one, sizeof one);
}

static void receive(int listener, const char *to, check_of *check) {
    int end = accept(listener, NULL, NULL);
    int file = open(to, O_WRONLY | O_CREAT | O_TRUNC, 0644);
    uint8_t frame[FRAME], number = 0, reply = ACK;
    must(end >= 0 && file >= 0, to);
    no_delay(end);
    for (;;) {
        size_t have = 0;
        do {
            ssize_t got = read(end, frame + have, FRAME - have);
            must(got > 0, "read");
            have += (size_t)got;
        } while (frame[0] != EOT && have < FRAME);
        if (frame[0] != EOT) {
            uint16_t value = check(frame + HEAD);
            number++;
            must(frame[0] == STX && frame[1] == number && frame[2] == 255 - number, "head");
            must(frame[FRAME - 2] == value >> 8 && frame[FRAME - 1] == (value & 255), "check");
            must(write(file, frame + HEAD, BODY) == BODY, to);
        }
        must(write(end, &reply, 1) == 1, "reply");
        if (frame[0] == EOT)
            exit(0);
    }
}

static void answered(int end) {
    uint8_t reply;
    must(read(end, &reply, 1) == 1 && reply == ACK, "answer");
}

static check_of *check_named(const char *name) {
    if (strcmp(name, "bytes") == 0)
        return by_bytes;
    if (strcmp(name, "slices") == 0)
        return by_slices;
    must(strcmp(name, "none") == 0, "usage: pingpong bytes|slices|none FROM TO");
    return no_check;
}

static double now(void) {
    struct timespec time;
    clock_gettime(CLOCK_MONOTONIC, &time);
    return (double)time.tv_sec + 1e-9 * (double)time.tv_nsec;
}

static void transmit(const struct sockaddr_in *address, const char *from, check_of *check) {
    int end = socket(AF_INET, SOCK_STREAM, 0);
    int file = open(from, O_RDONLY);
    off_t at = 0;
    ssize_t got;
    uint8_t frame[FRAME], number = 0, last = EOT;
    must(file >= 0, from);
    must(connect(end, (const struct sockaddr *)address, sizeof *address) == 0, "connect");
    no_delay(end);
    double began = now();
    while ((got = pread(file, frame + HEAD, BODY, at)) > 0) {
        memset(frame + HEAD + got, 0x1A, (size_t)(BODY - got));
        uint16_t value = check(frame + HEAD);
        number++;
        frame[0] = STX;
        frame[1] = number;
        frame[2] = (uint8_t)(255 - number);
        frame[FRAME - 2] = (uint8_t)(value >> 8);
        frame[FRAME - 1] = (uint8_t)value;
        must(write(end, frame, FRAME) == FRAME, "write");
        answered(end);
        at += got;
    }
    must(write(end, &last, 1) == 1, "write");
    answered(end);
    printf("%.6f\n", now() - began);
}

int main(int count, char **words) {
    struct sockaddr_in address = {.sin_family = AF_INET, .sin_addr.s_addr = htonl(INADDR_LOOPBACK)};
    socklen_t length = sizeof address;
    int listener = socket(AF_INET, SOCK_STREAM, 0), status = 1;
    must(count == 4, "usage: pingpong bytes|slices|none FROM TO");
    check_of *check = check_named(words[1]);
    must(bind(listener, (struct sockaddr *)&address, length) == 0 && listen(listener, 1) == 0, "listen");
    getsockname(listener, (struct sockaddr *)&address, &length);
    fill_tables();
    pid_t child = fork();
    must(child >= 0, "fork");
    if (child == 0)
        receive(listener, words[3], check);
    transmit(&address, words[2], check);
    waitpid(child, &status, 0);
    return status != 0;
}
