/* The program that stands beside an end of the library, and numbers by chance. */
#include "beside.h"

#include <arpa/inet.h>
#include <errno.h>
#include <fcntl.h>
#include <poll.h>
#include <signal.h>
#include <stdarg.h>
#include <stdio.h>
#include <stdlib.h>
#include <string.h>
#include <sys/socket.h>
#include <sys/wait.h>
#include <unistd.h>

static uint64_t state;
char fault[512];

static uint64_t chance(void) {
    state ^= state << 13;
    state ^= state >> 7;
    state ^= state << 17;
    return state * 0x2545F4914F6CDD1Dull;
}

/* The first numbers of two seeds that are near are near, too. */
void seed(uint64_t with) {
    state = with;
    for (int i = 0; i < 8; i++) chance();
}

/* The low bits of the generator are the weakest. */
unsigned below(unsigned bound) { return (unsigned)((chance() >> 33) % bound); }

void some(uint8_t *bytes, size_t len) {
    for (size_t i = 0; i < len; i++) bytes[i] = (uint8_t)below(256);
}

int wrong(const char *form, ...) {
    va_list more;
    va_start(more, form);
    vsnprintf(fault, sizeof fault, form, more);
    va_end(more);
    return 0;
}

/* ---- The program */

void wants(int holds, const char *what) {
    if (!holds) {
        fprintf(stderr, "beside: %s: %s\n", what, strerror(errno));
        exit(2);
    }
}

struct program started(char *const *words) {
    int ends[2];
    wants(pipe2(ends, O_CLOEXEC) == 0, "pipe");
    struct program it = { .child = fork(), .out = ends[0], .line = -1 };
    wants(it.child >= 0, "fork");
    if (it.child == 0) {
        dup2(ends[1], 1);
        dup2(open("/dev/null", O_RDWR), 2);
        execv(words[0], words);
        _exit(127);
    }
    close(ends[1]);
    return it;
}

int readable(int handle) {
    struct pollfd it = { .fd = handle, .events = POLLIN };
    return poll(&it, 1, LIMIT) == 1;
}

int comes(const struct program *it, const uint8_t *wanted, size_t len, const char *where) {
    uint8_t got[1029];
    size_t have = 0;
    while (have < len) {
        ssize_t came = readable(it->line) ? read(it->line, got + have, len - have) : -1;
        if (came <= 0) return wrong("%s: the program wrote %zu bytes, and the library %zu", where, have, len);
        have += (size_t)came;
    }
    return memcmp(got, wanted, len) == 0 || wrong("%s: the program wrote %02x %02x .., and the library %02x %02x .. of %zu bytes", where, got[0], got[1], wanted[0], wanted[1], len);
}

int puts_all(const struct program *it, const uint8_t *bytes, size_t len) {
    return send(it->line, bytes, len, MSG_NOSIGNAL) == (ssize_t)len || wrong("a delivery was not taken whole");
}

int ends(struct program *it, int status, const char *last) {
    char said[65536];
    size_t len = 0;
    ssize_t came;
    uint8_t more;
    if (readable(it->line) && read(it->line, &more, 1) > 0) return wrong("the program wrote more: %02x", more);
    while (len < sizeof said - 1 && readable(it->out) && (came = read(it->out, said + len, sizeof said - 1 - len)) > 0) len += (size_t)came;
    said[len] = 0;
    int how;
    waitpid(it->child, &how, 0);
    it->child = 0;
    if (!WIFEXITED(how) || WEXITSTATUS(how) != status) return wrong("the program ended with %x, wanted status %d: %s", how, status, said);
    size_t size = strlen(last);
    return (len >= size && strcmp(said + len - size, last) == 0) || wrong("the program said %s, wanted %s", said, last);
}

void gone(struct program *it) {
    if (it->child > 0) {
        kill(it->child, SIGKILL);
        waitpid(it->child, NULL, 0);
    }
    if (it->line >= 0) close(it->line);
    close(it->out);
}

void at_once(int line) {
    int yes = 1;
    setsockopt(line, IPPROTO_TCP, 1 /* TCP_NODELAY */, &yes, sizeof yes);
}
