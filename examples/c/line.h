/* The line of the two examples: standard input and output. SIGHUP, SIGINT and SIGTERM end a transfer
   as a line that fails does, so that the program can clear up and tell its peer. */
#ifndef LINE_H
#define LINE_H

/* For poll, sigaction, clock_gettime and the calls of files, with -std=c99 too. */
#define _POSIX_C_SOURCE 200809L
/* Files of more than 2 GiB on 32 bits, too, and of behind 2038. */
#define _FILE_OFFSET_BITS 64
#define _TIME_BITS 64

#include "ymodem_io.h"

#include <errno.h>
#include <poll.h>
#include <signal.h>
#include <time.h>
#include <unistd.h>

/* The signal that came, or 0. A second one of its kind ends the program at once. */
static volatile sig_atomic_t ended_by;

static void ends(int number) { ended_by = number; }

/* A signal that is ignored, as by nohup, stays so. A line that is gone fails a write, and does not
   end the program before it has cleared up. */
static inline void line_begins(void) {
    static const int those[] = { SIGHUP, SIGINT, SIGTERM };
    struct sigaction taken = { .sa_handler = ends, .sa_flags = (int)SA_RESETHAND };
    struct sigaction before;
    sigemptyset(&taken.sa_mask);
    for (size_t i = 0; i < sizeof those / sizeof *those; i++) {
        if (sigaction(those[i], NULL, &before) != 0 || before.sa_handler == SIG_IGN) continue;
        sigaction(those[i], &taken, NULL);
    }
    signal(SIGPIPE, SIG_IGN);
}

/* Writes all of it. A signal ends a write that is stuck. */
static int put(int to, const uint8_t *bytes, size_t len) {
    while (len) {
        ssize_t done = write(to, bytes, len);
        if (done == 0 || (done < 0 && errno != EINTR)) return 0;
        if (done > 0) {
            bytes += done;
            len -= (size_t)done;
        }
        if (len && ended_by) return 0;
    }
    return 1;
}

/* Where a signal ended the transfer, the peer is told, if the line takes it, and the program ends
   by that signal. A receiver drops what comes right behind a frame: so a sender is quiet first. */
static inline void line_ends(unsigned quiet_seconds) {
    struct pollfd line = { .fd = 1, .events = POLLOUT };
    if (!ended_by) return;
    sleep(quiet_seconds);
    if (poll(&line, 1, 1000) > 0) put(1, ym_can_can, sizeof ym_can_can);
    raise(ended_by);
}

static inline const char *line_text(ym_error error) {
    return ended_by && error == YM_ERROR_LINE ? "ended by a signal" : ym_text(error);
}

static uint64_t line_clock(void *user) {
    struct timespec now;
    (void)user;
    clock_gettime(CLOCK_MONOTONIC, &now);
    return (uint64_t)now.tv_sec * 1000 + (uint64_t)now.tv_nsec / 1000000;
}

/* Behind another signal the rest of the time is waited for. One that ends comes between two waits
   at worst: so none is longer than a second. */
static int line_read(void *user, uint8_t *bytes, size_t len, uint32_t milliseconds) {
    struct pollfd line = { .fd = 0, .events = POLLIN };
    uint64_t now = line_clock(user), until = now + milliseconds;
    for (; !ended_by; now = line_clock(user)) {
        uint64_t wait = now < until ? until - now : 0;
        int ready = poll(&line, 1, wait < 1000 ? (int)wait : 1000);
        if (ready > 0) {
            ssize_t came = read(0, bytes, len);
            return came > 0 ? (int)came : -1;
        }
        if (ready < 0 && errno != EINTR) return -1;
        if (now >= until) return 0;
    }
    return -1;
}

static int line_write(void *user, const uint8_t *bytes, size_t len) {
    (void)user;
    return put(1, bytes, len) ? 0 : -1;
}

static const ym_io line = { NULL, line_read, line_write, line_clock };

#endif
