/* A read of the line of examples/c, on a line that is quiet: its time is over where a signal comes
   again and again, and not before. usage: interrupted */
#define _XOPEN_SOURCE 700

#include "../../examples/c/line.h"

#include <signal.h>
#include <stdio.h>
#include <sys/time.h>

static volatile sig_atomic_t signals;

static void counts(int number) {
    (void)number;
    signals++;
}

int main(void) {
    struct itimerval each = { { 0, 100000 }, { 0, 100000 } };
    struct sigaction taken = { .sa_handler = counts };
    uint8_t bytes[8];
    int ends[2];
    if (pipe(ends) != 0 || dup2(ends[0], 0) != 0) return 2;
    sigaction(SIGALRM, &taken, NULL);
    setitimer(ITIMER_REAL, &each, NULL);
    uint64_t since = line.clock(NULL);
    int came = line.read(NULL, bytes, sizeof bytes, 450);
    uint64_t passed = line.clock(NULL) - since;
    if (came == 0 && passed >= 450 && signals >= 3) return 0;
    fprintf(stderr, "interrupted: %d came, %d ms, %d signals\n", came, (int)passed, (int)signals);
    return 1;
}
