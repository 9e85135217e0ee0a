/* An end of the library beside that of the program: both hear the same deliveries, and have to answer the same bytes and to end alike. The
   deliveries are made by chance, each so that it ends where the end in question needs no more bytes: so nobody waits. Those to a sender are
   written down, for the program `line_cases`.

   usage: beside sender|receiver PROGRAM FOLDER FIRST STREAMS WORKERS
   FOLDER is for the files. On standard output: how often each end was seen, and how many deliveries were heard. */
#include "beside.h"

#include <arpa/inet.h>
#include <errno.h>
#include <signal.h>
#include <stdio.h>
#include <stdlib.h>
#include <string.h>
#include <sys/mman.h>
#include <sys/prctl.h>
#include <sys/socket.h>
#include <sys/stat.h>
#include <sys/wait.h>
#include <unistd.h>

struct counts *counts;
static unsigned stream;

static int bound(uint16_t *port) {
    int it = socket(AF_INET, SOCK_STREAM | SOCK_CLOEXEC, 0), yes = 1;
    struct sockaddr_in at = { .sin_family = AF_INET, .sin_addr = { htonl(INADDR_LOOPBACK) } };
    socklen_t size = sizeof at;
    setsockopt(it, SOL_SOCKET, SO_REUSEADDR, &yes, sizeof yes);
    wants(bind(it, (struct sockaddr *)&at, sizeof at) == 0 && getsockname(it, (struct sockaddr *)&at, &size) == 0, "bind");
    *port = ntohs(at.sin_port);
    return it;
}

static int made(int is_sender, uint16_t port, char *command, char *folder) {
    seed((0x9E3779B97F4A7C15ull * (stream + 1)) | 1);
    return is_sender ? sends(folder) : receives(port, command, folder);
}

/* A stream at which the machine was late, so that an end had waited in vain, goes well when it is made again. */
static void work(int is_sender, char *command, const char *top, unsigned worker, unsigned last) {
    char folder[512];
    uint16_t port;
    bound(&port);
    snprintf(folder, sizeof folder, "%s/worker %u", top, worker);
    wants(mkdir(folder, 0755) == 0 || errno == EEXIST, "a folder");
    while ((stream = __atomic_fetch_add(&counts->next, 1, __ATOMIC_RELAXED)) < last) {
        int tries = 0;
        while (!made(is_sender, port, command, folder) && ++tries < TRIES) {
            __atomic_fetch_add(&counts->again, 1, __ATOMIC_RELAXED);
            if (!is_sender) emptied(folder);
        }
        if (tries == TRIES) {
            __atomic_fetch_add(&counts->failed, 1, __ATOMIC_RELAXED);
            fprintf(stderr, "stream %u: %s\n", stream, fault);
        }
    }
}

int main(int count, char **word) {
    if (count != 7) return 2;
    int is_sender = strcmp(word[1], "sender") == 0;
    unsigned first = (unsigned)atoi(word[4]), streams = (unsigned)atoi(word[5]), workers = (unsigned)atoi(word[6]);
    signal(SIGPIPE, SIG_IGN);
    counts = mmap(NULL, sizeof *counts, PROT_READ | PROT_WRITE, MAP_SHARED | MAP_ANONYMOUS, -1, 0);
    wants(counts != MAP_FAILED, "mmap");
    counts->next = first;
    make_files();
    for (unsigned i = 0; i < workers; i++) {
        pid_t child = fork();
        wants(child >= 0, "fork");
        if (child == 0) {
            prctl(PR_SET_PDEATHSIG, SIGKILL);
            work(is_sender, word[2], word[3], i, first + streams);
            return 0;
        }
    }
    int how, failed = counts->failed != 0;
    while (wait(&how) > 0) failed |= how != 0;
    for (int i = 0; i < STATES - 1; i++) printf("%u ", counts->ended[i]);
    printf("%u %u\n", counts->deliveries, counts->again);
    return failed || counts->failed;
}
