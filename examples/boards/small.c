/* A receiver alone, for a loader with little room: the calls step by step, and the plainer rule of
   time of docs/library.md, by which a second without a byte ends a delivery. It keeps no file, and
   tells how many there were, and the CRC-32 of their names and bytes, one behind the other; and
   again. */
#include "port.h"
#include "sum.h"

/* Milliseconds without a byte behind which the line is quiet, and behind which it asks again. A
   sender may let its line clear for two seconds, and has to do so anew where it is asked sooner. */
enum { QUIET = 1000, ASKS_AGAIN = 3000 };

static ym_receiver receiver;
static ym_ask ask;
static uint8_t bytes[256];

static size_t came(uint32_t wait) {
    return (size_t)port_read(NULL, bytes, sizeof bytes, wait);
}

/* Takes what comes, until a delivery is whole or the line is quiet. */
static void take_delivery(void) {
    size_t len, at, took;
    while (ym_receiver_wants(&receiver) && (len = came(receiver.len ? QUIET : ASKS_AGAIN)) > 0) {
        for (at = 0; at < len; at += took) {
            took = ym_receiver_feed(&receiver, bytes + at, len - at);
            if (took == 0) break;
        }
    }
}

/* Drops what comes until the line is quiet. More may be under way, and must not be taken for what
   comes behind the reply. */
static void let_clear(void) {
    while (came(QUIET)) {}
}

static void act(struct sum *sum) {
    if (ask.kind == YM_BEGIN || ask.kind == YM_ADD) {
        sum->crc = crc32_add(sum->crc, receiver.held + ask.at, (size_t)ask.count);
    }
    if (ask.kind == YM_COMMIT) sum->files++;
}

/* Receives a batch. 1: it is whole. */
static int receive(struct sum *sum) {
    ym_opening opening = { 0, { 0, 0 } };
    uint8_t reply[2];
    ym_receiver_init(&receiver, 0);
    while (receiver.stand.state == YM_RUNNING) {
        take_delivery();
        ym_receiver_hear(&receiver, &ask);
        int other = ym_is_other_file(&receiver, &ask, opening);
        if (!other) act(sum);
        if (ask.kind == YM_BEGIN) opening = ym_opening_of(&receiver);
        if (receiver.len && (ask.bad || receiver.stand.retries)) let_clear();
        port_write(NULL, reply, ym_receiver_answer(&receiver, !other, reply, sizeof reply));
    }
    return receiver.stand.state == YM_FINISHED;
}

int main(void) {
    board_init();
    for (;;) {
        struct sum sum = { 0, ~0u };
        print("send files by YMODEM\r\n");
        int is_whole = receive(&sum);
        sum_tell(&sum, is_whole ? "done" : "not whole");
    }
}
