/* The deepest stack of the library's calls, in bytes, by a stack that is painted before each: a line
   for each group of them, as docs/library.md has them. For x86-64. usage: stack */
#include "ymodem.h"

#include <stdio.h>
#include <string.h>
#include <ucontext.h>

enum { ROOM = 1 << 16, PAINT = 0xA5 };

static uint8_t painted[ROOM];
static ucontext_t here, there;
/* Where the stack ends at the call, which is the one of this number. */
static uint8_t *volatile end;
static int number;

static ym_receiver receiver;
static ym_ask ask;
static ym_sender sender;
static ym_fill fill;
static ym_reader reader;
static ym_front front;
static ym_line line;
static ym_clearing clearing;
static const uint64_t counts[1] = { 3 };
static uint8_t body[1024], frame[1029], reply[2], heard[2058];
/* What the call is given. */
static const uint8_t *bytes;
static size_t len, took;

enum { INIT, FEED, WANTS, HEAR, ANSWER, FAIL, READ, BEGIN, SETTLED, HEARS, BLOCK, OUT, FAILED,
    HEADER, WRITE, LISTEN, EXPIRED, CLEARING, CLEAR_AT, DROP, WROTE, UNTIL };

static void call(void) {
    __asm__ volatile("mov %%rsp, %0" : "=m"(end));
    switch (number) {
    case INIT: ym_receiver_init(&receiver, 0); break;
    case FEED: took = ym_receiver_feed(&receiver, bytes, len); break;
    case WANTS: ym_receiver_wants(&receiver); break;
    case HEAR: ym_receiver_hear(&receiver, &ask); break;
    case ANSWER: ym_receiver_answer(&receiver, 1, reply, sizeof reply); break;
    case FAIL: ym_receiver_answer(&receiver, 0, reply, sizeof reply); break;
    case READ: ym_reader_feed(&reader, bytes, len, &front); break;
    case BEGIN: ym_sender_init(&sender, counts, 1); break;
    case SETTLED: ym_sender_settled(&sender, counts, 1, bytes, len); break;
    case HEARS: ym_sender_hear(&sender, counts, 1, bytes, len, &fill); break;
    case BLOCK: ym_sender_block(&sender, body, sizeof body); break;
    case OUT: ym_sender_out(&sender, counts, 1); break;
    case FAILED: ym_sender_failed(&sender, counts, 1); break;
    case HEADER: ym_sender_header(&sender, bytes, len, 3072, 2, UINT64_MAX, 0644); break;
    case WRITE: ym_header_write(bytes, len, 3072, 2, UINT64_MAX, 0644, body, sizeof body); break;
    case LISTEN: ym_line_hear(&line, bytes, len, frame, 133, 5, heard, sizeof heard); break;
    case EXPIRED: ym_line_expired(&line, YM_WAIT_FIRST, 3000); break;
    case CLEARING: ym_line_clearing(&line, bytes, len, 4000, &clearing); break;
    case CLEAR_AT: ym_line_clear_at(&line, &clearing); break;
    case DROP: ym_line_drop(&line, &clearing, bytes, len, frame, 133, 5000); break;
    case WROTE: ym_line_wrote(&line, &clearing, bytes, len, 6000); break;
    case UNTIL: ym_line_until(&line, YM_WAIT_FIRST, 7000); break;
    }
}

static size_t depth(int which, const void *given, size_t count) {
    size_t at = 0;
    number = which;
    bytes = given;
    len = count;
    memset(painted, PAINT, ROOM);
    getcontext(&there);
    there.uc_stack.ss_sp = painted;
    there.uc_stack.ss_size = ROOM;
    there.uc_link = &here;
    makecontext(&there, call, 0);
    swapcontext(&here, &there);
    while (at < ROOM && painted[at] == PAINT) at++;
    return (size_t)(end - (painted + at));
}

static size_t greater(size_t one, size_t other) { return one > other ? one : other; }

/* A delivery to the receiver, and its answer. */
static size_t delivered(const void *given, size_t count, int answer) {
    size_t found = depth(WANTS, body, 0), at = 0;
    do {
        found = greater(found, depth(FEED, (const uint8_t *)given + at, count - at));
        at += took;
    } while (took);
    found = greater(found, depth(HEAR, body, 0));
    return greater(found, depth(answer, body, 0));
}

static size_t block(uint32_t block_number, size_t size) {
    return ym_frame_write(block_number, body, size, frame, sizeof frame);
}

static size_t of_receiver(void) {
    static const uint8_t name[] = "name";
    size_t found = depth(INIT, body, 0);
    found = greater(found, delivered(body, 0, ANSWER));
    memset(body, 0, sizeof body);
    ym_header_write(name, 4, 1152, 2, UINT64_MAX, 0644, body, sizeof body);
    found = greater(found, delivered(frame, block(0, 128), ANSWER));
    found = greater(found, delivered(frame, block(1, 1024), ANSWER));
    found = greater(found, delivered(frame, block(1, 1024), ANSWER));
    found = greater(found, delivered("rubbish", 7, ANSWER));
    found = greater(found, delivered(frame, block(2, 128), ANSWER));
    found = greater(found, delivered("\x04", 1, ANSWER));
    found = greater(found, delivered("\x04", 1, ANSWER));
    memset(body, 0, sizeof body);
    return greater(found, delivered(frame, block(0, 128), FAIL));
}

static size_t heard_by_sender(const char *told) {
    size_t found = depth(SETTLED, told, strlen(told));
    found = greater(found, depth(HEARS, told, strlen(told)));
    return greater(found, depth(OUT, body, 0));
}

static size_t of_sender(size_t *header) {
    static const char *const told[] = { "\x06" "C", "\x06", "\x15", "\x06", "\x06", "\x06" "C" };
    size_t found = depth(BEGIN, body, 0), i;
    found = greater(found, heard_by_sender("C"));
    *header = depth(HEADER, "name", 4);
    for (i = 0; i < sizeof told / sizeof *told; i++) {
        found = greater(found, heard_by_sender(told[i]));
        if (fill.kind == YM_FILL_BLOCK) found = greater(found, depth(BLOCK, body, 0));
    }
    return greater(found, depth(FAILED, body, 0));
}

static size_t of_line(uint32_t receives) {
    size_t size = block(1, 128), found = 0;
    int which;
    ym_line_init(&line, receives);
    for (which = LISTEN; which <= UNTIL; which++) {
        found = greater(found, depth(which, frame, size));
        found = greater(found, depth(which, "\x06" "C", 2));
    }
    return found;
}

int main(void) {
    size_t header, sends, found;
    /* by now each name is bound that is bound at its first call */
    of_receiver();
    of_sender(&header);
    printf("the receiver's calls %zu\n", of_receiver());
    ym_reader_init(&reader);
    found = depth(READ, frame, block(1, 1024));
    printf("`ym_reader_feed` %zu\n", greater(found, depth(READ, "rubbish", 7)));
    sends = of_sender(&header);
    printf("the sender's calls without `ym_sender_header` %zu\n", sends);
    printf("`ym_line_*` %zu\n", greater(of_line(0), of_line(1)));
    printf("`ym_header_write` %zu\n", depth(WRITE, "name", 4));
    printf("`ym_sender_header` %zu\n", header);
    return 0;
}
