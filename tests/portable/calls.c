/* Random calls of the library for C, the same for each seed. Tells a line a call: its number, which
   call, what it answered, and a sum of all that the calls read and write; two builds of the library
   have to tell the same. usage: calls CALLS SEED */
#include "ymodem.h"

#include <stdio.h>
#include <stdlib.h>
#include <string.h>

enum { LONGEST = 1100, FILES = 4 };

static uint64_t state;

static uint64_t chance(void) {
    state ^= state << 13;
    state ^= state >> 7;
    state ^= state << 17;
    return state * 0x2545F4914F6CDD1Dull;
}

static uint64_t below(uint64_t bound) { return chance() % bound; }

static void rubbish(void *at, size_t len) {
    uint8_t *bytes = at;
    for (size_t i = 0; i < len; i++) bytes[i] = (uint8_t)chance();
}

/* All that a call may read or write, without a gap. */
static struct {
    ym_receiver receiver;
    ym_sender sender;
    ym_reader reader;
    ym_ask ask;
    ym_fill fill;
    ym_front front;
    ym_header header;
    ym_line line;
    ym_clearing clearing;
    uint64_t blocks[FILES];
    uint8_t bytes[LONGEST];
    uint8_t out[LONGEST];
} all;

/* FNV-1a, of words of 8 bytes with the first one in the lowest place. */
static uint64_t sum(const void *at, size_t len) {
    const uint8_t *bytes = at;
    uint64_t made = 0xCBF29CE484222325ull;
    for (size_t i = 0; i < len; i += 8) {
        uint64_t word = 0;
        memcpy(&word, bytes + i, len - i < 8 ? len - i : 8);
        made = (made ^ word) * 0x100000001B3ull;
    }
    return made;
}

static uint64_t number(void) {
    switch (below(6)) {
    case 0: return 0;
    case 1: return below(3);
    case 2: return below(1200);
    case 3: return below(70000);
    case 4: return ~(uint64_t)0 - below(3);
    default: return chance();
    }
}

static void any_stand(ym_stand *stand) {
    rubbish(stand, sizeof *stand);
    stand->length = below(2) ? below(5000) : number();
    stand->taken = below(3) ? below(3000) : number();
    stand->blocks = below(2) ? below(5) : number();
    stand->files = (uint32_t)number();
    if (below(4)) {
        stand->confirm = (uint32_t)below(2);
        stand->in_file = (uint32_t)below(2);
        stand->first_eot = (uint32_t)below(2);
        stand->retries = (uint32_t)below(12);
        stand->state = (uint32_t)(below(3) ? 0 : below(9));
        stand->fault = (uint32_t)(stand->state == YM_BAD_HEADER || below(8) == 0 ? below(7) : 0);
    }
}

/* Structs of rubbish, of which some may be those of an end. */
static void anything(void) {
    rubbish(&all, sizeof all);
    any_stand(&all.receiver.stand);
    any_stand(&all.receiver.next);
    all.receiver.reply = (uint32_t)(below(2) ? below(9) : number());
    all.receiver.len = (uint32_t)(below(2) ? below(1030) : number());
    for (size_t i = 0; i < FILES; i++) all.blocks[i] = below(2) ? below(5) : number();
    all.sender.file = (uint32_t)below(FILES + 1);
    all.sender.place = (uint32_t)below(5);
    all.sender.mode = (uint32_t)below(3);
    all.sender.retries = (uint32_t)below(below(3) ? 3 : 12);
    all.sender.state = (uint32_t)(below(3) ? 0 : below(6));
    all.sender.number = below(3) ? 1 + below(4) : number();
    all.sender.len = (uint32_t)(below(4) ? 0 : below(1031));
    all.sender.cancel_pending = (uint32_t)below(below(4) ? 2 : 4);
    all.reader.why = (uint32_t)below(6);
    all.reader.len = (uint32_t)below(1040);
}

/* Bytes of a delivery: control bytes, rubbish, the frame of the sender, a part of it, or damaged.
 * Gives how many. */
static size_t delivery(void) {
    static const uint8_t controls[] = { 0x06, 0x15, 0x18, 0x43, 0x04, 0x01, 0x02 };
    size_t len = (size_t)below(8);
    uint64_t kind = below(4);
    if (kind == 0) {
        for (size_t i = 0; i < len; i++) all.bytes[i] = controls[below(sizeof controls)];
    } else if (kind == 1) {
        len = (size_t)below(LONGEST + 1);
        rubbish(all.bytes, len);
    } else if (all.sender.len <= 1029) {
        len = all.sender.len;
        memcpy(all.bytes, all.sender.frame, len);
        if (len && below(4) == 0) all.bytes[below(len)] ^= (uint8_t)(1 + below(255));
        if (below(4) == 0) len = (size_t)below(len + 1);
    }
    return len;
}

static const char *const names[] = { "a.bin", "a file (2)", "\xC3\xA4.bin", "..", ".", "a/b",
    "\xFF", "\x01", "" };

/* A name into `bytes`: one of these, long, or rubbish. Gives its length. */
static size_t name(void) {
    size_t len;
    uint64_t kind = below(12);
    if (kind < 9) {
        len = strlen(names[kind]);
        memcpy(all.bytes, names[kind], len);
        return len;
    }
    len = (size_t)below(300);
    for (size_t i = 0; i < len; i++)
        all.bytes[i] = kind == 9 ? (uint8_t)chance() : (uint8_t)('a' + below(26));
    return len;
}

static size_t body_size(void) {
    return below(4) ? (below(2) ? 128 : 1024) : (size_t)below(LONGEST + 1);
}

/* The numbers that a call is given, each drawn in its turn. */
static struct {
    uint64_t length, time;
    uint32_t word, stamp, mode;
    size_t size, room, name_len;
} given;

static void draw(void) {
    given.length = number();
    given.time = number();
    given.word = (uint32_t)number();
    given.stamp = (uint32_t)below(4);
    given.mode = (uint32_t)chance();
    given.size = body_size();
    given.room = below(2) ? LONGEST : (size_t)below(LONGEST + 1);
}

static uint32_t fill_header(void) {
    given.name_len = name();
    return ym_sender_header(
        &all.sender, all.bytes, given.name_len, given.length, given.stamp, given.time, given.mode);
}

static uint32_t write_header(size_t room) {
    given.name_len = name();
    return ym_header_write(all.bytes, given.name_len, given.length, given.stamp, given.time,
        given.mode, all.out, room);
}

/* A receiver that runs, and holds what it may hear there: the frame of a header or of a block, or
 * an EOT. */
static void meet(void) {
    any_stand(&all.receiver.stand);
    all.receiver.stand.state = YM_RUNNING;
    all.receiver.stand.fault = 0;
    all.receiver.stand.retries = (uint32_t)below(10);
    all.receiver.stand.files = (uint32_t)below(9);
    all.receiver.stand.in_file = below(4) ? 1 : 0;
    all.receiver.stand.blocks = below(5);
    all.receiver.stand.taken = all.receiver.stand.blocks * 1024;
    all.receiver.stand.length = all.receiver.stand.taken + below(2) * below(3000);
    all.receiver.stand.first_eot = (uint32_t)below(2);
    uint32_t number = (uint32_t)all.receiver.stand.blocks + (below(4) ? 1 : (uint32_t)below(3));
    uint32_t size = below(2) ? 128 : 1024;
    const uint8_t *body = all.bytes;
    switch (below(3)) {
    case 0:
        number = 0;
        body = all.out;
        size = write_header(sizeof all.out);
        break;
    case 1: break;
    default: all.receiver.held[0] = 0x04; all.receiver.len = 1; return;
    }
    all.receiver.len = (uint32_t)ym_frame_write(
        number, body, size, all.receiver.held, sizeof all.receiver.held);
}

static uint64_t call_receiver(uint64_t which, size_t len) {
    switch (which) {
    case 0:
        if (given.word % 6 == 0) ym_receiver_init(&all.receiver, given.word);
        return 0;
    case 1: return ym_receiver_feed(&all.receiver, all.bytes, len);
    case 2: return ym_receiver_wants(&all.receiver);
    case 3:
        if (below(2)) meet();
        ym_receiver_hear(&all.receiver, &all.ask);
        return all.ask.kind;
    default: return ym_receiver_answer(&all.receiver, given.word % 8, all.out, given.room % 4);
    }
}

static uint64_t call_sender(uint64_t which, size_t len, size_t files) {
    switch (which) {
    case 5:
        if (given.word % 6 == 0) ym_sender_init(&all.sender, all.blocks, files);
        return 0;
    case 6: return ym_sender_settled(&all.sender, all.blocks, files, all.bytes, len);
    case 7:
        ym_sender_hear(&all.sender, all.blocks, files, all.bytes, len, &all.fill);
        return all.fill.kind;
    case 8: return fill_header();
    case 9: return ym_sender_block(&all.sender, all.bytes, given.size);
    case 10:
        if (given.word % 8 == 0) ym_sender_failed(&all.sender, all.blocks, files);
        return 0;
    default: return ym_sender_out(&all.sender, all.blocks, files);
    }
}

static uint64_t call_frames(uint64_t which, size_t len) {
    switch (which) {
    case 12: return ym_check(all.bytes, given.room);
    case 13: ym_frame_read(all.bytes, len, &all.front); return all.front.kind;
    case 14: return ym_frame_write(given.word, all.bytes, given.size, all.out, given.room);
    case 15:
        if (given.word % 4 == 0) ym_reader_init(&all.reader);
        return 0;
    case 16: return ym_reader_feed(&all.reader, all.bytes, len, &all.front);
    case 17:
        ym_header_read(below(2) ? all.sender.frame + 3 : all.bytes, given.size % 1025, &all.header);
        return all.header.kind;
    default: return write_header(given.room);
    }
}

static uint64_t call_line(uint64_t which, size_t len) {
    const uint8_t *last = all.sender.frame;
    size_t last_len = given.size % 1030;
    switch (which) {
    case 19:
        if (given.word % 4 == 0) ym_line_init(&all.line, given.word % 3);
        return 0;
    case 20: return ym_line_now(&all.line, given.time);
    case 21: return ym_line_waited(&all.line, given.length, given.time);
    case 22: return ym_line_until(&all.line, given.word % 3, given.time);
    case 23: return ym_line_expired(&all.line, given.word % 3, given.time);
    case 24:
        return ym_line_hear(&all.line, all.bytes, len, last, last_len, given.time, all.out, given.room);
    case 25: return ym_line_cancels(all.bytes, len) + 2 * ym_line_cancelled(&all.line);
    case 26:
        ym_line_clearing(&all.line, all.bytes, len, given.time, &all.clearing);
        return ym_line_clear_at(&all.line, &all.clearing);
    case 27:
        ym_line_drop(&all.line, &all.clearing, all.bytes, len, last, last_len, given.time);
        return ym_line_clear_at(&all.line, &all.clearing);
    default: ym_line_wrote(&all.line, &all.clearing, all.bytes, len, given.time); return 0;
    }
}

int main(int words, char **word) {
    long calls = words > 1 ? atol(word[1]) : 100000;
    state = words > 2 ? strtoull(word[2], NULL, 10) | 1 : 88172645463325253ull;
    anything();
    for (long i = 0; i < calls; i++) {
        if (below(20) == 0) anything();
        uint64_t which = below(29), answer;
        size_t len = delivery();
        size_t files = (size_t)below(FILES + 1);
        draw();
        if (which < 5) answer = call_receiver(which, len);
        else if (which < 12) answer = call_sender(which, len, files);
        else if (which < 19) answer = call_frames(which, len);
        else answer = call_line(which, len);
        printf("%ld %d %llu %016llx\n", i, (int)which, (unsigned long long)answer,
            (unsigned long long)sum(&all, sizeof all));
    }
    return 0;
}
