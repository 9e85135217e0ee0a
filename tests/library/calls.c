/* Calls of the library with structs of rubbish and in any order: each call has to return, and to stay within what it was given. Each
   struct and buffer ends where a page begins that faults. usage: calls ROUNDS SEED */
#include "ymodem.h"

#include <stdio.h>
#include <stdlib.h>
#include <string.h>
#include <sys/mman.h>

enum { PAGE = 4096, ROOM = 2 * PAGE };

static uint64_t state;

static uint64_t chance(void) {
    state ^= state << 13;
    state ^= state >> 7;
    state ^= state << 17;
    return state * 0x2545F4914F6CDD1Dull;
}

static uint64_t below(uint64_t bound) { return chance() % bound; }

enum place {
    RECEIVER, SENDER, ASK, FILL, BYTES, REPLY, BLOCKS, READER, HEADER, FRAME, LINE, CLEARING, PLACES
};

/* So many bytes before a page that faults, at a multiple of 8 where `len` is one. */
static uint8_t *room(enum place place, size_t len) {
    static uint8_t *ends[PLACES];
    if (!ends[place]) {
        uint8_t *pages = mmap(NULL, ROOM + PAGE, PROT_READ | PROT_WRITE, MAP_PRIVATE | MAP_ANONYMOUS, -1, 0);
        if (pages == MAP_FAILED || mprotect(pages + ROOM, PAGE, PROT_NONE) != 0) abort();
        ends[place] = pages + ROOM;
    }
    return ends[place] - len;
}

static void rubbish(void *at, size_t len) {
    uint8_t *bytes = at;
    for (size_t i = 0; i < len; i++) bytes[i] = (uint8_t)chance();
}

static uint64_t number(void) {
    switch (below(6)) {
    case 0: return 0;
    case 1: return below(3);
    case 2: return below(1200);
    case 3: return below(70000);
    case 4: return ~(uint64_t)0 - below(3);
    default: return chance();
    }
}

static void wants(int holds, const char *what) {
    if (!holds) {
        fprintf(stderr, "calls: %s\n", what);
        exit(1);
    }
}

/* A stand that may be one of a receiver, or numbers alone. */
static void any_stand(ym_stand *stand) {
    rubbish(stand, sizeof *stand);
    stand->length = number();
    stand->taken = below(3) ? stand->length : number();
    stand->blocks = below(2) ? stand->taken : number();
    stand->files = (uint32_t)number();
    if (below(4)) {
        stand->confirm = (uint32_t)below(2);
        stand->in_file = (uint32_t)below(2);
        stand->first_eot = (uint32_t)below(2);
        stand->retries = (uint32_t)below(12);
        stand->state = (uint32_t)(below(3) ? 0 : below(9));
        stand->fault = (uint32_t)(stand->state == YM_BAD_HEADER || below(8) == 0 ? below(7) : 0);
    }
}

/* The frame of a block, or of a file's block 0. */
static void any_frame(ym_receiver *receiver) {
    uint8_t body[1024];
    uint32_t block = (uint32_t)(below(2) ? receiver->stand.blocks + 1 : number()), size = below(2) ? 128 : 1024;
    rubbish(body, sizeof body);
    if (below(2)) {
        block = 0;
        size = ym_header_write((const uint8_t *)"a name", 6, number(), (uint32_t)below(4), number(), (uint32_t)chance(), body, sizeof body);
        wants(size == 128 || size == 1024 || size == YM_LENGTH_LARGE, "a header's fault");
    } else if (below(3) == 0) {
        size = 0;
        receiver->held[0] = 0x04;
    }
    receiver->len = size == 0 ? 1 : (uint32_t)ym_frame_write(block, body, size, receiver->held, sizeof receiver->held);
}

static uint64_t asked[4], states[8], filled[3];

static void receive(ym_receiver *receiver, ym_ask *ask) {
    any_stand(&receiver->stand);
    any_stand(&receiver->next);
    receiver->reply = (uint32_t)(below(2) ? below(9) : number());
    receiver->len = (uint32_t)(below(2) ? below(1030) : number());
    rubbish(receiver->held, sizeof receiver->held);
    if (below(8) == 0) ym_receiver_init(receiver, (uint32_t)number());
    for (uint64_t calls = below(8); calls; calls--) {
        if (below(3) == 0) any_frame(receiver);
        size_t len = below(40), reply_room = below(4);
        uint8_t *bytes = room(BYTES, len), *reply = room(REPLY, reply_room);
        rubbish(bytes, len);
        switch (below(4)) {
        case 0: wants(ym_receiver_feed(receiver, bytes, len) <= len, "more was taken than came"); break;
        case 1: wants(ym_receiver_wants(receiver) <= 1029, "more is wanted than a frame has"); break;
        case 2:
            ym_receiver_hear(receiver, ask);
            wants(ask->kind <= YM_COMMIT && ask->bad <= 1, "an ask");
            wants((ask->kind != YM_BEGIN && ask->kind != YM_ADD) || ask->at + ask->count <= 1029, "bytes beyond those held");
            asked[ask->kind]++;
            break;
        default:
            wants(ym_receiver_answer(receiver, (uint32_t)below(2), reply, reply_room) <= reply_room, "a reply without room");
            if (receiver->stand.state < 8) states[receiver->stand.state]++;
        }
    }
}

static void send(ym_sender *sender, ym_fill *fill) {
    static const uint8_t controls[] = { 0x06, 0x15, 0x43, 0x18 };
    size_t files = below(4);
    uint64_t *blocks = (uint64_t *)(void *)room(BLOCKS, 8 * files);
    for (size_t i = 0; i < files; i++) blocks[i] = number();
    rubbish(sender, sizeof *sender);
    if (below(4)) {
        sender->file = (uint32_t)below(5);
        sender->place = (uint32_t)below(5);
        sender->mode = (uint32_t)below(3);
        sender->retries = (uint32_t)below(12);
        sender->state = (uint32_t)(below(3) ? 0 : below(6));
        sender->number = below(2) ? number() : 1;
        sender->len = (uint32_t)(below(2) ? 0 : below(1030));
        sender->cancel_pending = (uint32_t)below(3);
    }
    if (below(8) == 0) ym_sender_init(sender, blocks, files);
    for (uint64_t calls = below(8); calls; calls--) {
        size_t len = below(6);
        uint8_t *bytes = room(BYTES, len);
        for (size_t i = 0; i < len; i++) bytes[i] = below(8) ? controls[below(4)] : (uint8_t)chance();
        switch (below(6)) {
        case 0: wants(ym_sender_settled(sender, blocks, files, bytes, len) <= 1, "settled or not"); break;
        case 1: wants(ym_sender_out(sender, blocks, files) <= YM_OUT_CANCEL, "what is to be sent"); break;
        case 2: ym_sender_failed(sender, blocks, files); break;
        case 3: wants(ym_sender_header(sender, bytes, len, number(), (uint32_t)below(4), number(), (uint32_t)chance()) <= YM_NOT_NOW, "a header's fault"); break;
        case 4: wants(ym_sender_block(sender, bytes, len) % 6 == 1, "a short body"); break;
        default:
            ym_sender_hear(sender, blocks, files, bytes, len, fill);
            wants(fill->kind <= YM_FILL_BLOCK && (!fill->kind || fill->file < files), "a fill");
            wants(sender->state <= YM_SOURCE_FAILED, "a state");
            filled[fill->kind]++;
        }
    }
}

static void read_frame(void) {
    ym_front front;
    size_t len = below(140);
    uint8_t *bytes = room(BYTES, len);
    rubbish(bytes, len);
    if (len && below(2)) bytes[0] = (uint8_t)below(5);
    ym_frame_read(bytes, len, &front);
    wants(front.kind <= YM_FRONT_NONE && front.length <= len, "a front");
    wants(ym_check(bytes, len) < 65536, "a check");
}

/* A frame of a header that was written, or of any body: fed in pieces it is found, and read again it is what it was. */
static void whole_frame(ym_reader *reader) {
    uint8_t body[1024], frame[1029];
    ym_front front = { 0 };
    ym_header *header = (ym_header *)(void *)room(HEADER, sizeof *header);
    uint32_t stamp = (uint32_t)below(3), mode = (uint32_t)chance(), size;
    uint64_t length = chance() >> 1, time = chance();
    int is_header = below(2) != 0;
    rubbish(body, sizeof body);
    size = is_header ? ym_header_write((const uint8_t *)"some name", 9, length, stamp, time, mode, body, sizeof body) : below(2) ? 128 : 1024;
    wants(size == 128 || size == 1024, "a header is written");
    wants(ym_frame_write(300, body, size, frame, size + 5) == size + 5 && ym_frame_write(300, body, size, frame, size + 4) == 0, "a frame is written");
    ym_reader_init(reader);
    for (size_t used = 0, len = size + 5; used < len;) {
        size_t piece = 1 + below(below(2) ? 4 : len), taken;
        if (piece > len - used) piece = len - used;
        taken = ym_reader_feed(reader, frame + used, piece, &front);
        wants(taken > 0 && taken <= piece, "a reader takes");
        used += taken;
        wants((front.kind == YM_FRONT_BLOCK) == (used == len), "a reader finds the frame at its end");
    }
    wants(front.number == 300 % 256 && front.size == size && front.length == size + 5 && memcmp(reader->held + 3, body, size) == 0, "a reader finds the block");
    if (!is_header) return;
    ym_header_read(reader->held + 3, size, header);
    wants(header->kind == YM_HEADER_FILE && header->length == length && header->name_len == 9 && memcmp(reader->held + 3, "some name", 9) == 0, "a header is read");
    wants(header->stamp == stamp && (!stamp || header->time == time) && (stamp != 2 || header->mode == mode), "its stamp is read");
}

static void read_pieces(ym_reader *reader, ym_header *header) {
    ym_front front;
    size_t len = below(8) ? below(40) : below(1100), space = below(3) ? 1024 : below(1030);
    uint8_t *bytes = room(BYTES, len), *body = room(FRAME, space);
    rubbish(reader, sizeof *reader);
    if (below(2)) reader->why = (uint32_t)below(6);
    if (below(2)) reader->len = (uint32_t)below(1040);
    rubbish(bytes, len);
    if (below(2)) reader->held[0] = (uint8_t)below(5);
    wants(ym_reader_feed(reader, bytes, len, &front) <= len && front.kind <= YM_FRONT_NONE, "a reader of rubbish");
    ym_header_read(bytes, len, header);
    wants(header->kind <= YM_HEADER_END && header->fault <= YM_LENGTH_LARGE, "a header of rubbish");
    rubbish(body, space);
    if (space) body[below(space)] = 0;
    ym_header_read(body, space, header);
    wants(header->kind <= YM_HEADER_END && (header->kind != YM_HEADER_FILE || header->name_len <= 255), "a header of a block of rubbish");
    uint32_t made = ym_header_write(bytes, len, number(), (uint32_t)below(4), number(), (uint32_t)chance(), body, space);
    wants((made == 0) == (space < 1024) && (made <= YM_LENGTH_LARGE || made == 128 || made == 1024), "a header of a name of rubbish");
    size_t framed = (len == 128 || len == 1024) && len + 5 <= space ? len + 5 : 0;
    wants(ym_frame_write((uint32_t)chance(), bytes, len, body, space) == framed, "a body of any size");
}

/* What comes to a line, some of it heard. */
static void hears(ym_line *line, const uint8_t *written, size_t written_len) {
    size_t len = below(40), space = below(3) ? 2 * len : below(80);
    uint8_t *bytes = room(BYTES, len), *heard = room(REPLY, space);
    ym_line before = *line;
    rubbish(bytes, len);
    if (below(2)) memcpy(bytes, written, len < written_len ? len : written_len);
    size_t count = ym_line_hear(line, bytes, len, written, written_len, number(), heard, space);
    wants(count <= 2 * len && count <= space, "more is heard than there is room for");
    if (2 * len <= space) return;
    wants(count == 0 && memcmp(line, &before, sizeof before) == 0, "a line hears without room");
}

static uint64_t in_vain[3];

static void lines(ym_line *line, ym_clearing *clearing) {
    size_t len = below(140);
    uint8_t *written = room(FRAME, len);
    uint64_t until = number(), now;
    uint32_t wait = (uint32_t)below(3), vain;
    rubbish(written, len);
    rubbish(line, sizeof *line);
    rubbish(clearing, sizeof *clearing);
    if (below(2)) ym_line_init(line, (uint32_t)below(3));
    for (uint64_t calls = below(8); calls; calls--) {
        switch (below(7)) {
        case 0:
            now = ym_line_now(line, number());
            wants(ym_line_now(line, number()) >= now, "a clock runs backwards");
            break;
        case 1: wants(ym_line_waited(line, until, number()) >= until, "a wait is over"); break;
        case 2: hears(line, written, len); break;
        case 3:
            until = ym_line_until(line, wait, number());
            vain = ym_line_expired(line, wait, until);
            wants(vain <= YM_VAIN_QUIET, "a wait in vain");
            in_vain[vain]++;
            break;
        case 4:
            wants(ym_line_cancels(written, len) <= 1, "cancelled or not");
            wants(ym_line_cancelled(line) <= 1 && !ym_line_cancelled(line), "cancelled once");
            break;
        case 5:
            ym_line_drop(line, clearing, written, len, written, len, number());
            now = ym_line_clear_at(line, clearing);
            break;
        default:
            now = number();
            ym_line_clearing(line, written, len, now, clearing);
            wants(ym_line_clear_at(line, clearing) <= now + 60000 || now + 60000 < now, "a minute");
            ym_line_wrote(line, clearing, written, len, now);
        }
    }
}

int main(int words, char **word) {
    long rounds = words > 1 ? atol(word[1]) : 100000;
    state = words > 2 ? strtoull(word[2], NULL, 10) | 1 : 88172645463325253ull;
    ym_receiver *receiver = (ym_receiver *)(void *)room(RECEIVER, sizeof *receiver);
    ym_sender *sender = (ym_sender *)(void *)room(SENDER, sizeof *sender);
    ym_ask *ask = (ym_ask *)(void *)room(ASK, sizeof *ask);
    ym_fill *fill = (ym_fill *)(void *)room(FILL, sizeof *fill);
    ym_reader *reader = (ym_reader *)(void *)room(READER, sizeof *reader);
    ym_header *header = (ym_header *)(void *)room(HEADER, sizeof *header);
    ym_line *line = (ym_line *)(void *)room(LINE, sizeof *line);
    ym_clearing *clearing = (ym_clearing *)(void *)room(CLEARING, sizeof *clearing);
    for (long i = 0; i < rounds; i++) {
        receive(receiver, ask);
        send(sender, fill);
        read_frame();
        read_pieces(reader, header);
        whole_frame(reader);
        lines(line, clearing);
    }
    for (int i = 0; i < 4; i++) wants(rounds < 20000 || asked[i], "some ask never came");
    for (int i = 0; i < 3; i++) wants(rounds < 20000 || filled[i], "some fill never came");
    for (int i = 0; i < 3; i++) wants(rounds < 20000 || in_vain[i], "some wait never ended so");
    printf("%ld rounds\n", rounds);
    return 0;
}
