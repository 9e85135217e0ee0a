/* What include/ymodem.h says of calls at the wrong time, of rubbish, and of what is left as it was.
   One line for each promise that is broken. usage: promises */
#include "ymodem.h"

#include <stdio.h>
#include <string.h>

static int broken;

static void wants(int holds, const char *what) {
    if (holds) return;
    fprintf(stderr, "promises: %s\n", what);
    broken = 1;
}

#define SAME(one, other) (memcmp(&(one), &(other), sizeof(one)) == 0)

static const uint64_t blocks[] = { 2, 1 };
static const uint8_t body[1024];

/* ---- The sender */

static uint32_t hears(ym_sender *sender, const char *bytes, size_t len) {
    ym_fill fill;
    ym_sender_hear(sender, blocks, 2, (const uint8_t *)bytes, len, &fill);
    return fill.kind;
}

static uint32_t header(ym_sender *sender) {
    return ym_sender_header(sender, (const uint8_t *)"name", 4, 1100, 0, 0, 0);
}

/* Each call to fill does nothing. */
static void fills_nothing(const ym_sender *sender, const char *what) {
    ym_sender now = *sender;
    wants(header(&now) == YM_NOT_NOW && SAME(now, *sender), what);
    wants(ym_sender_block(&now, body, 1024) == YM_NOT_NOW && SAME(now, *sender), what);
    wants(ym_sender_block(&now, body, 7) == YM_NOT_NOW && SAME(now, *sender), what);
}

static void frames_in_time(void) {
    ym_sender sender, before;
    memset(&sender, 0xa5, sizeof sender);
    ym_sender_init(&sender, blocks, 2);
    fills_nothing(&sender, "nothing is filled before the first C");
    wants(hears(&sender, "C", 1) == YM_FILL_HEADER, "the header is to be filled");
    before = sender;
    wants(ym_sender_block(&sender, body, 1024) == YM_NOT_NOW, "no block in place of a header");
    wants(ym_sender_header(&sender, body, 0, 9, 0, 0, 0) == YM_NAME_EMPTY, "no name");
    wants(SAME(before, sender) && sender.len == 0, "a refused header leaves no frame");
    wants(header(&sender) == 0 && sender.len == 133, "the header is filled");
    fills_nothing(&sender, "a header is filled once");
    wants(hears(&sender, "\x06" "C", 2) == YM_FILL_BLOCK, "block 1 is to be filled");
    wants(header(&sender) == YM_NOT_NOW, "no header in place of a block");
    wants(ym_sender_block(&sender, body, 1023) == 1 && sender.len == 0, "no block of 1023 bytes");
    wants(ym_sender_block(&sender, body, 1024) == 0 && sender.len == 1029, "block 1 is filled");
    fills_nothing(&sender, "a block is filled once");
    wants(hears(&sender, "\x15", 1) == YM_FILL_NOTHING && sender.len == 1029, "it goes again");
    fills_nothing(&sender, "a block that goes again stays");
    wants(hears(&sender, "\x06", 1) == YM_FILL_BLOCK, "block 2 is to be filled");
    wants(ym_sender_block(&sender, body, 128) == 0 && sender.len == 133, "block 2 is filled");
    wants(hears(&sender, "\x06", 1) == YM_FILL_NOTHING && sender.len == 1, "the EOT is out");
    fills_nothing(&sender, "no block while the EOT is out");
    wants(ym_sender_out(&sender, blocks, 2) == YM_OUT_FRAME && sender.frame[0] == 4, "an EOT");
}

static void ended_senders(void) {
    for (uint32_t state = YM_SENT; state <= YM_SOURCE_FAILED; state++) {
        ym_sender sender, before;
        memset(&sender, 0, sizeof sender);
        ym_sender_init(&sender, blocks, 2);
        sender.state = state;
        before = sender;
        ym_sender_failed(&sender, blocks, 2);
        wants(SAME(before, sender), "a sender that has ended does not fail");
        wants(ym_sender_out(&sender, blocks, 2) == YM_OUT_NOTHING, "it says nothing more");
        fills_nothing(&sender, "it fills nothing");
    }
}

static void running_fails(void) {
    ym_sender sender;
    ym_sender_init(&sender, blocks, 2);
    wants(hears(&sender, "C", 1) == YM_FILL_HEADER, "the header is to be filled");
    ym_sender_failed(&sender, blocks, 2);
    wants(ym_sender_out(&sender, blocks, 2) == YM_OUT_CANCEL, "one that runs says CAN CAN");
    wants(hears(&sender, "", 0) == YM_FILL_NOTHING, "then nothing");
    wants(ym_sender_out(&sender, blocks, 2) == YM_OUT_NOTHING, "and CAN CAN once");
}

/* Numbers that no sender of the batch has are one that has ended. */
static void no_sender(const ym_sender *rubbish, const char *what) {
    ym_sender now = *rubbish;
    wants(ym_sender_out(&now, blocks, 2) == YM_OUT_NOTHING, what);
    wants(ym_sender_settled(&now, blocks, 2, body, 0) == 1, what);
    ym_sender_failed(&now, blocks, 2);
    wants(SAME(now, *rubbish), what);
    wants(hears(&now, "C", 1) == YM_FILL_NOTHING, what);
    wants(now.state == YM_NO_REPLY && now.len == 0, what);
    wants(ym_sender_out(&now, blocks, 2) == YM_OUT_NOTHING, what);
    now = *rubbish, now.len = now.len > 1029 ? now.len : 0;
    header(&now);
    ym_sender_block(&now, body, 1024);
    wants(ym_sender_out(&now, blocks, 2) == YM_OUT_NOTHING, what);
}

static void rubbish_senders(void) {
    ym_sender good, it;
    memset(&good, 0, sizeof good);
    ym_sender_init(&good, blocks, 2);
    wants(hears(&good, "C", 1) == YM_FILL_HEADER && header(&good) == 0, "a header is out");
    wants(ym_sender_out(&good, blocks, 2) == YM_OUT_FRAME, "it is sent");
    it = good, it.place = 4, no_sender(&it, "place 4 is no end block");
    it = good, it.file = 2, no_sender(&it, "a file past the batch");
    it = good, it.place = 1, it.number = 0, no_sender(&it, "block 0 of a file's data");
    it = good, it.place = 1, it.number = 3, no_sender(&it, "a block past the file");
    it = good, it.mode = 2, no_sender(&it, "mode 2");
    it = good, it.retries = 10, no_sender(&it, "ten retries and it runs");
    it = good, it.retries = 256, no_sender(&it, "256 retries");
    it = good, it.state = 5, no_sender(&it, "state 5");
    it = good, it.cancel_pending = 2, no_sender(&it, "two CAN CAN to go");
    it = good, it.cancel_pending = 2, it.place = 1, it.number = 1, no_sender(&it, "at a block");
    it = good, it.len = 1030, no_sender(&it, "a frame longer than its room");
}

/* ---- The receiver */

static size_t frame_of(uint32_t number, const char *text, size_t len, uint8_t *frame) {
    uint8_t bytes[128] = { 0 };
    memcpy(bytes, text, len);
    return ym_frame_write(number, bytes, 128, frame, 133);
}

/* How many bytes of these are taken. */
static size_t fed(ym_receiver *receiver, const char *bytes, size_t len) {
    size_t used = 0, took;
    do {
        took = ym_receiver_feed(receiver, (const uint8_t *)bytes + used, len - used);
        used += took;
    } while (took && used < len);
    return used;
}

static void hears_frame(ym_receiver *receiver, const uint8_t *frame, size_t len, ym_ask *ask) {
    wants(fed(receiver, (const char *)frame, len) == len, "a frame is fed");
    wants(ym_receiver_wants(receiver) == 0, "it is whole");
    ym_receiver_hear(receiver, ask);
}

static void answers_in_time(void) {
    ym_receiver receiver, before;
    ym_ask ask;
    uint8_t frame[133], reply[4] = { 9, 9, 9, 9 };
    memset(&receiver, 0x5a, sizeof receiver);
    ym_receiver_init(&receiver, 0);
    before = receiver;
    wants(ym_receiver_answer(&receiver, 0, reply, 4) == 0 && SAME(before, receiver), "unheard");
    wants(reply[0] == 9, "nothing is written where nothing was heard");
    wants(fed(&receiver, "\x01\x01", 2) == 2, "two bytes are fed");
    ym_receiver_hear(&receiver, &ask);
    wants(ask.bad == 1 && ask.kind == YM_NOTHING, "they are no frame");
    before = receiver;
    wants(fed(&receiver, "\xfe", 1) == 0, "none between");
    wants(SAME(before, receiver), "no byte is lost between hear and answer");
    wants(ym_receiver_wants(&receiver) == 0, "none is missing between hear and answer");
    wants(ym_receiver_answer(&receiver, 1, reply, 1) == 1 && reply[0] == 0x43, "C in one byte");
    wants(reply[1] == 9, "the bytes behind a reply stay");
    wants(fed(&receiver, "\x01", 1) == 1, "the next delivery");
    ym_receiver_init(&receiver, 0);
    hears_frame(&receiver, frame, frame_of(0, "a\0" "3", 3, frame), &ask);
    wants(ask.kind == YM_BEGIN && ask.length == 3, "a file begins");
    reply[0] = 9;
    wants(ym_receiver_answer(&receiver, 1, reply, 1) == 0 && reply[0] == 9, "half an ACK C");
}

static void finished_stays(void) {
    ym_receiver receiver;
    ym_ask ask;
    uint8_t frame[133], reply[2];
    ym_receiver_init(&receiver, 0);
    for (int again = 0; again < 3; again++) {
        hears_frame(&receiver, frame, frame_of(0, "", 0, frame), &ask);
        wants(ask.kind == YM_NOTHING, "the end block asks nothing");
        wants(ym_receiver_answer(&receiver, again == 0, reply, 2) == 1 && reply[0] == 6, "its ACK");
        wants(receiver.stand.state == YM_FINISHED, "a receiver that has finished does not fail");
    }
}

static void fails_while_it_runs(void) {
    ym_receiver receiver;
    ym_ask ask;
    uint8_t reply[2];
    ym_receiver_init(&receiver, 0);
    ym_receiver_hear(&receiver, &ask);
    wants(ym_receiver_answer(&receiver, 0, reply, 2) == 2 && reply[1] == 0x18, "CAN CAN");
    wants(receiver.stand.state == YM_HOST_FAILED, "one that runs fails");
}

/* An answer that says nothing, of a receiver that has ended behind it. */
static void answers_nothing(ym_receiver *receiver, uint32_t done, const char *what) {
    uint8_t reply[2] = { 9, 9 };
    wants(ym_receiver_answer(receiver, done, reply, 2) == 0, what);
    wants(reply[0] == 9 && reply[1] == 9, what);
    wants(receiver->stand.state == YM_HOST_FAILED && receiver->len == 0, what);
    wants(receiver->reply == 0, what);
}

/* Nothing was heard, and nothing is answered. */
static int unheard(ym_receiver *receiver, uint32_t done) {
    uint8_t reply[2] = { 9, 9 };
    return ym_receiver_answer(receiver, done, reply, 2) == 0 && reply[0] == 9;
}

/* Numbers that no receiver has are one that has ended: it asks nothing and says nothing, whether
   its host did what was asked or not, and whether it has heard, or stands so as if it had. */
static void no_receiver(const ym_receiver *rubbish, const char *what) {
    for (uint32_t done = 0; done < 2; done++) {
        ym_receiver now = *rubbish, before;
        ym_ask ask;
        ym_receiver_hear(&now, &ask);
        wants(ask.kind == YM_NOTHING, what);
        answers_nothing(&now, done, what);
        for (uint32_t reply = 1; reply <= 6; reply++) {
            now = *rubbish;
            now.reply = reply;
            answers_nothing(&now, done, what);
        }
        before = now = *rubbish;
        wants(unheard(&now, done) && SAME(now, before), what);
    }
}

static void rubbish_receivers(void) {
    ym_receiver good, it;
    ym_ask ask;
    uint8_t frame[133], reply[2];
    memset(&good, 0, sizeof good);
    ym_receiver_init(&good, 0);
    hears_frame(&good, frame, frame_of(0, "a\0" "3", 3, frame), &ask);
    wants(ym_receiver_answer(&good, 1, reply, 2) == 2, "a file has begun");
    frame_of(1, "abc", 3, frame);
    wants(fed(&good, (const char *)frame, 133) == 133, "its block is held");
    it = good, it.stand.state = 8, no_receiver(&it, "state 8");
    it = good, it.stand.fault = 1, no_receiver(&it, "a fault of a receiver that runs");
    it = good, it.stand.in_file = 2, no_receiver(&it, "in two files");
    it = good, it.stand.first_eot = 2, no_receiver(&it, "two first EOTs");
    it = good, it.stand.confirm = 2, no_receiver(&it, "confirm 2");
    it = good, it.stand.retries = 10, no_receiver(&it, "ten retries and it runs");
    it = good, it.stand.retries = 266, no_receiver(&it, "266 retries");
    it = good, it.stand.taken = 4, no_receiver(&it, "more bytes than the file has");
    it = good, it.stand.blocks = 9, no_receiver(&it, "blocks without bytes");
    it = good, it.stand.files = 65535, no_receiver(&it, "one file too many");
    it = good, it.len = 1030, no_receiver(&it, "more bytes held than there is room");
    wants(fed(&it, "\x01", 1) == 0 && ym_receiver_wants(&it) == 0, "no byte more");
    ym_receiver_hear(&good, &ask);
    wants(ask.kind == YM_ADD && ask.count == 3, "bytes are to be added");
    it = good, it.next.state = 8, answers_nothing(&it, 1, "rubbish that is to come has ended");
    it = good, it.next.state = 8, answers_nothing(&it, 0, "nor does its host's failure cancel");
    it = good, it.len = 1030, answers_nothing(&it, 1, "more bytes held behind what was heard");
    it = good, it.len = 1030, answers_nothing(&it, 0, "and they cancel nothing");
    it = good, it.reply = 7;
    wants(ym_receiver_answer(&it, 1, reply, 2) == 0 && it.reply == 7, "a reply of no number");
}

/* ---- Frames, and block 0 */

static int all_nine(const uint8_t *bytes, size_t len) {
    for (size_t i = 0; i < len; i++) if (bytes[i] != 9) return 0;
    return 1;
}

static void buffers_stay(void) {
    uint8_t frame[1100], out[1100];
    ym_reader reader, before;
    ym_front front;
    memset(frame, 9, sizeof frame);
    wants(ym_frame_write(1, body, 128, frame, sizeof frame) == 133, "a frame");
    wants(all_nine(frame + 133, sizeof frame - 133), "the bytes behind a frame stay");
    memset(out, 9, sizeof out);
    wants(ym_frame_write(1, body, 128, out, 132) == 0 && all_nine(out, 1100), "no room");
    wants(ym_frame_write(1, body, 127, out, 1100) == 0 && all_nine(out, 1100), "127 bytes");
    wants(ym_header_write(body, 0, 1, 0, 0, 0, out, 1100) == YM_NAME_EMPTY, "no name");
    wants(ym_header_write(frame + 500, 1, 1, 0, 0, 0, out, 1023) == 0, "no room for a header");
    wants(all_nine(out, 1100), "a header that is not written writes nothing");
    wants(ym_header_write((const uint8_t *)"a", 1, 1, 0, 0, 0, out, 1100) == 128, "a header");
    wants(all_nine(out + 128, 1100 - 128), "the bytes behind a header stay");
    memset(&reader, 0, sizeof reader);
    ym_reader_init(&reader);
    reader.why = 9;
    before = reader;
    wants(ym_reader_feed(&reader, frame, 133, &front) == 133, "a reader of rubbish takes all");
    wants(front.kind == YM_FRONT_NONE && SAME(before, reader), "and finds nothing");
    ym_reader_init(&reader);
    reader.len = 1030;
    wants(ym_reader_feed(&reader, frame, 133, &front) == 133, "so does one of too many bytes");
    wants(front.kind == YM_FRONT_NONE, "and it finds nothing");
}

/* ---- Numbers that say which of a few things is meant: one that is none counts as the last. */

static void no_such_stamp(uint32_t stamp) {
    const uint8_t *name = (const uint8_t *)"a";
    uint8_t one[1024], other[1024];
    ym_sender sender, same;
    memset(one, 0, sizeof one);
    memset(other, 0, sizeof other);
    wants(ym_header_write(name, 1, 1, 2, 3, 4, one, 1024) == 128, "a stamp of 2");
    wants(ym_header_write(name, 1, 1, stamp, 3, 4, other, 1024) == 128, "a stamp above 2");
    wants(SAME(one, other), "a stamp above 2 counts as 2");
    memset(&sender, 0, sizeof sender);
    ym_sender_init(&sender, blocks, 2);
    wants(hears(&sender, "C", 1) == YM_FILL_HEADER, "a header is to be filled");
    same = sender;
    wants(ym_sender_header(&sender, name, 1, 1100, 2, 3, 4) == 0, "a header by 2");
    wants(ym_sender_header(&same, name, 1, 1100, stamp, 3, 4) == 0, "a header by one above");
    wants(SAME(sender, same), "it counts as 2 there too");
}

static void no_such_number(uint32_t number) {
    ym_receiver receiver, same;
    ym_line line, copy;
    memset(&receiver, 0, sizeof receiver);
    same = receiver;
    ym_receiver_init(&receiver, 1);
    ym_receiver_init(&same, number);
    wants(SAME(receiver, same), "confirm above 1 counts as 1");
    ym_line_init(&line, 1);
    ym_line_init(&copy, number);
    wants(SAME(line, copy), "whatever is not 0 receives");
    wants(ym_line_until(&line, YM_WAIT_MORE, 9) == ym_line_until(&line, number, 9), "more");
    wants(ym_line_until(&line, YM_WAIT_FIRST, 9) != ym_line_until(&line, number, 9), "not first");
    wants(ym_line_expired(&line, YM_WAIT_MORE, 9) == ym_line_expired(&copy, number, 9), "is over");
    wants(SAME(line, copy), "it is over alike");
}

int main(void) {
    no_such_stamp(3);
    no_such_stamp(~0u);
    no_such_number(2);
    no_such_number(~0u);
    frames_in_time();
    ended_senders();
    running_fails();
    rubbish_senders();
    answers_in_time();
    finished_stays();
    fails_while_it_runs();
    rubbish_receivers();
    buffers_stay();
    return broken;
}
