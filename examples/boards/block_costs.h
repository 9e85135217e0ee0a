/* What blocks of 1024 bytes take in the library's calls: so many of them, in each of three ways. */
#ifndef BLOCK_COSTS_H
#define BLOCK_COSTS_H

#include "ymodem.h"

/* A receiver that awaits block 1 of a large file, and the frame of that block. */
static ym_receiver costs_receiver;
static ym_stand costs_stand;
static uint8_t costs_body[1024], costs_frame[1029];

static void costs_begin(void) {
    static const uint8_t name[] = "file";
    ym_ask ask;
    uint8_t reply[2];
    uint32_t len = ym_header_write(name, 4, 1u << 30, 0, 0, 0, costs_body, sizeof costs_body);
    size_t size = ym_frame_write(0, costs_body, len, costs_frame, sizeof costs_frame), used = 0;
    ym_receiver_init(&costs_receiver, 0);
    while (used < size) {
        used += ym_receiver_feed(&costs_receiver, costs_frame + used, size - used);
    }
    ym_receiver_hear(&costs_receiver, &ask);
    ym_receiver_answer(&costs_receiver, 1, reply, sizeof reply);
    costs_stand = costs_receiver.stand;
    for (size_t i = 0; i < sizeof costs_body; i++) costs_body[i] = (uint8_t)(i * 7);
    ym_frame_write(1, costs_body, sizeof costs_body, costs_frame, sizeof costs_frame);
}

/* Hears block 1, and stands before it again. 0 where it is not heard as that. */
static int costs_hear(void) {
    ym_ask ask;
    uint8_t reply[2];
    ym_receiver_hear(&costs_receiver, &ask);
    if (ask.kind != YM_ADD || ask.count != 1024) return 0;
    if (ym_receiver_answer(&costs_receiver, 1, reply, sizeof reply) != 1) return 0;
    costs_receiver.stand = costs_stand;
    return 1;
}

/* Each frame is fed at once, or what is wanted of it. */
static int costs_in_bulk(uint32_t blocks) {
    while (blocks--) {
        size_t used = 0, took;
        do {
            took = ym_receiver_feed(&costs_receiver, costs_frame + used, sizeof costs_frame - used);
            used += took;
        } while (took && used < sizeof costs_frame);
        if (!costs_hear()) return 0;
    }
    return 1;
}

/* Each byte is asked for and fed alone. */
static int costs_by_bytes(uint32_t blocks) {
    while (blocks--) {
        for (size_t i = 0; ym_receiver_wants(&costs_receiver); i++) {
            ym_receiver_feed(&costs_receiver, costs_frame + i, 1);
        }
        if (!costs_hear()) return 0;
    }
    return 1;
}

/* Each block is made at the ACK of the one before. */
static int costs_of_sender(uint32_t blocks) {
    static ym_sender sender;
    static const uint64_t counts[1] = { 1u << 30 };
    static const uint8_t name[] = "file", start[] = "C", ack_start[] = "\x06" "C", ack[] = "\x06";
    ym_fill fill;
    ym_sender_init(&sender, counts, 1);
    ym_sender_hear(&sender, counts, 1, start, 1, &fill);
    if (ym_sender_header(&sender, name, 4, (uint64_t)1 << 40, 0, 0, 0)) return 0;
    ym_sender_hear(&sender, counts, 1, ack_start, 2, &fill);
    while (blocks--) {
        if (fill.kind != YM_FILL_BLOCK) return 0;
        if (ym_sender_block(&sender, costs_body, sizeof costs_body)) return 0;
        if (ym_sender_out(&sender, counts, 1) != YM_OUT_FRAME) return 0;
        if (!ym_sender_settled(&sender, counts, 1, ack, 1)) return 0;
        ym_sender_hear(&sender, counts, 1, ack, 1, &fill);
    }
    return 1;
}

#endif
