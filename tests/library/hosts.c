/* ym_receive and ym_send over hosts of many kinds, to a peer that is the other end step by step:
   reads that bring a byte at a time, clocks that stand still, jump back or wrap at 32 bits, and
   each call of a host failing in turn. One line for each that ends otherwise. usage: hosts */
#include "ymodem_io.h"

#include <stdio.h>
#include <string.h>

static int broken;

static void wants(int holds, const char *what, unsigned long at) {
    if (holds) return;
    fprintf(stderr, "hosts: %s, %lu\n", what, at);
    broken = 1;
}

enum { MOST_FILES = 17, QUEUE = 1 << 13 };

/* The lengths of a batch's files: "a", "b" and so on. */
struct batch {
    size_t count;
    uint64_t lengths[MOST_FILES];
};

static uint8_t byte_of(size_t file, uint64_t at) { return (uint8_t)(at * 31 + at / 251 + file); }

/* The calls of a host, and which of them fails, when, and what it answers then. Behind it a host
   that is mute writes no more. */
enum call { READ, WRITE, BEGIN, ADD, COMMIT, ABOUT, FILL, CALLS };
enum reading { PIECES, BYTES, PAIRS };
enum clock { RUNS, STANDS_STILL, JUMPS_BACK, WRAPS, CLOCKS };

struct host {
    const struct batch *batch;
    enum reading reading;
    enum clock clock;
    uint64_t now;
    enum call failing;
    unsigned long fails_at, made[CALLS], files_behind;
    int cannot, has_failed, is_mute;
    /* What comes to the end that is tried, and the other end. */
    uint8_t queue[QUEUE];
    size_t head, tail;
    int receives, is_cancelled;
    ym_receiver receiver;
    ym_sender sender;
    uint64_t blocks[MOST_FILES];
    /* What the end that receives has. */
    size_t stored;
    uint64_t taken;
    int is_open, has_stamp, is_wrong;
};

static int fails(struct host *it, enum call call) {
    it->made[call]++;
    if (it->has_failed && call >= BEGIN) it->files_behind++;
    if (call != it->failing || it->made[call] != it->fails_at) return 0;
    it->has_failed = 1;
    return 1;
}

static void sends(struct host *it, const uint8_t *bytes, size_t len) {
    while (len--) it->queue[it->tail++ % QUEUE] = *bytes++;
}

/* ---- Files: each begins where none is open, has its bytes, and is whole when it is kept. */

static void begins(struct host *it, const uint8_t *name, uint64_t len, uint64_t length) {
    int is_next = it->stored < it->batch->count && !it->is_open;
    it->is_wrong |= !is_next || len != 1 || name[0] != 'a' + it->stored;
    it->is_wrong |= !is_next || length != it->batch->lengths[it->stored];
    it->is_open = 1;
    it->taken = 0;
}

static void adds(struct host *it, const uint8_t *bytes, uint64_t len) {
    it->is_wrong |= !it->is_open || !len;
    for (; len; len--) it->is_wrong |= *bytes++ != byte_of(it->stored, it->taken++);
}

static void commits(struct host *it) {
    it->is_wrong |= !it->is_open || it->taken != it->batch->lengths[it->stored];
    it->is_open = 0;
    it->stored++;
}

static void fill_bytes(size_t file, uint64_t start, uint8_t *bytes, size_t len) {
    for (size_t i = 0; i < len; i++) bytes[i] = byte_of(file, start + i);
}

/* ---- The other end: each delivery as it is written, or none. */

static void peer_receives(struct host *it, const uint8_t *bytes, size_t len) {
    ym_ask ask;
    uint8_t reply[2];
    size_t at = 0, took;
    while (at < len && (took = ym_receiver_feed(&it->receiver, bytes + at, len - at))) at += took;
    ym_receiver_hear(&it->receiver, &ask);
    const uint8_t *told = it->receiver.held + ask.at;
    if (ask.kind == YM_BEGIN) begins(it, told, ask.count, ask.length);
    if (ask.kind == YM_BEGIN && ask.stamp) it->has_stamp = 1;
    if (ask.kind == YM_ADD) adds(it, told, ask.count);
    if (ask.kind == YM_COMMIT) commits(it);
    sends(it, reply, ym_receiver_answer(&it->receiver, 1, reply, sizeof reply));
    it->is_cancelled = it->receiver.stand.state == YM_CANCELLED;
}

static void peer_fills(struct host *it, const ym_fill *fill) {
    uint8_t body[1024], name[1] = { (uint8_t)('a' + fill->file) };
    uint64_t start, length = it->batch->lengths[fill->file % MOST_FILES];
    if (fill->kind == YM_FILL_HEADER) {
        it->is_wrong |= ym_sender_header(&it->sender, name, 1, length, 0, 0, 0) != 0;
    }
    if (fill->kind != YM_FILL_BLOCK) return;
    size_t size = ym_block_at(length, fill->number, &start);
    size_t len = length - start < size ? (size_t)(length - start) : size;
    fill_bytes(fill->file, start, body, len);
    memset(body + len, 0x1A, size - len);
    it->is_wrong |= ym_sender_block(&it->sender, body, size) != 0;
}

static void peer_sends(struct host *it, const uint8_t *bytes, size_t len) {
    static const uint8_t cancel[2] = { 0x18, 0x18 };
    ym_fill fill;
    ym_sender_hear(&it->sender, it->blocks, it->batch->count, bytes, len, &fill);
    peer_fills(it, &fill);
    uint32_t out = ym_sender_out(&it->sender, it->blocks, it->batch->count);
    if (out == YM_OUT_FRAME) sends(it, it->sender.frame, it->sender.len);
    if (out == YM_OUT_CANCEL) sends(it, cancel, sizeof cancel);
    it->is_cancelled = it->sender.state == YM_SEND_CANCELLED;
}

/* ---- The host */

static int host_read(void *user, uint8_t *bytes, size_t len, uint32_t milliseconds) {
    struct host *it = user;
    size_t most = it->reading == BYTES ? 1 : it->reading == PAIRS ? 2 : len, came = 0;
    if (fails(it, READ)) return it->cannot > 0 ? (int)len + it->cannot : it->cannot;
    /* a receiver asks for its first file where nothing comes */
    if (it->head == it->tail && milliseconds > 500 && !it->receives) peer_receives(it, bytes, 0);
    while (came < len && came < most && it->head < it->tail) {
        bytes[came++] = it->queue[it->head++ % QUEUE];
    }
    it->now += came ? 1 : milliseconds;
    return (int)came;
}

static int host_write(void *user, const uint8_t *bytes, size_t len) {
    struct host *it = user;
    if (fails(it, WRITE)) return it->cannot;
    if (it->is_mute && it->has_failed) return -1;
    if (it->receives) peer_sends(it, bytes, len);
    if (!it->receives) peer_receives(it, bytes, len);
    return 0;
}

static uint64_t host_clock(void *user) {
    struct host *it = user;
    switch (it->clock) {
    case STANDS_STILL: return 42;
    case JUMPS_BACK: return it->now % 7 == 3 ? it->now / 2 : it->now;
    case WRAPS: return (it->now + 0xFFFFFFFAu) & 0xFFFFFFFFu;
    default: return it->now;
    }
}

static int host_begin(void *user, const ym_file *file) {
    if (fails(user, BEGIN)) return ((struct host *)user)->cannot;
    begins(user, file->name, file->name_len, file->length);
    return 1;
}

static int host_add(void *user, const uint8_t *bytes, size_t len) {
    if (fails(user, ADD)) return ((struct host *)user)->cannot;
    adds(user, bytes, len);
    return 1;
}

static int host_commit(void *user) {
    if (fails(user, COMMIT)) return ((struct host *)user)->cannot;
    commits(user);
    return 1;
}

/* It tells no stamp, and leaves what would say so as it was. */
static int host_about(void *user, size_t file, ym_file *about) {
    static const uint8_t names[] = "abcdefghijklmnopq";
    struct host *it = user;
    if (fails(it, ABOUT)) return it->cannot;
    about->name = names + file;
    about->name_len = 1;
    about->length = it->batch->lengths[file];
    return 1;
}

static int host_fill(void *user, size_t file, uint64_t start, uint8_t *bytes, size_t len) {
    struct host *it = user;
    if (fails(it, FILL)) return it->cannot;
    it->is_wrong |= !len || start + len > it->batch->lengths[file];
    fill_bytes(file, start, bytes, len);
    return 1;
}

/* ---- What is tried */

/* What a call of before left on the stack. */
static void leave_rubbish(void) {
    volatile uint8_t bytes[20000];
    for (size_t i = 0; i < sizeof bytes; i++) bytes[i] = 0xA5;
}

static ym_error moves(struct host *it) {
    ym_io io = { it, host_read, host_write, host_clock };
    ym_sink sink = { it, host_begin, host_add, host_commit };
    uint64_t blocks[MOST_FILES];
    ym_source source = { it, it->batch->count, blocks, host_about, host_fill };
    for (size_t i = 0; i < it->batch->count; i++) {
        it->blocks[i] = ym_blocks_of(it->batch->lengths[i]);
    }
    ym_receiver_init(&it->receiver, 0);
    ym_sender_init(&it->sender, it->blocks, it->batch->count);
    leave_rubbish();
    return it->receives ? ym_receive(&io, &sink) : ym_send(&io, &source);
}

static const struct batch batches[] = {
    { 0, { 0 } },
    { 1, { 1500 } },
    { 17, { 0, 1, 127, 128, 129, 1023, 1024, 1025, 1151, 1152, 2048, 3000, 0, 0, 5, 128, 70001 } }
};
enum { BATCHES = sizeof batches / sizeof *batches };

static struct host host_of(size_t batch, int receives) {
    struct host it;
    memset(&it, 0, sizeof it);
    it.batch = &batches[batch];
    it.receives = receives;
    it.failing = CALLS;
    return it;
}

/* Each host moves each batch. */
static void each_host(int receives) {
    for (unsigned i = 0; i < BATCHES * 3 * CLOCKS; i++) {
        struct host it = host_of(i % BATCHES, receives);
        it.reading = (enum reading)(i / BATCHES % 3);
        it.clock = (enum clock)(i / BATCHES / 3);
        wants(moves(&it) == YM_DONE, receives ? "a receiver" : "a sender", i);
        wants(it.stored == it.batch->count && !it.is_wrong, "what is stored", i);
        wants(!it.has_stamp, "a stamp that nobody told", i);
    }
}

/* A call of files that fails is told, to the peer too, and is the last one: also where the line fails
   behind it. A line that fails is told, but where the batch is through. A read
   that tells more than it was asked for fails. */
static void fails_at(struct host it, enum call call, unsigned long at) {
    it.failing = call;
    it.fails_at = at;
    ym_error error = moves(&it);
    wants(!it.is_wrong && !it.files_behind, "calls of files behind one that failed", at);
    if (call >= BEGIN) {
        wants(error == YM_ERROR_FILES, "a call of files that fails", at);
        wants(it.is_mute || it.is_cancelled, "its peer is told", at);
    } else if (error == YM_DONE) {
        wants(it.stored == it.batch->count, "a line that fails at the end", at);
    } else {
        wants(error == YM_ERROR_LINE, "a line that fails", at);
    }
}

static void each_failure(size_t batch, int receives) {
    struct host host = host_of(batch, receives), well = host;
    wants(moves(&well) == YM_DONE, "a host of which no call fails", batch);
    for (unsigned call = 0; call < CALLS; call++) {
        for (unsigned long at = 1; at <= well.made[call]; at++) {
            host.cannot = -1;
            fails_at(host, (enum call)call, at);
            host.cannot = call == READ ? 100000 : 0;
            if (call == READ || call >= BEGIN) fails_at(host, (enum call)call, at);
            host.is_mute = 1;
            if (call >= BEGIN) fails_at(host, (enum call)call, at);
            host.is_mute = 0;
        }
    }
}

int main(void) {
    for (int receives = 0; receives < 2; receives++) {
        each_host(receives);
        for (size_t batch = 0; batch < BATCHES; batch++) each_failure(batch, receives);
    }
    return broken;
}
