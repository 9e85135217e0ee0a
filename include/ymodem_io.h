/* Receive or send a batch in one call, over a line and files of the host: ym_receive and ym_send.

   They block, and take no heap: what they need stands on the stack. Include this in one file of C
   or C++ beside ymodem.h. It is a loop over calls of the library, which are proved; the loop is C,
   and is not. What an end waits for, when it asks again, when it lets its line clear and what it
   does not hear is the rule of ym_line_*, docs/timing.md of the library's sources. */
#ifndef YMODEM_IO_H
#define YMODEM_IO_H

#include "ymodem.h"

/* Bytes that are read at once, and those of a delivery that a sender keeps. */
#ifndef YM_PIECE
#define YM_PIECE 240
#endif
#ifndef YM_DELIVERY
#define YM_DELIVERY 2048
#endif
#if YM_PIECE < 1
#error "YM_PIECE is at least 1"
#endif
#if YM_DELIVERY < 2
#error "YM_DELIVERY is at least 2"
#endif

/* Reads that one wait makes at most, and one line that is let clear. A sender's wait for a reply has
   parts of 2.5 seconds, and takes a minute at most. */
#ifndef YM_MOST_READS
#define YM_MOST_READS 65536
#endif
#if YM_MOST_READS < 24
#error "YM_MOST_READS is at least 24"
#endif

/* What may come of it: why the end ended, whether its last write went well or not. */
typedef enum ym_error {
    YM_DONE,               /* the batch is through */
    YM_ERROR_LINE,         /* the line could not be read or written */
    YM_ERROR_FILES,        /* the host could not do what was asked with a file */
    YM_ERROR_NO_REPLY,     /* ten deliveries in a row led a sender nowhere */
    YM_ERROR_TOO_MANY,     /* the same for a receiver, also where nothing came */
    YM_ERROR_CANCELLED,    /* the peer cancelled */
    YM_ERROR_OUT_OF_STEP,  /* a block came that is neither the next nor the last one */
    YM_ERROR_MOST_FILES,   /* one file more than a batch may have */
    /* The header of a file is refused, in the order of enum ym_fault: its name is empty, has more
       than 255 bytes, or is unsafe; it tells no length, or one above 2^63 - 1. */
    YM_ERROR_NAME_EMPTY, YM_ERROR_NAME_LONG, YM_ERROR_NAME_UNSAFE, YM_ERROR_NO_LENGTH,
    YM_ERROR_LENGTH_LARGE
} ym_error;

/* The line. Each answers below 0 where the line is closed, or fails. */
typedef struct ym_io {
    void *user;
    /* Reads what is there, at most len bytes; where nothing is, waits for it, so many milliseconds.
       Answers how many bytes came, without waiting for more; 0 only once that time is over. One
       that answers more than len has failed. */
    int (*read)(void *user, uint8_t *bytes, size_t len, uint32_t milliseconds);
    /* Writes all of it, and answers 0 or above. */
    int (*write)(void *user, const uint8_t *bytes, size_t len);
    /* Milliseconds of any clock, below 2^63. One that stands still, jumps back, or begins again at
       0 as a tick of 32 bits does, delays, and does no harm. */
    uint64_t (*clock)(void *user);
} ym_io;

/* What is told of a file. What `begin` is given, its name too, is there until `begin` returns. */
typedef struct ym_file {
    const uint8_t *name;   /* UTF-8, without a closing 00 */
    size_t name_len;       /* 1 to 255 */
    uint64_t length;       /* at most 2^63 - 1 */
    uint32_t stamp;        /* 0 none, 1 a time, 2 a time and a mode, as which any above counts */
    uint32_t mode;
    uint64_t time;         /* seconds since 1970; 0 is a time that is not known */
} ym_file;

/* Where files go. Each answers above 0; else it cannot, and then the transfer ends. */
typedef struct ym_sink {
    void *user;
    int (*begin)(void *user, const ym_file *file);
    int (*add)(void *user, const uint8_t *bytes, size_t len);
    int (*commit)(void *user);
} ym_sink;

/* Where files come from. Each answers above 0; else it cannot, and then the transfer ends. */
typedef struct ym_source {
    void *user;
    size_t files;          /* at most 65,535 */
    uint64_t *blocks;      /* room for a number a file, which ym_send writes; never NULL, also where
                              there is no file: calls of ymodem.h are given it */
    /* Tells of a file, counted from 0: at first of each, and again before a part of it is sent, and
       tells the same each time. What it leaves as it was is 0: no stamp, say. Where its length is
       another, it cannot be sent. The name has to stay until `about` is called again. */
    int (*about)(void *user, size_t file, ym_file *about);
    /* Reads len bytes of a file from a place on. */
    int (*fill)(void *user, size_t file, uint64_t start, uint8_t *bytes, size_t len);
} ym_source;

/* What an error is called. */
static inline const char *ym_text(ym_error error) {
    static const char *const texts[] = {
        "done", "the line failed", "a file failed", "no reply", "too many errors",
        "cancelled by the peer", "the peer is out of step", "too many files",
        "a file's name is empty", "a file's name has more than 255 bytes",
        "a file's name is unsafe", "a file has no length", "a file's length is above 2^63 - 1"
    };
    return (size_t)error < sizeof texts / sizeof *texts ? texts[(size_t)error] : "unknown";
}

/* The error of a header that is refused: they stand in the order of enum ym_fault. */
static inline ym_error ym_refused(uint32_t fault) {
    return (ym_error)(YM_ERROR_NAME_EMPTY + (fault - YM_NAME_EMPTY));
}

/* ---- The line */

/* An end of the line, and what it wrote last, which its caller has room for. A sender has room for
   a copy of its line, too; a receiver has none. */
typedef struct ym_end {
    const ym_io *io;
    ym_line line, *copy;
    uint64_t now;
    uint8_t *written;
    size_t written_len;
    uint8_t piece[YM_PIECE], heard[2 * YM_PIECE];
    int closed;
} ym_end;

static const uint8_t ym_can_can[2] = { 0x18, 0x18 };

static inline void ym_end_begin(ym_end *end, const ym_io *io, ym_line *copy, uint8_t *written) {
    end->io = io;
    end->now = end->written_len = 0;
    end->copy = copy;
    end->closed = 0;
    end->written = written;
    ym_line_init(&end->line, !copy);
}

static inline void ym_copy(uint8_t *to, const uint8_t *from, size_t len) {
    while (len--) *to++ = *from++;
}

static inline void ym_end_look(ym_end *end) {
    end->now = ym_line_now(&end->line, end->io->clock(end->io->user));
}

/* Reads what is there, or waits until then: how many bytes came into `piece`. */
static inline size_t ym_end_get(ym_end *end, uint64_t until, size_t most) {
    uint64_t wait = until > end->now ? until - end->now : 0;
    size_t len = most < YM_PIECE ? most : YM_PIECE;
    int came = end->io->read(end->io->user, end->piece, len, wait < 60000 ? (uint32_t)wait : 60000);
    if (came == 0) {
        end->now = ym_line_waited(&end->line, until, end->io->clock(end->io->user));
        return 0;
    }
    if (came < 0 || (size_t)came > len) {
        end->closed = 1;
        return 0;
    }
    ym_end_look(end);
    return (size_t)came;
}

static inline int ym_end_hears(ym_end *end, const uint8_t *bytes, size_t len) {
    ym_copy(end->heard, bytes, len);
    return (int)len;
}

/* Takes what came into `piece`: how many bytes of it are heard. A sender hears no reply behind
   which its peer cancels. */
static inline int ym_end_takes(ym_end *end, size_t came) {
    size_t len = ym_line_hear(&end->line, end->piece, came, end->written, end->written_len,
        end->now, end->heard, sizeof end->heard);
    if (end->copy && ym_line_cancels(end->heard, len)) return ym_end_hears(end, ym_can_can, 2);
    return (int)len;
}

/* Until when a wait goes on where bytes come of which none is heard: more of a delivery is waited
   for as long then as for a reply. A sender's wait for one has parts, and may end with an ACK that is
   held: of a copy of its line all are over. */
static inline uint64_t ym_end_last(const ym_end *end, uint32_t wait, uint64_t start) {
    if (!end->copy || wait == YM_WAIT_FIRST) return ym_line_until(&end->line, YM_WAIT_FIRST, start);
    *end->copy = end->line;
    while (ym_line_expired(end->copy, YM_WAIT_FIRST, end->now) != YM_VAIN_QUIET) continue;
    return ym_line_until(end->copy, YM_WAIT_FIRST, start);
}

/* Reads what is to be heard, at most so many bytes: how many came into `heard`; 0 where the line
   was quiet, and below 0 where it is closed. More of a delivery is waited for since anything came.
   A wait is over by the clock too, where bytes come of which none is heard; and who answers the end
   block may close the line behind its ACK. */
static inline int ym_end_read(ym_end *end, uint32_t wait, size_t most) {
    static const uint8_t ack[1] = { 0x06 };
    uint64_t start;
    uint32_t vain, reads;
    if (ym_line_cancelled(&end->line)) return ym_end_hears(end, ym_can_can, 2);
    if (end->closed) return -1;
    if (wait == YM_WAIT_FIRST) ym_end_look(end);
    start = end->now;
    for (reads = 0; reads < YM_MOST_READS; reads++) {
        uint64_t since = wait == YM_WAIT_FIRST ? start : end->now;
        size_t came = ym_end_get(end, ym_line_until(&end->line, wait, since), most);
        int heard = ym_end_takes(end, came);
        if (heard) return heard;
        if (came && end->now < ym_end_last(end, wait, start)) continue;
        vain = ym_line_expired(&end->line, wait, end->now);
        if (vain == YM_VAIN_ACK) return ym_end_hears(end, ack, 1);
        if (end->closed) return -1;
        if (vain == YM_VAIN_QUIET) return 0;
    }
    return 0;
}

/* Writes a frame or a reply, behind what has to clear before it. 0 where the line failed. */
static inline int ym_end_write(ym_end *end, const uint8_t *bytes, size_t len) {
    ym_clearing clearing;
    uint32_t reads;
    ym_end_look(end);
    ym_line_clearing(&end->line, bytes, len, end->now, &clearing);
    for (reads = 0; reads < YM_MOST_READS && !end->closed; reads++) {
        uint64_t until = ym_line_clear_at(&end->line, &clearing);
        if (until <= end->now) break;
        size_t came = ym_end_get(end, until, YM_PIECE);
        ym_line_drop(&end->line, &clearing, end->piece, came, end->written, end->written_len,
            end->now);
    }
    ym_line_wrote(&end->line, &clearing, bytes, len, end->now);
    ym_copy(end->written, bytes, len);
    end->written_len = len;
    return end->io->write(end->io->user, bytes, len) >= 0;
}

/* ---- The receiver */

/* Hears one delivery: to the end of a frame, and where it is none, until the line is quiet. */
static inline int ym_receive_one(ym_end *end, ym_receiver *receiver, ym_ask *ask) {
    size_t came = 0;
    while (came < 2048) {
        int heard = ym_end_read(end, came ? YM_WAIT_MORE : YM_WAIT_FIRST, 2048 - came);
        size_t len = heard > 0 ? (size_t)heard : 0, fed = 0, took;
        if (heard < 0) return 0;
        if (!len) break;
        came += len;
        do {
            took = ym_receiver_feed(receiver, end->heard + fed, len - fed);
            fed += took;
        } while (took && fed < len);
        if (ym_receiver_wants(receiver)) continue;
        ym_receiver_hear(receiver, ask);
        if (!ask->bad) return 1;
    }
    ym_receiver_hear(receiver, ask);
    return 1;
}

static inline int ym_receive_does(const ym_sink *sink, const ym_receiver *receiver,
    const ym_ask *ask) {
    const uint8_t *bytes = receiver->held + ask->at;
    ym_file file;
    switch (ask->kind) {
    case YM_BEGIN:
        file.name = bytes;
        file.name_len = (size_t)ask->count;
        file.length = ask->length;
        file.stamp = ask->stamp;
        file.mode = ask->mode;
        file.time = ask->time;
        return sink->begin(sink->user, &file) > 0;
    case YM_ADD: return sink->add(sink->user, bytes, (size_t)ask->count) > 0;
    case YM_COMMIT: return sink->commit(sink->user) > 0;
    default: return 1;
    }
}

/* The block 0 of the file under way: its length and its check. */
typedef struct ym_opening {
    uint32_t len;
    uint8_t check[2];
} ym_opening;

static inline ym_opening ym_opening_of(const ym_receiver *receiver) {
    ym_opening it = { receiver->len, { 0, 0 } };
    if (it.len < 2 || it.len > sizeof receiver->held) return it;
    ym_copy(it.check, receiver->held + it.len - 2, 2);
    return it;
}

/* Where only block 0 can come again, one with other bytes is out of step: another file began. */
static inline int ym_is_other_file(const ym_receiver *receiver, const ym_ask *ask, ym_opening old) {
    ym_opening it = ym_opening_of(receiver);
    if (!receiver->stand.in_file || receiver->stand.blocks || ask->bad) return 0;
    if (it.len < 133 || receiver->held[1] != 0) return 0;
    return it.len != old.len || it.check[0] != old.check[0] || it.check[1] != old.check[1];
}

static inline ym_error ym_received(const ym_stand *stand) {
    switch (stand->state) {
    case YM_FINISHED: return YM_DONE;
    case YM_TOO_MANY_ERRORS: return YM_ERROR_TOO_MANY;
    case YM_CANCELLED: return YM_ERROR_CANCELLED;
    case YM_OUT_OF_STEP: return YM_ERROR_OUT_OF_STEP;
    case YM_TOO_MANY_FILES: return YM_ERROR_MOST_FILES;
    case YM_BAD_HEADER: return ym_refused(stand->fault);
    default: return YM_ERROR_FILES;
    }
}

/* Receives a batch. It listens for 3 seconds before it asks for the first file. A file that was
   begun and not committed is the host's to take back. Behind the end block all files are kept: the
   batch is through, also where its ACK cannot be written. Where it gives up on a line that works,
   its sender was told by CAN CAN. It may be called again at once. */
static inline ym_error ym_receive(const ym_io *io, const ym_sink *sink) {
    ym_end end;
    ym_receiver receiver;
    ym_ask ask;
    ym_opening opening = { 0, { 0, 0 } };
    uint8_t reply[2], written[2];
    ym_end_begin(&end, io, NULL, written);
    ym_receiver_init(&receiver, 0);
    while (receiver.stand.state == YM_RUNNING) {
        if (!ym_receive_one(&end, &receiver, &ask)) return YM_ERROR_LINE;
        int other = ym_is_other_file(&receiver, &ask, opening);
        int done = !other && ym_receive_does(sink, &receiver, &ask);
        if (ask.kind == YM_BEGIN) opening = ym_opening_of(&receiver);
        size_t len = ym_receiver_answer(&receiver, (uint32_t)done, reply, sizeof reply);
        if (len && !ym_end_write(&end, reply, len) && receiver.stand.state == YM_RUNNING) {
            return YM_ERROR_LINE;
        }
        if (other) return YM_ERROR_OUT_OF_STEP;
    }
    return ym_received(&receiver.stand);
}

/* ---- The sender */

/* Of a data block of a file, counted from 1: where it starts, and its size. A block has 1024 bytes
   while as many remain, and then 128. */
static inline size_t ym_block_at(uint64_t length, uint64_t number, uint64_t *start) {
    uint64_t longs = length / 1024;
    *start = number <= longs ? (number - 1) * 1024 : longs * 1024 + (number - 1 - longs) * 128;
    return number <= longs ? 1024 : 128;
}

static inline uint64_t ym_blocks_of(uint64_t length) {
    return length / 1024 + (length % 1024 + 127) / 128;
}

static inline int ym_tells(const ym_source *source, size_t which, ym_file *file) {
    static const uint8_t nameless[1] = { 0 };
    file->name = nameless;
    file->name_len = 0;
    file->length = file->time = 0;
    file->stamp = file->mode = 0;
    return source->about(source->user, which, file) > 0;
}

/* `stated` is the length that block 0 told. */
static inline int ym_send_block(const ym_source *source, ym_sender *sender, const ym_fill *fill,
    uint64_t stated) {
    uint8_t body[1024];
    uint64_t start;
    ym_file file;
    size_t size, len, i;
    if (!ym_tells(source, fill->file, &file) || file.length != stated) return 0;
    size = ym_block_at(stated, fill->number, &start);
    if (start >= stated) return 0;
    len = stated - start < size ? (size_t)(stated - start) : size;
    for (i = len; i < size; i++) body[i] = 0x1A;
    if (source->fill(source->user, fill->file, start, body, len) <= 0) return 0;
    return ym_sender_block(sender, body, size) == 0;
}

static inline ym_error ym_send_header(const ym_source *source, ym_sender *sender, uint32_t which,
    uint64_t *stated) {
    ym_file file;
    uint32_t fault;
    if (!ym_tells(source, which, &file)) return YM_ERROR_FILES;
    if (ym_blocks_of(file.length) != source->blocks[which]) return YM_ERROR_FILES;
    *stated = file.length;
    fault = ym_sender_header(sender, file.name, file.name_len, file.length, file.stamp, file.time,
        file.mode);
    return fault ? ym_refused(fault) : YM_DONE;
}

static inline ym_error ym_send_fills(const ym_source *source, ym_sender *sender,
    const ym_fill *fill, uint64_t *stated) {
    if (fill->kind == YM_FILL_HEADER) return ym_send_header(source, sender, fill->file, stated);
    if (fill->kind != YM_FILL_BLOCK) return YM_DONE;
    return ym_send_block(source, sender, fill, *stated) ? YM_DONE : YM_ERROR_FILES;
}

/* Reads one delivery: how many bytes; below 0 where the line is closed. One byte may make two. */
static inline int ym_send_hears(ym_end *end, const ym_source *source, const ym_sender *sender,
    uint8_t *bytes) {
    size_t held = 0;
    while (held + 2 <= YM_DELIVERY) {
        int len = ym_end_read(end, held ? YM_WAIT_MORE : YM_WAIT_FIRST, (YM_DELIVERY - held) / 2);
        if (len < 0) return len;
        if (!len) break;
        ym_copy(bytes + held, end->heard, (size_t)len);
        held += (size_t)len;
        if (ym_sender_settled(sender, source->blocks, source->files, bytes, held)) break;
    }
    return (int)held;
}

/* Writes what is to be sent now. 0 where the line failed. */
static inline int ym_send_says(ym_end *end, const ym_source *source, const ym_sender *sender) {
    switch (ym_sender_out(sender, source->blocks, source->files)) {
    case YM_OUT_FRAME: return ym_end_write(end, sender->frame, sender->len);
    case YM_OUT_CANCEL: return ym_end_write(end, ym_can_can, 2);
    default: return 1;
    }
}

static inline ym_error ym_sent(uint32_t state) {
    switch (state) {
    case YM_SENT: return YM_DONE;
    case YM_NO_REPLY: return YM_ERROR_NO_REPLY;
    case YM_SEND_CANCELLED: return YM_ERROR_CANCELLED;
    default: return YM_ERROR_FILES;
    }
}

/* A batch that cannot be begun: who waits for its first file is told. */
static inline ym_error ym_send_none(ym_end *end, ym_error error) {
    ym_end_write(end, ym_can_can, 2);
    return error;
}

/* Sends a batch. Where it gives up on a line that works, its receiver was told by CAN CAN. It may
   be called again at once. */
static inline ym_error ym_send(const ym_io *io, const ym_source *source) {
    ym_end end;
    ym_line copy;
    ym_sender sender;
    ym_fill fill;
    ym_file file;
    uint8_t bytes[YM_DELIVERY], written[1029];
    uint64_t stated = 0;
    ym_error error = YM_DONE;
    size_t i;
    int len;
    ym_end_begin(&end, io, &copy, written);
    if (source->files > 65535) return ym_send_none(&end, YM_ERROR_MOST_FILES);
    for (i = 0; i < source->files; i++) {
        if (!ym_tells(source, i, &file)) return ym_send_none(&end, YM_ERROR_FILES);
        source->blocks[i] = ym_blocks_of(file.length);
    }
    ym_sender_init(&sender, source->blocks, source->files);
    while (sender.state == YM_SENDING) {
        len = ym_send_hears(&end, source, &sender, bytes);
        if (len < 0) return YM_ERROR_LINE;
        ym_sender_hear(&sender, source->blocks, source->files, bytes, (size_t)len, &fill);
        error = ym_send_fills(source, &sender, &fill, &stated);
        if (error != YM_DONE) ym_sender_failed(&sender, source->blocks, source->files);
        if (!ym_send_says(&end, source, &sender) && sender.state == YM_SENDING) {
            return YM_ERROR_LINE;
        }
    }
    return error != YM_DONE ? error : ym_sent(sender.state);
}

#endif
