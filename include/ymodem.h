/* YMODEM batch transfer for C: both ends as state machines that the caller drives, the frames, the
   check and block 0.

   Nothing here allocates, blocks, keeps anything between calls or calls back. All state stands in
   the structs below, in the caller's memory. Every function returns, whatever stands in a struct:
   numbers that no receiver or sender can have count as an end that has ended, which asks for
   nothing and sends nothing. A number that a call is given to say which of a few things is meant
   counts as the last of them where it is none: a stamp of 3 as 2, a confirm of 2 as 1. Four calls have their time, which stands beside them:
   ym_receiver_feed, ym_receiver_answer, ym_sender_header and ym_sender_block. At any other time
   they do nothing, nor does ym_sender_failed to a sender that has ended.

   What the caller keeps: a pointer is never NULL, not even with length 0, and points to as many
   bytes as its length says; no other pointer of the same call points into what a call writes; a
   struct is used by one call at a time.

   The structs have one layout in every ABI, which the end of this header asserts: each member
   stands at a multiple of its size, and what a compiler would fill in to a multiple of 8 is a
   member too. */
#ifndef YMODEM_H
#define YMODEM_H

#include <stddef.h>
#include <stdint.h>

/* The version of this header, and of the library and the program beside it. */
#define YM_VERSION "0.2.0"

/* At the first member of a struct: at a multiple of 8, on i386 too, where `uint64_t` is at one of
   4. */
#if defined(__cplusplus) && __cplusplus >= 201103L
#define YM_ALIGNED alignas(8)
#elif defined(__STDC_VERSION__) && __STDC_VERSION__ >= 201112L
#define YM_ALIGNED _Alignas(8)
#elif defined(__GNUC__)
#define YM_ALIGNED __attribute__((aligned(8)))
#else
#define YM_ALIGNED
#endif

#ifdef __cplusplus
extern "C" {
#endif

/* ---- The receiver ---- */

enum ym_state {
    YM_RUNNING,
    YM_FINISHED,
    YM_TOO_MANY_ERRORS,
    YM_CANCELLED,
    YM_OUT_OF_STEP,
    YM_TOO_MANY_FILES,
    YM_HOST_FAILED,
    YM_BAD_HEADER
};

/* Why a block 0 or a header is refused. */
enum ym_fault { YM_NAME_EMPTY = 1, YM_NAME_LONG, YM_NAME_UNSAFE, YM_NO_LENGTH, YM_LENGTH_LARGE };

/* What a receiver asks of its host. */
enum ym_kind { YM_NOTHING, YM_BEGIN, YM_ADD, YM_COMMIT };

/* Where a receiver stands. */
typedef struct ym_stand {
    YM_ALIGNED uint64_t length;    /* while a file is taken: the length that its header states, */
    uint64_t taken;     /* how many of its bytes were taken, */
    uint64_t blocks;    /* and how many data blocks */
    uint32_t files;     /* files committed */
    uint32_t state;     /* enum ym_state */
    uint32_t fault;     /* at YM_BAD_HEADER: enum ym_fault */
    uint32_t in_file;   /* 1 while a file is taken */
    uint32_t first_eot; /* 1 where its first EOT has come */
    uint32_t retries;   /* deliveries in a row without progress; the tenth ends it */
    uint32_t confirm;   /* 0: the first EOT of a file is questioned; 1: it is not */
    uint32_t unused;
} ym_stand;

/* A receiver, and the bytes of the delivery that is coming. Read it, and let the functions write
   it. */
typedef struct ym_receiver {
    YM_ALIGNED ym_stand stand;     /* where it stands */
    ym_stand next;      /* where it will stand once ym_receiver_answer is called */
    uint32_t reply;
    uint32_t len;       /* how many bytes of the delivery are held */
    uint8_t held[1029];
    uint8_t unused[3];
} ym_receiver;

typedef struct ym_ask {
    YM_ALIGNED uint64_t length;    /* YM_BEGIN: the length of the file */
    uint64_t time;      /* YM_BEGIN, where stamp is 1 or 2: seconds since 1970 */
    uint64_t count;     /* YM_BEGIN, YM_ADD: how many bytes the name has, or are to be stored; they
                           stand at held + at */
    uint32_t kind;      /* enum ym_kind */
    uint32_t at;
    uint32_t stamp;     /* YM_BEGIN: 0 none, 1 a time, 2 a time and a mode */
    uint32_t mode;      /* YM_BEGIN, where stamp is 2 */
    uint32_t bad;       /* 1: no frame was heard. Where bytes came (len is not 0), and bad or the
                           receiver's stand.retries is not 0, read on until the line has been quiet
                           for a second, and then answer */
    uint32_t unused;
} ym_ask;

/* Makes a receiver that awaits its first file, whatever stood there. confirm 0: the first EOT of a
   file is questioned. */
void ym_receiver_init(ym_receiver *receiver, uint32_t confirm);

/* Takes bytes as they come, and tells how many it took. Call it again with the rest; 0 where the
   delivery is whole. Behind ym_receiver_hear it takes none, until ym_receiver_answer. */
size_t ym_receiver_feed(ym_receiver *receiver, const uint8_t *bytes, size_t len);

/* 0: hear now, or answer what was heard. Else at least so many bytes are missing, at most 1029:
   read on, and hear when the line has been quiet. */
size_t ym_receiver_wants(const ym_receiver *receiver);

/* Hears what was fed, and tells what is to be done before the answer. */
void ym_receiver_hear(ym_receiver *receiver, ym_ask *ask);

/* Takes the step that was heard: done is 0 where the host failed at what was asked, and then a
   receiver that runs ends, with CAN CAN; one that has ended stays as it is. Writes the reply, for
   which 2 bytes suffice, and tells its length; where there is not room for all of it, nothing is
   written. The next delivery begins. Where nothing was heard, nothing is done. */
size_t ym_receiver_answer(ym_receiver *receiver, uint32_t done, uint8_t *reply, size_t room);

/* ---- The sender ---- */

enum ym_send_state { YM_SENDING, YM_SENT, YM_NO_REPLY, YM_SEND_CANCELLED, YM_SOURCE_FAILED };

/* What ym_sender_out says is to be sent. */
enum ym_out { YM_OUT_NOTHING, YM_OUT_FRAME, YM_OUT_CANCEL };

/* What is to be filled. */
enum ym_fill_kind { YM_FILL_NOTHING, YM_FILL_HEADER, YM_FILL_BLOCK };

/* What ym_sender_header and ym_sender_block answer where no such frame is to be filled. */
enum { YM_NOT_NOW = 7 };

/* A sender, and the frame that was filled last. */
typedef struct ym_sender {
    YM_ALIGNED uint64_t number;    /* at a data block: its number, counted from 1 */
    uint32_t file;      /* the file, counted from 0 */
    uint32_t len;       /* how many bytes the frame has */
    uint32_t place;     /* 0 block 0, 1 a data block, 2 EOT, 3 the end block */
    uint32_t mode;      /* 0 it waits for C, 1 the frame is out */
    uint32_t retries;   /* deliveries in a row without progress; the tenth ends it */
    uint32_t state;     /* enum ym_send_state */
    uint32_t cancel_pending; /* 1 where CAN CAN is still to go */
    uint8_t frame[1029];
    uint8_t unused[7];
} ym_sender;

typedef struct ym_fill {
    YM_ALIGNED uint64_t number;    /* YM_FILL_BLOCK: the data block, counted from 1 */
    uint32_t kind;      /* enum ym_fill_kind */
    uint32_t file;      /* the file, counted from 0 */
} ym_fill;

/* A batch is given at each call as the number of data blocks of each file, which stays the same; at
   most 65,535 files. A sender of more counts as one that has ended. */

/* Makes a sender that waits for the first C. */
void ym_sender_init(ym_sender *sender, const uint64_t *blocks, size_t files);

/* 1: these bytes can be heard now; 0: read on until the line is quiet, or the wait for a reply is
   over. */
uint32_t ym_sender_settled(const ym_sender *sender, const uint64_t *blocks, size_t files,
    const uint8_t *bytes, size_t len);

/* Hears a delivery, of no bytes too, and tells what is to be filled by ym_sender_header or
   ym_sender_block. Where nothing is, the frame stays as it was. Rubbish becomes a sender that has
   ended. */
void ym_sender_hear(ym_sender *sender, const uint64_t *blocks, size_t files, const uint8_t *bytes,
    size_t len, ym_fill *fill);

/* Makes the frame of a file's block 0, once, where ym_sender_hear told YM_FILL_HEADER: stamp 0
   none, 1 the time, 2 the time and the mode. Answers 0, or an enum ym_fault, the first that
   applies, or YM_NOT_NOW, and then has done nothing: the frame is empty until it is filled. */
uint32_t ym_sender_header(ym_sender *sender, const uint8_t *name, size_t name_len, uint64_t length,
    uint32_t stamp, uint64_t time, uint32_t mode);

/* Makes the frame of the data block that the sender stands at, once, where ym_sender_hear told
   YM_FILL_BLOCK: 128 or 1024 bytes, the file's last ones filled up with 1A. Answers 0, or 1 where
   there are more or fewer, or YM_NOT_NOW, and then has done nothing. */
uint32_t ym_sender_block(ym_sender *sender, const uint8_t *body, size_t len);

/* The frame cannot be filled, or the host wants to end: a sender that runs ends, with CAN CAN to
   go. One that has ended stays as it is. */
void ym_sender_failed(ym_sender *sender, const uint64_t *blocks, size_t files);

/* What is to be sent now (enum ym_out): the frame, of len bytes, or 18 18. */
uint32_t ym_sender_out(const ym_sender *sender, const uint64_t *blocks, size_t files);

/* ---- Frames ---- */

enum ym_front_kind { YM_FRONT_OPEN, YM_FRONT_BLOCK, YM_FRONT_EOT, YM_FRONT_CANCEL, YM_FRONT_NONE };

typedef struct ym_front {
    YM_ALIGNED uint32_t kind;      /* enum ym_front_kind; YM_FRONT_OPEN: it may go on to a frame */
    uint32_t number;    /* YM_FRONT_BLOCK: the block's number, 0 to 255 */
    uint64_t size;      /* YM_FRONT_BLOCK: its body's bytes, 128 or 1024, which stand behind the
                           first three bytes */
    uint64_t length;    /* how many bytes the frame has; without one: where no frame can go on */
} ym_front;

/* The 16-bit check of these bytes. */
uint32_t ym_check(const uint8_t *bytes, size_t len);

/* Tells what stands at the front of some bytes. */
void ym_frame_read(const uint8_t *bytes, size_t len, ym_front *front);

/* Makes the frame of the block of this number, modulo 256, and this body at the front of `frame`,
   and answers its length, 133 or 1029. 0 where the body has neither 128 nor 1024 bytes, or the
   frame has no room. The bytes behind stay as they were. */
size_t ym_frame_write(uint32_t number, const uint8_t *body, size_t len, uint8_t *frame,
    size_t room);

/* ---- Frames in pieces ---- */

/* Why no frame can come any more. */
enum ym_why { YM_WHY_FIRST_BYTE = 1, YM_WHY_COMPLEMENT, YM_WHY_CHECK, YM_WHY_SECOND_CAN };

/* A reader, and the bytes of the frame that is coming. Read it, and let the functions write it. */
typedef struct ym_reader {
    YM_ALIGNED uint64_t place;     /* where why is not 0: the place of the first byte that no frame
                                      can have there */
    uint32_t len;       /* how many bytes are held; 0 behind a whole frame */
    uint32_t why;       /* 0, or an enum ym_why */
    uint8_t held[1029];
    uint8_t unused[3];
} ym_reader;

/* Makes a reader to which nothing came, whatever stood there. */
void ym_reader_init(ym_reader *reader);

/* Takes bytes, tells how many, and what they make of those before; call it again with the rest.
   Behind a whole frame the reader is new, and the frame's bytes stand in `held` until it is fed
   again. At YM_FRONT_NONE it takes all, until ym_reader_init; so does rubbish. */
size_t ym_reader_feed(ym_reader *reader, const uint8_t *bytes, size_t len, ym_front *front);

/* ---- Block 0 ---- */

enum ym_header_kind { YM_HEADER_NONE, YM_HEADER_FILE, YM_HEADER_END };

typedef struct ym_header {
    YM_ALIGNED uint64_t length;    /* YM_HEADER_FILE: the length of the file */
    uint64_t time;      /* YM_HEADER_FILE, where stamp is 1 or 2: seconds since 1970 */
    uint32_t kind;      /* enum ym_header_kind */
    uint32_t fault;     /* YM_HEADER_NONE: enum ym_fault; 0 where the body has neither 128 nor 1024
                           bytes */
    uint32_t name_len;  /* YM_HEADER_FILE: how many bytes the name has, which stands at the front of
                           the body */
    uint32_t stamp;     /* YM_HEADER_FILE: 0 none, 1 a time, 2 a time and a mode */
    uint32_t mode;      /* YM_HEADER_FILE, where stamp is 2 */
    uint32_t unused;
} ym_header;

/* Tells what the body of a block 0 stands for. */
void ym_header_read(const uint8_t *body, size_t len, ym_header *header);

/* Writes the body of a file's block 0 to the front of `body`, which has room for 1024 bytes.
   Answers how many it has, 128 or 1024; or why there is no such header, an enum ym_fault; or 0
   where there is less room. The bytes behind stay as they were, and where it answers no size, all
   of them. The body that ends a batch is 128 bytes 00. */
uint32_t ym_header_write(const uint8_t *name, size_t name_len, uint64_t length, uint32_t stamp,
    uint64_t time, uint32_t mode, uint8_t *body, size_t room);

/* ---- The line ----

   When an end waits, asks again and lets its line clear, and what it does not hear: the rule of
   docs/timing.md of the sources. ymodem_io.h, beside this header, is a loop over these calls. Times
   are milliseconds of any clock that ym_line_now has made one that never runs backwards. Whatever
   stands in these structs is a line, or a clearing. */

/* What an end and its line have said of late, and when. */
typedef struct ym_line {
    YM_ALIGNED uint64_t kept[24];
} ym_line;

/* How far a line is clear. */
typedef struct ym_clearing {
    YM_ALIGNED uint64_t kept[4];
} ym_clearing;

/* What a read waits for: the first bytes of a delivery, or more of it. */
enum ym_wait { YM_WAIT_FIRST, YM_WAIT_MORE };

/* What a read that waited in vain comes to. */
enum ym_vain { YM_VAIN_AGAIN, YM_VAIN_ACK, YM_VAIN_QUIET };

/* Makes the line of an end that said and heard nothing: receives is 0 for a sender. */
void ym_line_init(ym_line *line, uint32_t receives);

/* The time, where the clock tells this: never less than before. */
uint64_t ym_line_now(ym_line *line, uint64_t clock);

/* The time, where a read waited until then in vain and the clock tells this. */
uint64_t ym_line_waited(ym_line *line, uint64_t until, uint64_t clock);

/* Until when a read waits that began then (enum ym_wait). */
uint64_t ym_line_until(const ym_line *line, uint32_t wait, uint64_t start);

/* Takes that a wait is over now, in which nothing came that is to be heard, or that the line
   closed. Tells what that is (enum ym_vain): it waits on; an ACK that came before is heard; or
   nothing is. */
uint32_t ym_line_expired(ym_line *line, uint32_t wait, uint64_t now);

/* Takes bytes that came now, where `written` was written last, and puts what is to be heard of them
   to the front of `heard`, which has room for twice as many. Tells how many bytes that are. Where
   there is less room, nothing is done. */
size_t ym_line_hear(ym_line *line, const uint8_t *bytes, size_t len, const uint8_t *written,
    size_t written_len, uint64_t now, uint8_t *heard, size_t room);

/* 1 where CAN CAN stands among bytes that a sender is to hear: a reply before it is none. */
uint32_t ym_line_cancels(const uint8_t *bytes, size_t len);

/* 1 where CAN CAN came while the line cleared, and is to be heard now; it is so once. */
uint32_t ym_line_cancelled(ym_line *line);

/* Begins a write of these bytes. */
void ym_line_clearing(const ym_line *line, const uint8_t *bytes, size_t len, uint64_t now,
    ym_clearing *clearing);

/* Until when what comes is dropped before it; 0 where nothing is to be. */
uint64_t ym_line_clear_at(const ym_line *line, const ym_clearing *clearing);

/* Takes bytes that came now and are dropped, where `written` was written last. */
void ym_line_drop(ym_line *line, ym_clearing *clearing, const uint8_t *bytes, size_t len,
    const uint8_t *written, size_t written_len, uint64_t now);

/* Takes that these bytes are written now, behind this clearing. */
void ym_line_wrote(ym_line *line, const ym_clearing *clearing, const uint8_t *bytes, size_t len,
    uint64_t now);

/* ---- The layout of the structs ---- */

#if defined(__cplusplus) && __cplusplus >= 201103L
#define YM_ASSERT(holds) static_assert(holds, "the layout of the structs of ymodem.h")
#elif defined(__STDC_VERSION__) && __STDC_VERSION__ >= 201112L
#define YM_ASSERT(holds) _Static_assert(holds, "the layout of the structs of ymodem.h")
#else
/* Each by a name of its own, for who wants no declaration twice (-Wredundant-decls). */
#define YM_ASSERT_AS(line, holds) extern char ym_layout_##line[(holds) ? 1 : -1]
#define YM_ASSERT_AT(line, holds) YM_ASSERT_AS(line, holds)
#define YM_ASSERT(holds) YM_ASSERT_AT(__LINE__, holds)
#endif
#define YM_SIZE(type, size) YM_ASSERT(sizeof(type) == (size))
#define YM_AT(type, member, offset) YM_ASSERT(offsetof(type, member) == (offset))

YM_SIZE(ym_stand, 56);
YM_AT(ym_stand, length, 0);
YM_AT(ym_stand, taken, 8);
YM_AT(ym_stand, blocks, 16);
YM_AT(ym_stand, files, 24);
YM_AT(ym_stand, state, 28);
YM_AT(ym_stand, fault, 32);
YM_AT(ym_stand, in_file, 36);
YM_AT(ym_stand, first_eot, 40);
YM_AT(ym_stand, retries, 44);
YM_AT(ym_stand, confirm, 48);

YM_SIZE(ym_receiver, 1152);
YM_AT(ym_receiver, stand, 0);
YM_AT(ym_receiver, next, 56);
YM_AT(ym_receiver, reply, 112);
YM_AT(ym_receiver, len, 116);
YM_AT(ym_receiver, held, 120);

YM_SIZE(ym_ask, 48);
YM_AT(ym_ask, length, 0);
YM_AT(ym_ask, time, 8);
YM_AT(ym_ask, count, 16);
YM_AT(ym_ask, kind, 24);
YM_AT(ym_ask, at, 28);
YM_AT(ym_ask, stamp, 32);
YM_AT(ym_ask, mode, 36);
YM_AT(ym_ask, bad, 40);

YM_SIZE(ym_sender, 1072);
YM_AT(ym_sender, number, 0);
YM_AT(ym_sender, file, 8);
YM_AT(ym_sender, len, 12);
YM_AT(ym_sender, place, 16);
YM_AT(ym_sender, mode, 20);
YM_AT(ym_sender, retries, 24);
YM_AT(ym_sender, state, 28);
YM_AT(ym_sender, cancel_pending, 32);
YM_AT(ym_sender, frame, 36);

YM_SIZE(ym_fill, 16);
YM_AT(ym_fill, number, 0);
YM_AT(ym_fill, kind, 8);
YM_AT(ym_fill, file, 12);

YM_SIZE(ym_front, 24);
YM_AT(ym_front, kind, 0);
YM_AT(ym_front, number, 4);
YM_AT(ym_front, size, 8);
YM_AT(ym_front, length, 16);

YM_SIZE(ym_reader, 1048);
YM_AT(ym_reader, place, 0);
YM_AT(ym_reader, len, 8);
YM_AT(ym_reader, why, 12);
YM_AT(ym_reader, held, 16);

YM_SIZE(ym_header, 40);
YM_AT(ym_header, length, 0);
YM_AT(ym_header, time, 8);
YM_AT(ym_header, kind, 16);
YM_AT(ym_header, fault, 20);
YM_AT(ym_header, name_len, 24);
YM_AT(ym_header, stamp, 28);
YM_AT(ym_header, mode, 32);

YM_SIZE(ym_line, 192);
YM_SIZE(ym_clearing, 32);

#undef YM_AT
#undef YM_SIZE
#undef YM_ASSERT
#undef YM_ASSERT_AT
#undef YM_ASSERT_AS
#undef YM_ALIGNED

#ifdef __cplusplus
}
#endif

#endif
