/* ym_receive and ym_send over a line that is played: how each way to end is told, with a clock
   that runs and with one that stands still. One line for each that is told otherwise. usage:
   io */
#include "ymodem_io.h"

#include <stdio.h>
#include <string.h>

static int broken;

static void wants(int holds, const char *what) {
    if (holds) return;
    fprintf(stderr, "io: %s\n", what);
    broken = 1;
}

/* What comes, each piece at one read, an empty one for a quiet line; behind it the line is quiet,
   or drips one byte each so many milliseconds, for ever or for so long, or is closed. What was
   written, and when the first and the second time; the write of this number fails, if any does. */
struct played {
    const char *const *comes;
    const size_t *sizes;
    size_t count, at, written, closed_behind, unwritten;
    uint64_t now, drips, drips_for, first, second;
    int stands_still;
    uint8_t last[1029];
};

static struct played played_of(const char *const *comes, const size_t *sizes, size_t count) {
    struct played it;
    memset(&it, 0, sizeof it);
    it.comes = comes;
    it.sizes = sizes;
    it.count = count;
    return it;
}

static void again(struct played *it) {
    it->at = it->written = 0;
    it->now = 0;
}

static void passes(struct played *it, uint64_t milliseconds) {
    if (!it->stands_still) it->now += milliseconds;
}

static int plays(void *user, uint8_t *bytes, size_t len, uint32_t milliseconds) {
    struct played *it = user;
    size_t at = it->at++, size = at < it->count ? it->sizes[at] : 0;
    wants(size <= len && milliseconds <= 60000, "a read asks for a piece, a minute at most");
    if (it->closed_behind && at >= it->closed_behind) return -1;
    int is_dry = it->drips_for && it->now >= it->drips_for;
    if (at >= it->count && it->drips && !is_dry && it->drips <= milliseconds) {
        passes(it, it->drips);
        bytes[0] = 'y';
        return 1;
    }
    if (!size) passes(it, milliseconds);
    if (size) memcpy(bytes, it->comes[at], size);
    return (int)size;
}

static int writes(void *user, const uint8_t *bytes, size_t len) {
    struct played *it = user;
    if (!len || len > sizeof it->last) return -1;
    memcpy(it->last, bytes, len);
    if (++it->written == 1) it->first = it->now;
    if (it->written == 2) it->second = it->now;
    return it->written == it->unwritten ? -1 : 0;
}

static uint64_t tells(void *user) { return ((struct played *)user)->now; }

/* The call of the host that fails, and what it answers then. */
enum call { NONE, BEGIN, ADD, COMMIT, ABOUT, FILL };
static enum call failing;
static int cannot;

static int does(enum call it, int holds) { return it != failing && holds ? 1 : cannot; }

static int begins(void *user, const ym_file *file) {
    *(uint64_t *)user = file->length;
    return does(BEGIN, file->length != 7);
}

static int adds(void *user, const uint8_t *bytes, size_t len) {
    (void)user;
    return does(ADD, bytes[0] == 'x' && len > 0);
}

static int commits(void *user) {
    (void)user;
    return does(COMMIT, 1);
}

static ym_error receives(struct played *it, int stands_still) {
    uint64_t length = 0;
    ym_io io = { it, plays, writes, tells };
    ym_sink sink = { &length, begins, adds, commits };
    it->stands_still = stands_still;
    return ym_receive(&io, &sink);
}

/* A file of 3 bytes, which has another length once this was told so often, if ever. */
static struct { unsigned told, once; uint64_t length; } changed;

static int about(void *user, size_t file, ym_file *about) {
    const char *name = user;
    int is_other = changed.once && changed.told++ >= changed.once;
    memset(about, 0, sizeof *about);
    about->name = (const uint8_t *)name;
    about->name_len = strlen(name);
    about->length = is_other ? changed.length : 3;
    return does(ABOUT, file == 0);
}

static int fills(void *user, size_t file, uint64_t start, uint8_t *bytes, size_t len) {
    (void)user;
    memset(bytes, 'x', len);
    return does(FILL, file == 0 && start == 0 && len == 3);
}

static ym_error sends(struct played *it, char *name, size_t files) {
    uint64_t blocks[2];
    ym_io io = { it, plays, writes, tells };
    ym_source source = { name, files, blocks, about, fills };
    return ym_send(&io, &source);
}

#define COUNT(of) (sizeof(of) / sizeof *(of))

static void nobody(int stands_still) {
    struct played it = played_of(NULL, NULL, 0);
    wants(receives(&it, stands_still) == YM_ERROR_TOO_MANY, "a receiver without a sender");
    wants(it.written == 10 && it.last[0] == 0x18, "it asks nine times, and cancels");
    wants(stands_still || it.first == 3000, "it listens for three seconds before it asks");
    wants(stands_still || (it.now > 20000 && it.now < 40000), "it waits three seconds each time");
    again(&it);
    wants(sends(&it, "name", 1) == YM_ERROR_NO_REPLY, "a sender without a receiver");
    wants(it.written == 1 && it.last[0] == 0x18, "it cancels");
}

/* What begins as a block and is none is not heard, nor what comes behind it within a second. */
static void drips(int stands_still) {
    static const char *const comes[] = { "\x01x\x87" };
    static const size_t sizes[] = { 3 };
    struct played it = played_of(comes, sizes, COUNT(sizes));
    it.drips = 300;
    it.stands_still = stands_still;
    wants(sends(&it, "name", 1) == YM_ERROR_NO_REPLY, "a sender on a line that drips");
    wants(it.written == 1 && it.last[0] == 0x18, "it cancels");
    wants(stands_still || (it.now > 90000 && it.now < 130000), "its waits are over by the clock");
}

/* The same behind a byte of a reply: the delivery is over once nothing came for a second, or where
   a wait for a reply would be. */
static void drips_behind_noise(void) {
    static const char *const comes[] = { "C", "y", "\x01x\x87" };
    static const size_t sizes[] = { 1, 1, 3 };
    struct played it = played_of(comes, sizes, COUNT(sizes));
    it.drips = 300;
    it.drips_for = 6000;
    wants(sends(&it, "name", 1) == YM_ERROR_NO_REPLY, "a sender whose reply drips");
    wants(it.second == 7000, "it writes again into a line that is quiet");
    again(&it);
    it.drips_for = 0;
    wants(sends(&it, "name", 1) == YM_ERROR_NO_REPLY, "a sender whose reply drips for ever");
    wants(it.second >= 10000 && it.second <= 10300, "it waits no longer than for a reply");
}

static void cancelled(void) {
    static const char *const comes[] = { "\x18\x18" };
    static const size_t sizes[] = { 2 };
    struct played it = played_of(comes, sizes, COUNT(sizes));
    wants(receives(&it, 0) == YM_ERROR_CANCELLED && !it.written, "a sender that cancels");
    again(&it);
    wants(sends(&it, "name", 1) == YM_ERROR_CANCELLED && !it.written, "a receiver that cancels");
}

static void line_fails(void) {
    struct played it = played_of(NULL, NULL, 0);
    it.closed_behind = 2;
    wants(receives(&it, 0) == YM_ERROR_LINE && it.written == 2, "a line that fails");
    again(&it);
    wants(sends(&it, "name", 1) == YM_ERROR_LINE, "a line that fails a sender");
}

/* A batch of one file: C, ACK C, ACK, NAK, ACK C, ACK; the last is heard when no more comes. */
static const char *const replies[] = { "C", "\x06" "C", "\x06", "\x15", "\x06" "C", "\x06" };
static const size_t reply_sizes[] = { 1, 2, 1, 1, 2, 1 };

static void sent(void) {
    char name[257] = { 0 };
    struct played it = played_of(replies, reply_sizes, COUNT(reply_sizes));
    wants(sends(&it, "name", 1) == YM_DONE, "a batch");
    wants(it.written == 5 && it.last[0] == 1 && it.last[3] == 0, "five frames, the end block last");
    wants(it.now == 25, "a fortieth of a second is waited for, behind the last ACK");
    again(&it);
    wants(sends(&it, "a/b", 1) == YM_ERROR_NAME_UNSAFE, "a name with a slash");
    wants(it.written == 1 && it.last[0] == 0x18, "CAN CAN in place of its header");
    again(&it);
    wants(sends(&it, "", 1) == YM_ERROR_NAME_EMPTY && it.written == 1, "no name");
    again(&it);
    memset(name, 'n', 256);
    wants(sends(&it, name, 1) == YM_ERROR_NAME_LONG && it.written == 1, "a name of 256 bytes");
    again(&it);
    wants(sends(&it, "name", 2) == YM_ERROR_FILES, "a file of which nothing is told");
    wants(it.written == 1 && it.last[0] == 0x18 && !it.now, "CAN CAN at once");
    again(&it);
    wants(sends(&it, "name", 65536) == YM_ERROR_MOST_FILES, "too many files");
    wants(it.written == 1 && it.last[0] == 0x18 && !it.now, "CAN CAN in place of them");
}

/* A batch of no file is its end block. */
static void none(void) {
    static const char *const comes[] = { "C", "\x06" };
    static const size_t sizes[] = { 1, 1 };
    struct played it = played_of(comes, sizes, COUNT(sizes));
    wants(sends(&it, "name", 0) == YM_DONE && it.written == 1, "a batch of no file");
    wants(it.last[0] == 1 && it.last[3] == 0, "the end block alone");
}

/* Who answers the end block may close the line behind its ACK; behind any other that is no end. */
static void closed(void) {
    struct played it = played_of(replies, reply_sizes, COUNT(reply_sizes));
    it.closed_behind = COUNT(reply_sizes);
    wants(sends(&it, "name", 1) == YM_DONE && it.written == 5, "closed behind the last ACK");
    while (--it.closed_behind) {
        again(&it);
        wants(sends(&it, "name", 1) == YM_ERROR_LINE, "closed behind another one");
    }
}

static size_t frame_of(uint32_t number, const char *text, size_t len, uint8_t *frame) {
    uint8_t bytes[128] = { 0 };
    memcpy(bytes, text, len);
    return ym_frame_write(number, bytes, 128, frame, 133);
}

/* Its own echo stands before what comes, and noise. */
static void received(void) {
    uint8_t zero[134], one[133], end[133];
    const char *comes[] = {
        "", (char *)zero, (char *)one, "\x04", "\x04", "noise", "", (char *)end
    };
    size_t sizes[] = { 0, 134, 133, 1, 1, 5, 0, 133 };
    struct played it = played_of(comes, sizes, COUNT(sizes));
    zero[0] = 0x43;
    frame_of(0, "f\0" "3", 3, zero + 1);
    frame_of(1, "xyz", 3, one);
    frame_of(0, "", 0, end);
    wants(receives(&it, 0) == YM_DONE && it.last[0] == 0x06, "a batch behind an echo and noise");
    frame_of(0, "f\0" "7", 3, zero + 1);
    again(&it);
    wants(receives(&it, 0) == YM_ERROR_FILES && it.last[0] == 0x18, "a file that is refused");
    frame_of(0, "f\0x", 3, zero + 1);
    again(&it);
    wants(receives(&it, 0) == YM_ERROR_NO_LENGTH && it.last[0] == 0x18, "no length");
    frame_of(0, "f/g\0" "7", 5, zero + 1);
    again(&it);
    wants(receives(&it, 0) == YM_ERROR_NAME_UNSAFE && it.last[0] == 0x18, "a path");
    frame_of(0, "f\0" "9223372036854775808", 21, zero + 1);
    again(&it);
    wants(receives(&it, 0) == YM_ERROR_LENGTH_LARGE && it.last[0] == 0x18, "a length of 2^63");
    frame_of(9, "f\0" "3", 3, zero + 1);
    again(&it);
    wants(receives(&it, 0) == YM_ERROR_OUT_OF_STEP && it.last[0] == 0x18, "block 9 at first");
}

/* Behind the end block all files are kept, whether its ACK can be written or not. So it is behind
   no other reply. */
static void unwritten(void) {
    uint8_t zero[133], one[133], end[133];
    const char *comes[] = { (char *)zero, (char *)one, "\x04", "\x04", (char *)end };
    size_t sizes[] = { 133, 133, 1, 1, 133 };
    struct played it = played_of(comes, sizes, COUNT(sizes));
    frame_of(0, "f\0" "3", 3, zero);
    frame_of(1, "xyz", 3, one);
    frame_of(0, "", 0, end);
    it.unwritten = COUNT(sizes);
    wants(receives(&it, 0) == YM_DONE && it.written == COUNT(sizes), "an ACK of the end block");
    while (--it.unwritten) {
        again(&it);
        wants(receives(&it, 0) == YM_ERROR_LINE, "another reply that cannot be written");
    }
}

/* Block 0 once more is a repeat, and another one is out of step: it begins another file. */
static void repeated(void) {
    uint8_t zero[133], other[133], one[133], end[133];
    const char *comes[] = { (char *)zero, (char *)zero, (char *)one, "\x04", "\x04", (char *)end };
    size_t sizes[] = { 133, 133, 133, 1, 1, 133 };
    struct played it = played_of(comes, sizes, COUNT(sizes));
    frame_of(0, "f\0" "3", 3, zero);
    frame_of(0, "g\0" "3", 3, other);
    frame_of(1, "xyz", 3, one);
    frame_of(0, "", 0, end);
    wants(receives(&it, 0) == YM_DONE, "block 0 twice");
    comes[1] = (char *)other;
    again(&it);
    wants(receives(&it, 0) == YM_ERROR_OUT_OF_STEP, "another block 0");
    wants(it.written == 2 && it.last[0] == 0x18, "it is cancelled");
}

/* A file whose length changes under way is not sent on. */
static void changes(void) {
    static const struct { unsigned once; uint64_t length; size_t written; } those[] = {
        { 1, 200, 1 }, { 2, 2, 2 }, { 2, 4, 2 }, { 2, 0, 2 }
    };
    struct played it = played_of(replies, reply_sizes, COUNT(reply_sizes));
    for (size_t i = 0; i < COUNT(those); i++) {
        again(&it);
        changed.told = 0;
        changed.once = those[i].once;
        changed.length = those[i].length;
        wants(sends(&it, "name", 1) == YM_ERROR_FILES, "a file whose length changes");
        wants(it.written == those[i].written && it.last[0] == 0x18, "it is cancelled");
    }
    changed.once = 0;
}

/* A call of the host that answers 0, or below, has failed. */
static void fails(void) {
    uint8_t zero[133], one[133], end[133];
    const char *comes[] = { (char *)zero, (char *)one, "\x04", "\x04", (char *)end };
    size_t sizes[] = { 133, 133, 1, 1, 133 };
    struct played in = played_of(comes, sizes, COUNT(sizes));
    struct played out = played_of(replies, reply_sizes, COUNT(reply_sizes));
    frame_of(0, "f\0" "3", 3, zero);
    frame_of(1, "xyz", 3, one);
    frame_of(0, "", 0, end);
    for (cannot = 0; cannot >= -2; cannot--) {
        for (failing = BEGIN; failing <= COMMIT; failing = (enum call)(failing + 1)) {
            again(&in);
            wants(receives(&in, 0) == YM_ERROR_FILES, "a call of a sink that fails");
            wants(in.last[0] == 0x18, "its sender is told");
        }
        for (failing = ABOUT; failing <= FILL; failing = (enum call)(failing + 1)) {
            again(&out);
            wants(sends(&out, "name", 1) == YM_ERROR_FILES, "a call of a source that fails");
            wants(out.last[0] == 0x18, "its receiver is told");
        }
    }
    failing = NONE;
    cannot = 0;
    again(&in);
    wants(receives(&in, 0) == YM_DONE, "a batch of which no call fails");
}

/* Each error has a name of its own. */
static void texts(void) {
    wants(!strcmp(ym_text(YM_DONE), "done"), "the text of a batch that is through");
    wants(!strcmp(ym_text(YM_ERROR_NO_LENGTH), "a file has no length"), "that of a fault");
    for (int one = YM_DONE; one <= YM_ERROR_LENGTH_LARGE + 1; one++) {
        int known = one <= YM_ERROR_LENGTH_LARGE;
        wants(!strcmp(ym_text((ym_error)one), "unknown") == !known, "an error without a text");
        for (int other = YM_DONE; other < one; other++) {
            wants(strcmp(ym_text((ym_error)one), ym_text((ym_error)other)), "two of one text");
        }
    }
}

int main(void) {
    nobody(0);
    nobody(1);
    drips(0);
    drips(1);
    drips_behind_noise();
    cancelled();
    line_fails();
    sent();
    none();
    closed();
    received();
    unwritten();
    repeated();
    changes();
    fails();
    texts();
    return broken;
}
