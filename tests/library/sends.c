/* Senders: that of the library beside the engine that `ymodem send` runs. */
#include "beside.h"

#include <stdio.h>
#include <string.h>

/* ---- The files that are sent */

enum { FILES = 5 };

static const uint64_t lengths[FILES] = { 0, 1, 1500, 3073, 1024 };
static uint8_t contents[FILES][4096];
static char names[FILES][8];

void make_files(void) {
    seed(88172645463325253ull);
    for (int i = 0; i < FILES; i++) {
        some(contents[i], (size_t)lengths[i]);
        snprintf(names[i], sizeof names[i], "file%d", i);
    }
}

/* ---- Both senders */

struct batch { unsigned first; size_t count; uint64_t blocks[FILES]; int is_short; };

uint64_t blocks_of(uint64_t length, int is_short) {
    return is_short ? (length + 127) / 128 : length / 1024 + (length % 1024 + 127) / 128;
}

static int fills(ym_sender *sender, const struct batch *batch, const ym_fill *what) {
    unsigned file = batch->first + what->file;
    uint8_t body[1024];
    if (what->kind == YM_FILL_HEADER) {
        return ym_sender_header(sender, (const uint8_t *)names[file], strlen(names[file]), lengths[file], 0, 0, 0) == 0;
    }
    if (what->kind == YM_FILL_NOTHING) return 1;
    uint64_t longs = batch->is_short ? 0 : lengths[file] / 1024;
    uint64_t start = what->number <= longs ? (what->number - 1) * 1024 : longs * 1024 + (what->number - 1 - longs) * 128;
    size_t size = what->number <= longs ? 1024 : 128, left = (size_t)(lengths[file] - start);
    memset(body, 0x1a, sizeof body);
    memcpy(body, contents[file] + start, left < size ? left : size);
    return ym_sender_block(sender, body, size) == 0;
}

/* A reply: noise and control bytes, up to where the sender needs no more. Most streams are calm, and repeat nothing. */
static size_t a_reply(const ym_sender *sender, const struct batch *batch, int is_calm, int gives_up, uint8_t *bytes) {
    static const uint8_t controls[] = { 0x06, 0x06, 0x06, 0x06, 0x43, 0x43, 0x15, 0x18 }, progress[] = { 0x06, 0x43 };
    size_t len = 0;
    while (len < DELIVERY && !ym_sender_settled(sender, batch->blocks, batch->count, bytes, len)) {
        uint8_t next = (uint8_t)below(256);
        if (gives_up) next = 0x15;
        else if (below(3)) next = is_calm ? progress[sender->mode == 0 || memchr(bytes, 0x06, len) != NULL] : controls[below(sizeof controls)];
        else if (is_calm && (next == 0x15 || next == 0x43 || next == 0x18 || next == 0x06)) next = 0;
        if (!is_calm && !gives_up && len == 0 && below(150) == 0) {
            some(bytes, DELIVERY);
            for (size_t i = 0; i < DELIVERY; i++) {
                if (memchr("\x06\x15\x18\x43", bytes[i], 4)) bytes[i] = 0;
            }
            return DELIVERY;
        }
        bytes[len++] = next;
    }
    return len;
}

static const char *const sent[] = { "Running", "Finished", "NoReply", "Cancelled", "SourceFailed" };

static FILE *file_in(const char *folder, const char *name) {
    char path[600];
    snprintf(path, sizeof path, "%s/%s", folder, name);
    FILE *it = fopen(path, "w");
    wants(it != NULL, "a file");
    return it;
}

static void spell(FILE *it, const uint8_t *bytes, size_t len) {
    for (size_t i = 0; i < len; i++) fprintf(it, "%02x", bytes[i]);
}

/* What was written: each frame once, and CAN CAN. */
struct written { uint8_t bytes[MOST * 1029 + 2]; size_t len; };

static void keep(struct written *it, const uint8_t *bytes, size_t len) {
    memcpy(it->bytes + it->len, bytes, len);
    it->len += len;
}

int sends(const char *folder) {
    static const uint8_t cancel[2] = { 0x18, 0x18 };
    static FILE *cases, *wanted;
    static struct written written;
    ym_sender sender;
    struct batch batch = { .first = below(FILES), .is_short = below(4) == 0 };
    if (!cases) cases = file_in(folder, "cases"), wanted = file_in(folder, "wanted");
    written.len = 0;
    batch.count = 1 + below(FILES - batch.first);
    fprintf(cases, batch.is_short ? "send short" : "send");
    for (size_t i = 0; i < batch.count; i++) {
        size_t at = batch.first + i;
        batch.blocks[i] = blocks_of(lengths[at], batch.is_short);
        fprintf(cases, " %s=%s", names[at], lengths[at] ? "" : "-");
        spell(cases, contents[at], (size_t)lengths[at]);
    }
    fprintf(cases, " |");
    int is_calm = below(10) != 0, heard = 0, repeats = 0, gives_up_at = below(10) == 0 ? (int)below(20) : MOST;
    ym_sender_init(&sender, batch.blocks, batch.count);
    for (; sender.state == YM_SENDING && heard < MOST; heard++) {
        uint8_t bytes[DELIVERY];
        ym_fill what;
        int gives_up = heard >= gives_up_at && sender.mode == 1;
        size_t len = a_reply(&sender, &batch, is_calm, gives_up, bytes);
        if (is_calm && heard == gives_up_at && below(2)) len = (size_t)(memcpy(bytes, cancel, 2), 2);
        fprintf(cases, " ");
        spell(cases, bytes, len);
        ym_sender_hear(&sender, batch.blocks, batch.count, bytes, len, &what);
        wants(fills(&sender, &batch, &what), "a fill");
        uint32_t out = ym_sender_out(&sender, batch.blocks, batch.count);
        if (out == YM_OUT_FRAME) keep(&written, sender.frame, sender.len);
        if (out == YM_OUT_CANCEL) keep(&written, cancel, 2);
        repeats += out == YM_OUT_FRAME && what.kind == YM_FILL_NOTHING;
        is_calm |= repeats > 3 || len == DELIVERY;
    }
    fprintf(cases, "\n");
    fprintf(wanted, "%s ", sent[sender.state]);
    spell(wanted, written.bytes, written.len);
    fprintf(wanted, "\n");
    __atomic_fetch_add(&counts->deliveries, (unsigned)heard, __ATOMIC_RELAXED);
    __atomic_fetch_add(&counts->ended[sender.state], 1, __ATOMIC_RELAXED);
    return 1;
}
