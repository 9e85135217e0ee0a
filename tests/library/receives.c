/* Receivers: that of the library beside `ymodem receive`. */
#include "beside.h"

#include <arpa/inet.h>
#include <dirent.h>
#include <fcntl.h>
#include <stdio.h>
#include <string.h>
#include <sys/socket.h>
#include <sys/stat.h>
#include <sys/wait.h>
#include <unistd.h>

/* What the library's receiver stored: the names by their number. */
struct kept { int is_there[8]; size_t len[8]; uint8_t bytes[8][6144]; };

static struct kept kept;
static int part;

static uint32_t keeps(const ym_receiver *receiver, const ym_ask *ask) {
    const uint8_t *bytes = receiver->held + ask->at;
    switch (ask->kind) {
    case YM_BEGIN:
        part = bytes[ask->count - 1] - '0';
        kept.len[part] = kept.is_there[part] ? kept.len[part] : 0;
        return !kept.is_there[part];
    case YM_ADD:
        memcpy(kept.bytes[part] + kept.len[part], bytes, (size_t)ask->count);
        kept.len[part] += (size_t)ask->count;
        return 1;
    case YM_COMMIT:
        kept.is_there[part] = 1;
        return 1;
    default: return 1;
    }
}

/* The folder has what the library's receiver stored, and is emptied. */
static int same_files(const char *folder) {
    DIR *there = opendir(folder);
    unsigned count = 0, wanted = 0;
    int is_same = 1;
    for (struct dirent *it; there && (it = readdir(there)) != NULL;) {
        uint8_t bytes[6145];
        char path[1024];
        if (it->d_name[0] == '.') continue;
        snprintf(path, sizeof path, "%s/%s", folder, it->d_name);
        int number = it->d_name[strlen(it->d_name) - 1] - '0', file = open(path, O_RDONLY | O_CLOEXEC);
        ssize_t len = read(file, bytes, sizeof bytes);
        close(file);
        unlink(path);
        count++;
        if (strlen(it->d_name) != 6 || number < 0 || number > 7 || !kept.is_there[number] || len != (ssize_t)kept.len[number] || memcmp(bytes, kept.bytes[number], (size_t)len) != 0) {
            is_same = wrong("the program stored another %s", it->d_name);
        }
    }
    closedir(there);
    for (int i = 0; i < 8; i++) wanted += kept.is_there[i] != 0;
    return is_same && (count == wanted || wrong("the program stored %u files, and the library %u", count, wanted));
}

/* A sender that errs: the file that it sends, and the frames of it in order. */
struct sending { uint8_t data[5000]; size_t len; unsigned at, blocks, same; char name[8]; };

static void a_file(struct sending *it) {
    static const size_t sizes[] = { 0, 1, 128, 1500, 5000 };
    it->len = sizes[below(5)];
    some(it->data, it->len);
    snprintf(it->name, sizeof it->name, "file-%u", below(8));
    it->at = it->same = 0;
    it->blocks = (unsigned)blocks_of(it->len, 0);
}

static size_t the_block(uint64_t number, const uint8_t *body, size_t size, uint8_t *bytes) {
    size_t len = ym_frame_write((uint32_t)number, body, size, bytes, DELIVERY);
    wants(len == size + 5, "a block");
    return len;
}

static size_t the_header(const char *name, uint64_t length, uint8_t *bytes) {
    uint8_t body[1024];
    uint32_t size = ym_header_write((const uint8_t *)name, strlen(name), length, below(3), below(1u << 31), below(1u << 16), body, sizeof body);
    return ym_frame_write(0, body, size, bytes, DELIVERY);
}

static size_t the_frame(const struct sending *it, uint8_t *bytes) {
    uint8_t body[1024];
    if (it->at == 0) return the_header(it->name, it->len, bytes);
    if (it->at > it->blocks) return bytes[0] = 0x04, 1;
    size_t longs = it->len / 1024, number = it->at, size = number <= longs ? 1024 : 128;
    size_t start = number <= longs ? (number - 1) * 1024 : longs * 1024 + (number - 1 - longs) * 128, left = it->len - start;
    memset(body, 0x1a, sizeof body);
    memcpy(body, it->data + start, left < size ? left : size);
    return the_block(number, body, size, bytes);
}

/* Mostly the next frame, else one of any place, or junk of a whole delivery. */
static size_t a_delivery(const struct sending *it, int is_calm, uint8_t *bytes) {
    uint8_t body[1024];
    memset(body, 0, sizeof body);
    if (it->at == 0 && below(100) < 15) return the_block(0, body, 128, bytes);
    if (below(100) < 5) {
        some(body, 1024);
        switch (below(6)) {
        case 0: return memcpy(bytes, "\x18\x18", 2), 2;
        case 1: return bytes[0] = 0x04, 1;
        case 2: return the_block(below(256), body, below(2) ? 128 : 1024, bytes);
        case 3: memcpy(body, "../up\0" "3", 8); return the_block(0, body, 128, bytes);
        case 4: memcpy(body, "file-1\0x", 9); return the_block(0, body, 128, bytes);
        default: memset(body, 0, 128); return the_block(0, body, 128, bytes);
        }
    }
    if (!is_calm && below(100) < 4) {
        bytes[0] = 0;
        some(bytes + 1, DELIVERY - 1);
        return DELIVERY;
    }
    return the_frame(it, bytes);
}

static const char *const received[] = { "running", "finished", "too-many-errors", "cancelled", "out-of-step", "too-many-files", "sink-failed", "bad-header" };
static const char *const refused[] = { "", " name-empty", " name-long", " name-unsafe", " no-length", " length-large" };

static size_t heard_of(ym_receiver *receiver, const uint8_t *bytes, size_t len, uint8_t *reply) {
    ym_ask ask;
    size_t used = 0, taken;
    while (used < len && (taken = ym_receiver_feed(receiver, bytes + used, len - used)) != 0) used += taken;
    ym_receiver_hear(receiver, &ask);
    return ym_receiver_answer(receiver, keeps(receiver, &ask), reply, 2);
}

static int called(struct program *it, uint16_t port) {
    struct sockaddr_in at = { .sin_family = AF_INET, .sin_port = htons(port), .sin_addr = { htonl(INADDR_LOOPBACK) } };
    for (int waited = 0; waited < LIMIT; waited += 2) {
        it->line = socket(AF_INET, SOCK_STREAM | SOCK_CLOEXEC, 0);
        if (connect(it->line, (struct sockaddr *)&at, sizeof at) == 0) return at_once(it->line), 1;
        close(it->line);
        it->line = -1;
        usleep(2000);
    }
    return wrong("nobody listens");
}

/* `receive` keeps in step before its table hears anything: while only the same block 0 can come once more, it hears another one as block 2. */
struct turn { enum { ANY_FILE, SAME_FILE, NO_FILE } next; size_t len; uint8_t check[2]; };

static int is_block_0(const uint8_t *bytes, size_t len) {
    return len >= 133 && bytes[0] != 0 && bytes[1] == 0 && bytes[2] == 255;
}

static int is_the_same(const struct turn *turn, const uint8_t *bytes, size_t len) {
    return len == turn->len && memcmp(bytes + len - 2, turn->check, 2) == 0;
}

static void keep_in_step(const struct turn *turn, uint8_t *bytes, size_t len) {
    if (turn->next == SAME_FILE && is_block_0(bytes, len) && !is_the_same(turn, bytes, len)) bytes[1] = 2, bytes[2] = 253;
}

static void is_answered(struct turn *turn, const uint8_t *bytes, size_t len, const uint8_t *reply, size_t replied) {
    if (replied == 1 && reply[0] == 0x06) turn->next = NO_FILE;
    if (replied != 2 || reply[0] != 0x06) return;
    turn->next = is_block_0(bytes, len) ? SAME_FILE : ANY_FILE;
    if (turn->next == SAME_FILE) turn->len = len, memcpy(turn->check, bytes + len - 2, 2);
}

int receives(uint16_t port, char *command, char *folder) {
    ym_receiver receiver;
    struct sending sending;
    /* One that is stuck says what stands behind its first block 0 again and again. */
    int confirm = (int)below(2), is_calm = below(100) < 90, is_stuck = below(100) < 2, heard = 0;
    char number[8], last[96], *words[9] = { command, "receive", "--port", number, "--no-sync" };
    size_t at = 5;
    if (confirm) words[at++] = "--single";
    words[at] = folder;
    snprintf(number, sizeof number, "%u", port);
    memset(&kept, 0, sizeof kept);
    struct program it = started(words);
    uint8_t reply[2], bytes[DELIVERY];
    int is_well = called(&it, port);
    ym_receiver_init(&receiver, (uint32_t)confirm);
    a_file(&sending);
    struct turn turn = { ANY_FILE, 0, { 0, 0 } };
    /* Where nothing comes at first, both ask. It takes seconds. */
    size_t len = below(20) == 0 ? heard_of(&receiver, bytes, 0, reply) : 0;
    is_well = is_well && comes(&it, reply, len, "the first C");
    for (; is_well && receiver.stand.state == YM_RUNNING && heard < MOST; heard++) {
        size_t size = a_delivery(&sending, is_calm, bytes);
        is_calm |= size == DELIVERY;
        is_well = puts_all(&it, bytes, size);
        keep_in_step(&turn, bytes, size);
        len = heard_of(&receiver, bytes, size, reply);
        is_answered(&turn, bytes, size, reply, len);
        is_well = is_well && comes(&it, reply, len, "a reply");
        sending.same++;
        if (!(is_stuck && sending.at == 1) && (reply[0] == 0x06 || reply[0] == 0x15 || sending.same > 3)) sending.at++, sending.same = 0;
        if (sending.at > sending.blocks + 2) a_file(&sending);
    }
    __atomic_fetch_add(&counts->deliveries, (unsigned)heard, __ATOMIC_RELAXED);
    uint32_t end = receiver.stand.state;
    if (is_well && end == YM_RUNNING) {
        /* An end that is closed upon takes the file under way back. */
        shutdown(it.line, SHUT_WR);
        uint8_t more;
        while (readable(it.line) && read(it.line, &more, 1) > 0) {}
        is_well = waitpid(it.child, NULL, 0) == it.child;
        it.child = 0;
    } else if (is_well) {
        snprintf(last, sizeof last, "receiver files %u %s%s\n", receiver.stand.files, received[end], end == YM_BAD_HEADER ? refused[receiver.stand.fault] : "");
        is_well = ends(&it, end == YM_FINISHED ? 0 : end == YM_HOST_FAILED ? 3 : 1, last);
    }
    is_well = is_well && same_files(folder);
    if (is_well) __atomic_fetch_add(&counts->ended[end], 1, __ATOMIC_RELAXED);
    gone(&it);
    return is_well;
}

void emptied(const char *folder) {
    memset(&kept, 0, sizeof kept);
    same_files(folder);
}
