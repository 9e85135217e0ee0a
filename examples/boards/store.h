/* Files in the memory of a board. */
#ifndef STORE_H
#define STORE_H

#include "ymodem_io.h"

/* Each file begins at a multiple of this. */
enum { STORE_FILES = 16, STORE_GAP = 0x10000 };

struct stored {
    char name[256];
    size_t name_len;
    uint8_t *start;
    uint32_t length, held;
};

struct store {
    struct stored files[STORE_FILES];
    size_t count;
};

/* The sink and the source of ymodem_io.h, whose user is a store. */
int store_begin(void *user, const ym_file *file);
int store_add(void *user, const uint8_t *bytes, size_t len);
int store_commit(void *user);
int store_about(void *user, size_t file, ym_file *about);
int store_fill(void *user, size_t file, uint64_t start, uint8_t *bytes, size_t len);

/* Receives a batch in place of what was stored, and tells an error. 1: there are files. */
int store_receive(struct store *store, const ym_io *io);

/* Tells the name, length, place and CRC-32 of each file. */
void store_tell(const struct store *store);

#endif
