/* Files in the memory of a board. */
#include "store.h"

#include "board.h"
#include "crc32.h"

static void copy(uint8_t *to, const uint8_t *from, size_t len) {
    while (len--) *to++ = *from++;
}

static uint8_t *behind(const struct stored *file) {
    uintptr_t end = (uintptr_t)file->start + file->length;
    return (uint8_t *)((end + STORE_GAP - 1) / STORE_GAP * STORE_GAP);
}

/* A name has at most 255 bytes: the library has seen to that. What has no room is refused. */
int store_begin(void *user, const ym_file *about) {
    struct store *store = user;
    struct stored *file = &store->files[store->count];
    uint8_t *start = store->count ? behind(file - 1) : room;
    if (store->count == STORE_FILES || start > room_end) return 0;
    if (about->length > (uint64_t)(room_end - start)) return 0;
    copy((uint8_t *)file->name, about->name, about->name_len);
    file->name[about->name_len] = 0;
    file->name_len = about->name_len;
    file->start = start;
    file->length = (uint32_t)about->length;
    file->held = 0;
    store->count++;
    return 1;
}

/* There are never more bytes than the length that was told. */
int store_add(void *user, const uint8_t *bytes, size_t len) {
    struct store *store = user;
    struct stored *file = &store->files[store->count - 1];
    copy(file->start + file->held, bytes, len);
    file->held += (uint32_t)len;
    return 1;
}

int store_commit(void *user) {
    (void)user;
    return 1;
}

int store_about(void *user, size_t file, ym_file *about) {
    const struct stored *it = &((const struct store *)user)->files[file];
    about->name = (const uint8_t *)it->name;
    about->name_len = it->name_len;
    about->length = it->length;
    about->stamp = 0;
    about->time = about->mode = 0;
    return 1;
}

int store_fill(void *user, size_t file, uint64_t start, uint8_t *bytes, size_t len) {
    copy(bytes, ((const struct store *)user)->files[file].start + (size_t)start, len);
    return 1;
}

int store_receive(struct store *store, const ym_io *io) {
    ym_sink sink = { store, store_begin, store_add, store_commit };
    ym_error error;
    store->count = 0;
    error = ym_receive(io, &sink);
    if (error == YM_DONE && store->count) return 1;
    print("not received: ");
    print(ym_text(error));
    print("\r\n");
    return 0;
}

void store_tell(const struct store *store) {
    for (size_t i = 0; i < store->count; i++) {
        const struct stored *file = &store->files[i];
        print(file->name);
        print(": ");
        print_number(file->length);
        print(" bytes at ");
        print_hex((uintptr_t)file->start, 8);
        print(", CRC-32 ");
        print_hex(~crc32_add(~0u, file->start, file->length), 8);
        print("\r\n");
    }
}
