/* The check of a block by slicing by eight tables, for bench/ends.py: CRC-16/XMODEM, as C makes it where nothing is proved.
 *
 * usage: slices SIZE BLOCKS      computes the check of so many blocks of so many bytes */

#include <stdint.h>
#include <stdio.h>
#include <stdlib.h>

static uint16_t tables[8][256];

static void make_tables(void) {
    for (int byte = 0; byte < 256; byte++) {
        uint16_t value = (uint16_t)(byte << 8);
        for (int bit = 0; bit < 8; bit++)
            value = (uint16_t)(value & 0x8000 ? value << 1 ^ 0x1021 : value << 1);
        tables[0][byte] = value;
    }
    for (int more = 1; more < 8; more++)
        for (int byte = 0; byte < 256; byte++) {
            uint16_t before = tables[more - 1][byte];
            tables[more][byte] = (uint16_t)(before << 8 ^ tables[0][before >> 8]);
        }
}

__attribute__((noinline)) static uint16_t by_slices(const uint8_t *body, size_t size) {
    uint16_t value = 0;
    for (const uint8_t *b = body; b != body + size; b += 8)
        value = tables[7][b[0] ^ value >> 8] ^ tables[6][b[1] ^ (value & 255)] ^ tables[5][b[2]] ^ tables[4][b[3]] ^ tables[3][b[4]] ^
                tables[2][b[5]] ^ tables[1][b[6]] ^ tables[0][b[7]];
    return value;
}

int main(int count, char **words) {
    if (count != 3)
        return fprintf(stderr, "usage: slices SIZE BLOCKS\n"), 2;
    size_t size = strtoul(words[1], 0, 10), blocks = strtoul(words[2], 0, 10);
    static uint8_t bytes[1 << 15];
    for (size_t at = 0; at < sizeof bytes; at++)
        bytes[at] = (uint8_t)rand();
    make_tables();
    unsigned sum = 0;
    for (size_t block = 0; block < blocks; block++)
        sum += by_slices(bytes + block * size % sizeof bytes, size / 8 * 8);
    printf("%u\n", sum);
    return 0;
}
