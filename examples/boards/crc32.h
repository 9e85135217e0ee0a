/* The CRC-32 of zip, gzip and Ethernet, as bytes come: it begins with ~0, and is inverted at the
   end. */
#ifndef CRC32_H
#define CRC32_H

#include <stddef.h>
#include <stdint.h>

static uint32_t crc32_add(uint32_t sum, const uint8_t *bytes, size_t len) {
    while (len--) {
        int bit;
        sum ^= *bytes++;
        for (bit = 0; bit < 8; bit++) sum = sum >> 1 ^ (sum & 1 ? 0xEDB88320u : 0);
    }
    return sum;
}

#endif
