/* What blocks of 1024 bytes take in the library's calls, of the ways of block_costs.h. usage: blocks
   bulk|bytes|sender BLOCKS */
#include "block_costs.h"

#include <stdlib.h>
#include <string.h>

int main(int count, char **words) {
    uint32_t blocks = count == 3 ? (uint32_t)strtoul(words[2], NULL, 10) : 0;
    if (!blocks) return 2;
    costs_begin();
    if (!strcmp(words[1], "bulk")) return !costs_in_bulk(blocks);
    if (!strcmp(words[1], "bytes")) return !costs_by_bytes(blocks);
    return !costs_of_sender(blocks);
}
