// The checksums of hdfs_wire by the same method, slicing by sixteen, to be compared with.
//
// usage: crc crc32c|crc32 SIZE TIMES
//   Prints the sums of a buffer of SIZE bytes, TIMES of them, xored into one. The buffer is zeros, but for its first
//   byte, which counts the sums.
#include <stddef.h>
#include <stdint.h>
#include <stdio.h>
#include <stdlib.h>
#include <string.h>

static uint32_t tables[16][256];

static void make_tables(uint32_t polynomial) {
    for (uint32_t byte = 0; byte < 256; byte++) {
        uint32_t sum = byte;
        for (int bit = 0; bit < 8; bit++) {
            sum = sum & 1 ? (sum >> 1) ^ polynomial : sum >> 1;
        }
        tables[0][byte] = sum;
    }
    for (int zeros = 1; zeros < 16; zeros++) {
        for (int byte = 0; byte < 256; byte++) {
            uint32_t sum = tables[zeros - 1][byte];
            tables[zeros][byte] = (sum >> 8) ^ tables[0][sum & 255];
        }
    }
}

__attribute__((noinline)) static uint32_t checksum(const uint8_t *bytes, size_t size) {
    uint32_t sum = UINT32_MAX;
    for (; size >= 16; size -= 16, bytes += 16) {
        sum = tables[15][bytes[0] ^ (sum & 255)] ^ tables[14][bytes[1] ^ (sum >> 8 & 255)]
            ^ tables[13][bytes[2] ^ (sum >> 16 & 255)] ^ tables[12][bytes[3] ^ (sum >> 24)]
            ^ tables[11][bytes[4]] ^ tables[10][bytes[5]] ^ tables[9][bytes[6]] ^ tables[8][bytes[7]]
            ^ tables[7][bytes[8]] ^ tables[6][bytes[9]] ^ tables[5][bytes[10]] ^ tables[4][bytes[11]]
            ^ tables[3][bytes[12]] ^ tables[2][bytes[13]] ^ tables[1][bytes[14]] ^ tables[0][bytes[15]];
    }
    for (; size > 0; size--, bytes++) {
        sum = tables[0][(sum ^ *bytes) & 255] ^ (sum >> 8);
    }
    return ~sum;
}

int main(int count, char **words) {
    if (count != 4) {
        return 1;
    }
    make_tables(strcmp(words[1], "crc32c") == 0 ? 0x82f63b78 : 0xedb88320);
    size_t size = strtoull(words[2], NULL, 10);
    size_t times = strtoull(words[3], NULL, 10);
    uint8_t *buffer = calloc(size + 1, 1);
    if (buffer == NULL) {
        return 1;
    }
    uint32_t folded = 0;
    for (size_t round = 0; round < times; round++) {
        buffer[0] = (uint8_t)round;
        folded ^= checksum(buffer, size);
    }
    printf("%u\n", folded);
    free(buffer);
    return 0;
}
