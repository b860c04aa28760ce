// Parity shards by one table look-up a byte, the way that upstream takes, to compare speeds with.
//
// usage: shards WORK DATA PARITY SIZE TIMES
//   WORK  encode: parity shards of data shards; decode: as many lost data shards from the others, by an inverted matrix
#include <stdint.h>
#include <stdio.h>
#include <stdlib.h>
#include <string.h>

static uint8_t product[256][256];

static uint8_t multiply(uint8_t a, uint8_t b) {
  uint8_t sum = 0;
  for (; a; a >>= 1) {
    if (a & 1) sum ^= b;
    b = (uint8_t)(b << 1) ^ (b & 128 ? 0x1d : 0);
  }
  return sum;
}

static uint8_t inverse(uint8_t a) {
  for (int b = 1; b < 256; b++)
    if (product[a][b] == 1) return (uint8_t)b;
  return 0;
}

__attribute__((noinline)) static void add_multiple(uint8_t *out, const uint8_t *in, size_t size, uint8_t c) {
  const uint8_t *row = product[c];
  for (size_t q = 0; q < size; q++) out[q] ^= row[in[q]];
}

int main(int argc, char **argv) {
  if (argc != 6) return 1;
  int units = atoi(argv[2]), parity = atoi(argv[3]);
  size_t size = strtoull(argv[4], 0, 10), times = strtoull(argv[5], 0, 10), bytes = 0;
  int decodes = strcmp(argv[1], "decode") == 0;
  for (int a = 0; a < 256; a++)
    for (int b = 0; b < 256; b++) product[a][b] = multiply((uint8_t)a, (uint8_t)b);
  uint8_t *in[256];
  for (int c = 0; c < units; c++) {
    in[c] = malloc(size);
    memset(in[c], c * 37, size);
  }
  for (size_t t = 0; t < times; t++) {
    for (int r = 0; r < parity; r++) {
      uint8_t *out = calloc(size, 1);
      // A decoder's coefficients are others, and cost the same.
      for (int c = 0; c < units; c++) add_multiple(out, in[c], size, inverse((uint8_t)((units + r) ^ c)));
      bytes += size;
      free(out);
    }
  }
  printf("%zu\n", decodes ? bytes / (size_t)parity : bytes);
  return 0;
}
