// Parity shards by ISA-L's SSE code (libisal-dev), to compare speeds with.
//
// usage: isal WORK DATA PARITY SIZE TIMES
//   WORK  encode or decode, which cost the same: as many shards as there are parity shards, of DATA others
#include <isa-l.h>
#include <stdio.h>
#include <stdlib.h>
#include <string.h>

int main(int argc, char **argv) {
  if (argc != 6) return 1;
  int units = atoi(argv[2]), parity = atoi(argv[3]);
  size_t size = strtoull(argv[4], 0, 10), times = strtoull(argv[5], 0, 10), bytes = 0;
  unsigned char matrix[256 * 256], tables[32 * 256 * 16], *in[256], *out[256];
  gf_gen_cauchy1_matrix(matrix, units + parity, units);
  for (int c = 0; c < units; c++) {
    in[c] = malloc(size);
    memset(in[c], c * 37, size);
  }
  for (size_t t = 0; t < times; t++) {
    ec_init_tables(units, parity, matrix + units * units, tables);
    for (int r = 0; r < parity; r++) out[r] = malloc(size);
    ec_encode_data_sse((int)size, units, parity, tables, in, out);
    for (int r = 0; r < parity; r++) {
      bytes += size;
      free(out[r]);
    }
  }
  printf("%zu\n", strcmp(argv[1], "decode") == 0 ? bytes / (size_t)parity : bytes);
  return 0;
}
