// Decodes header blocks in turn with the crate hpack_blocks and with libnghttp2's inflater, and prints
// the processor time of each run. Words: two files of octets, of which the first is decoded once.
#include <nghttp2/nghttp2.h>
#include <stdint.h>
#include <stdio.h>
#include <stdlib.h>
#include <time.h>

enum { BLOCKS = 100000, RUNS = 5, MOST = 65536 };

uint64_t decode_blocks(const uint8_t *first, size_t first_len, const uint8_t *block, size_t block_len,
                       uint32_t times);

static uint64_t inflate(nghttp2_hd_inflater *inflater, const uint8_t *block, size_t len) {
  uint64_t octets = 0;
  for (;;) {
    nghttp2_nv field;
    int flags = 0;
    ssize_t used = nghttp2_hd_inflate_hd2(inflater, &field, &flags, block, len, 1);
    if (used < 0) exit(1);
    block += used;
    len -= (size_t)used;
    if (flags & NGHTTP2_HD_INFLATE_EMIT) octets += field.namelen + field.valuelen;
    if (flags & NGHTTP2_HD_INFLATE_FINAL) {
      nghttp2_hd_inflate_end_headers(inflater);
      return octets;
    }
  }
}

static uint64_t inflate_blocks(const uint8_t *first, size_t first_len, const uint8_t *block,
                               size_t block_len, uint32_t times) {
  nghttp2_hd_inflater *inflater;
  if (nghttp2_hd_inflate_new(&inflater)) exit(1);
  inflate(inflater, first, first_len);
  uint64_t octets = 0;
  for (uint32_t i = 0; i < times; i++) octets += inflate(inflater, block, block_len);
  nghttp2_hd_inflate_del(inflater);
  return octets;
}

static double seconds(void) {
  struct timespec now;
  clock_gettime(CLOCK_PROCESS_CPUTIME_ID, &now);
  return (double)now.tv_sec + (double)now.tv_nsec / 1e9;
}

static size_t load(const char *path, uint8_t *octets) {
  FILE *file = fopen(path, "rb");
  if (!file) exit(1);
  size_t len = fread(octets, 1, MOST, file);
  fclose(file);
  return len;
}

int main(int argc, char **argv) {
  static uint8_t first[MOST], block[MOST];
  if (argc != 3) return 2;
  size_t first_len = load(argv[1], first), block_len = load(argv[2], block);
  for (int run = 0; run < RUNS; run++) {
    double start = seconds();
    uint64_t ours = decode_blocks(first, first_len, block, block_len, BLOCKS);
    double middle = seconds();
    uint64_t theirs = inflate_blocks(first, first_len, block, block_len, BLOCKS);
    double end = seconds();
    if (ours == 0 || ours != theirs) return 1;
    printf("%f %f\n", middle - start, end - middle);
  }
}
