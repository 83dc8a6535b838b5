// Fills an empty table and reads it, and prints the processor time of all of it, in seconds, the greatest memory, in
// kilobytes, and what came out. Words: the kind of the stream (0 the default one, 1 BUFFERED, 2 PENDING), the rows of a
// batch, how many batches, the work behind that (0 none, 1 sessions, 2 reads, 3 reads with a restriction), how often.
#include <stdint.h>
#include <stdio.h>
#include <stdlib.h>
#include <sys/resource.h>
#include <time.h>

uint64_t fill_table(uint32_t kind, uint32_t batches, uint32_t batch, uint32_t work, uint32_t times);

static uint32_t word(char **argv, int at) { return (uint32_t)strtoul(argv[at], NULL, 10); }

int main(int argc, char **argv) {
  if (argc != 6) return 2;
  uint64_t found = fill_table(word(argv, 1), word(argv, 3), word(argv, 2), word(argv, 4), word(argv, 5));
  struct timespec now;
  clock_gettime(CLOCK_PROCESS_CPUTIME_ID, &now);
  struct rusage used;
  getrusage(RUSAGE_SELF, &used);
  printf("%f %ld %llu\n", (double)now.tv_sec + (double)now.tv_nsec / 1e9, used.ru_maxrss, (unsigned long long)found);
  return 0;
}
