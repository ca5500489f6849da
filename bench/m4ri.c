/* Prints the processor seconds of one product of two random square matrices over GF(2) by M4RI, the least of three.
 *   cc -O2 m4ri.c -lm4ri && ./a.out SIZE
 */
#include <m4ri/m4ri.h>
#include <stdio.h>
#include <stdlib.h>
#include <time.h>

static double processor_seconds(void) {
  struct timespec now;
  clock_gettime(CLOCK_PROCESS_CPUTIME_ID, &now);
  return now.tv_sec + now.tv_nsec * 1e-9;
}

int main(int argc, char **argv) {
  if (argc != 2) return 2;
  int size = atoi(argv[1]);
  mzd_t *a = mzd_init(size, size);
  mzd_t *b = mzd_init(size, size);
  mzd_randomize(a);
  mzd_randomize(b);
  double least = -1;
  for (int run = 0; run < 3; run++) {
    double begin = processor_seconds();
    mzd_t *product = mzd_mul(NULL, a, b, 0);
    double time = processor_seconds() - begin;
    if (least < 0 || time < least) least = time;
    mzd_free(product);
  }
  mzd_free(a);
  mzd_free(b);
  printf("%.4f\n", least);
  return 0;
}
