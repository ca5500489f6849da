/* Prints the processor seconds of one product of two random square matrices over the field of 4 or 8 elements by M4RIE, the
 * least of three.
 *   cc -O2 m4rie.c -lm4rie -lm4ri && ./a.out Q SIZE
 */
#include <m4rie/m4rie.h>
#include <stdio.h>
#include <stdlib.h>
#include <time.h>

static double processor_seconds(void) {
  struct timespec now;
  clock_gettime(CLOCK_PROCESS_CPUTIME_ID, &now);
  return now.tv_sec + now.tv_nsec * 1e-9;
}

int main(int argc, char **argv) {
  if (argc != 3) return 2;
  /* x^2 + x + 1 and x^3 + x + 1, constant lowest */
  gf2e *field = gf2e_init(atoi(argv[1]) == 4 ? 7 : 11);
  int size = atoi(argv[2]);
  mzed_t *a = mzed_init(field, size, size);
  mzed_t *b = mzed_init(field, size, size);
  mzed_randomize(a);
  mzed_randomize(b);
  double least = -1;
  for (int run = 0; run < 3; run++) {
    double begin = processor_seconds();
    mzed_t *product = mzed_mul(NULL, a, b);
    double time = processor_seconds() - begin;
    if (least < 0 || time < least) least = time;
    mzed_free(product);
  }
  mzed_free(a);
  mzed_free(b);
  gf2e_free(field);
  printf("%.4f\n", least);
  return 0;
}
