/* Prints the processor seconds of one product of two random square matrices over the prime field of q elements by FLINT's
 * nmod_mat_mul on one thread, the least of three.
 *   cc -O2 flint.c -lflint -lgmp && ./a.out Q SIZE
 */
#include <flint/flint.h>
#include <flint/nmod_mat.h>
#include <stdio.h>
#include <stdlib.h>
#include <time.h>

static double processor_seconds(void) {
  struct timespec now;
  clock_gettime(CLOCK_PROCESS_CPUTIME_ID, &now);
  return now.tv_sec + now.tv_nsec * 1e-9;
}

int main(int argc, char **argv) {
  if (argc != 3) return 2;
  mp_limb_t q = (mp_limb_t)atoi(argv[1]);
  slong size = atoi(argv[2]);
  flint_set_num_threads(1);
  flint_rand_t state;
  flint_randinit(state);
  nmod_mat_t a, b, product;
  nmod_mat_init(a, size, size, q);
  nmod_mat_init(b, size, size, q);
  nmod_mat_init(product, size, size, q);
  nmod_mat_randfull(a, state);
  nmod_mat_randfull(b, state);
  double least = -1;
  for (int run = 0; run < 3; run++) {
    double begin = processor_seconds();
    nmod_mat_mul(product, a, b);
    double time = processor_seconds() - begin;
    if (least < 0 || time < least) least = time;
  }
  nmod_mat_clear(a);
  nmod_mat_clear(b);
  nmod_mat_clear(product);
  flint_randclear(state);
  printf("%.4f\n", least);
  return 0;
}
