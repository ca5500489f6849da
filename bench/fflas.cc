/* Prints the processor seconds of one product of two random square matrices over the prime field of q elements by
 * FFLAS-FFPACK with OpenBLAS on one thread, the least of three, compiled for the processor that it runs on.
 *   c++ -O3 -march=native fflas.cc -lopenblas -lgivaro -lgmp && OPENBLAS_NUM_THREADS=1 ./a.out Q SIZE
 */
#include <cstdio>
#include <cstdlib>
#include <ctime>
#include <fflas-ffpack/fflas-ffpack.h>
#include <givaro/modular.h>

static double processor_seconds() {
  struct timespec now;
  clock_gettime(CLOCK_PROCESS_CPUTIME_ID, &now);
  return now.tv_sec + now.tv_nsec * 1e-9;
}

int main(int argc, char **argv) {
  if (argc != 3) return 2;
  typedef Givaro::Modular<float> Field;
  Field field(atoi(argv[1]));
  size_t size = atoi(argv[2]);
  Field::RandIter random(field, 1);
  auto a = FFLAS::fflas_new(field, size, size);
  auto b = FFLAS::fflas_new(field, size, size);
  auto product = FFLAS::fflas_new(field, size, size);
  for (size_t i = 0; i < size * size; i++) {
    random.random(a[i]);
    random.random(b[i]);
  }
  double least = -1;
  for (int run = 0; run < 3; run++) {
    double begin = processor_seconds();
    FFLAS::fgemm(field, FFLAS::FflasNoTrans, FFLAS::FflasNoTrans, size, size, size, field.one, a, size, b, size, field.zero,
                 product, size, FFLAS::ParSeqHelper::Sequential());
    double time = processor_seconds() - begin;
    if (least < 0 || time < least) least = time;
  }
  FFLAS::fflas_delete(a);
  FFLAS::fflas_delete(b);
  FFLAS::fflas_delete(product);
  std::printf("%.4f\n", least);
  return 0;
}
