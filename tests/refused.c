/* Refuses one growth of memory to the program that it is loaded into: the one whose number, counted from 1, is in the
   environment as REFUSED. When it does so it writes a byte to the file NOTED, so a run without one had no such growth.
   A growth is a call of malloc or of realloc; the libraries of the kit take memory by nothing else. */
enum { NOTED = 9 };

void *__libc_malloc(unsigned long);
void *__libc_realloc(void *, unsigned long);
char *getenv(const char *);
long strtol(const char *, char **, int);
long write(int, const void *, unsigned long);

/* how many growths are left up to the one that is refused; below 0 before the first, and 0 after it */
static long left = -1;

static int is_refused(void) {
  if (left < 0) {
    const char *number = getenv("REFUSED");
    left = number ? strtol(number, 0, 10) : 0;
  }
  return left > 0 && --left == 0 && write(NOTED, "!", 1) == 1;
}

void *malloc(unsigned long size) { return is_refused() ? 0 : __libc_malloc(size); }

void *realloc(void *block, unsigned long size) { return is_refused() ? 0 : __libc_realloc(block, size); }
