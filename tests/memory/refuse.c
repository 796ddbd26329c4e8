/* Stands before the C library's malloc and realloc: refuses the request of the number that REFUSED_REQUEST gives, counted from 1
   over all threads, and writes a byte on descriptor 9 when it does. tests/memory/run loads it before a program. */
extern void *__libc_malloc(unsigned long size);
extern void *__libc_realloc(void *old, unsigned long size);
extern char *getenv(const char *name);
extern long write(int file, const void *bytes, unsigned long count);

static unsigned long refused;
static unsigned long made;

__attribute__((constructor)) static void begin(void) {
  const char *digit = getenv("REFUSED_REQUEST");
  unsigned long number = 0;
  while (digit && *digit >= '0' && *digit <= '9') number = 10 * number + (unsigned long)(*digit++ - '0');
  refused = number;
}

static int is_refused(void) {
  if (refused == 0 || __atomic_add_fetch(&made, 1, __ATOMIC_SEQ_CST) != refused) return 0;
  (void)!write(9, "r", 1);
  return 1;
}

void *malloc(unsigned long size) { return is_refused() ? 0 : __libc_malloc(size); }

void *realloc(void *old, unsigned long size) { return is_refused() ? 0 : __libc_realloc(old, size); }
