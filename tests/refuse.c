/* Refuses memory to the program that it is loaded into (LD_PRELOAD): the allocations with the
 * numbers REFUSE_FIRST to REFUSE_LAST, counted from 1 since the start of main, and, if
 * REFUSE_LARGER is not 0, each of more bytes than that. At the first of these numbers, and at each
 * allocation that is too large, it writes a byte to the file descriptor REFUSE_TOLD. SIGALRM ends a
 * program that is not done after ten seconds.
 */
#include <errno.h>
#include <stdlib.h>
#include <unistd.h>

extern void *__libc_malloc(size_t size);
extern void *__libc_calloc(size_t count, size_t size);
extern void *__libc_realloc(void *old, size_t size);
extern void *__libc_memalign(size_t alignment, size_t size);

static unsigned long first, last, larger, told, number;

static unsigned long number_of(const char *name) {
  const char *text = getenv(name);
  return text ? strtoul(text, NULL, 10) : 0;
}

__attribute__((constructor)) static void start(void) {
  first = number_of("REFUSE_FIRST");
  last = number_of("REFUSE_LAST");
  larger = number_of("REFUSE_LARGER");
  told = number_of("REFUSE_TOLD");
  number = 0;
  alarm(10);
}

static int is_refused(size_t size) {
  unsigned long now = __atomic_add_fetch(&number, 1, __ATOMIC_SEQ_CST);
  int is_large = larger != 0 && size > larger;
  if (!is_large && (now < first || last < now)) return 0;
  if ((is_large || now == first) && write(told, "x", 1) != 1) abort();
  errno = ENOMEM;
  return 1;
}

void *malloc(size_t size) { return is_refused(size) ? NULL : __libc_malloc(size); }

void *calloc(size_t count, size_t size) {
  return is_refused(count * size) ? NULL : __libc_calloc(count, size);
}

void *realloc(void *old, size_t size) {
  return is_refused(size) ? NULL : __libc_realloc(old, size);
}

void *aligned_alloc(size_t alignment, size_t size) {
  return is_refused(size) ? NULL : __libc_memalign(alignment, size);
}

int posix_memalign(void **found, size_t alignment, size_t size) {
  if (is_refused(size)) return ENOMEM;
  *found = __libc_memalign(alignment, size);
  return *found ? 0 : ENOMEM;
}
