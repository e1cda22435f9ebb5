/* Refuses one growth of memory by its number, for checks/growth: a library to be loaded before the
   C library. GROWTH_FAILS is the number of the call that is refused, counted from 1; where it is
   missing, no call is. GROWTH_COUNT names a file that gets the number of calls when the program
   ends. A call that frees or shrinks to nothing doesn't count. */
#define _GNU_SOURCE
#include <dlfcn.h>
#include <errno.h>
#include <fcntl.h>
#include <stdio.h>
#include <stdlib.h>
#include <string.h>
#include <unistd.h>

static long count, fails = -1;

static long number_of(const char *name) {
  const char *word = getenv(name);
  return word ? strtol(word, NULL, 10) : 0;
}

static int is_refused(void) {
  if (fails < 0) fails = number_of("GROWTH_FAILS");
  count++;
  if (count != fails) return 0;
  errno = ENOMEM;
  return 1;
}

/* The C library's own functions have other names for those who stand in for it. */
extern void *__libc_malloc(size_t);
extern void *__libc_calloc(size_t, size_t);
extern void *__libc_realloc(void *, size_t);
extern void *__libc_memalign(size_t, size_t);

void *malloc(size_t size) { return is_refused() ? NULL : __libc_malloc(size); }

void *calloc(size_t count_of, size_t size) { return is_refused() ? NULL : __libc_calloc(count_of, size); }

void *realloc(void *old, size_t size) {
  return size > 0 && is_refused() ? NULL : __libc_realloc(old, size);
}

void *memalign(size_t align, size_t size) { return is_refused() ? NULL : __libc_memalign(align, size); }

void *aligned_alloc(size_t align, size_t size) { return memalign(align, size); }

int posix_memalign(void **to, size_t align, size_t size) {
  void *made = memalign(align, size);
  if (!made) return ENOMEM;
  *to = made;
  return 0;
}

__attribute__((destructor)) static void tell(void) {
  const char *name = getenv("GROWTH_COUNT");
  if (!name) return;
  char line[32];
  long told = count;
  int file = open(name, O_WRONLY | O_CREAT | O_TRUNC, 0644);
  if (file < 0) return;
  int length = snprintf(line, sizeof line, "%ld\n", told);
  if (write(file, line, (size_t)length) < 0) _exit(99);
  close(file);
}
