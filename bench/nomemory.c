// A library to be loaded before the C library: its call for memory of the number in NOMEMORY_AT is refused, and no other. NOMEMORY_COUNT names
// a file, to which how many there were is written at the end.
#include <errno.h>
#include <stdio.h>
#include <stdlib.h>

static long asked, at = -1;
static int ready;

static int refused(void) {
  if (!ready) return 0;
  asked++;
  if (asked != at) return 0;
  errno = ENOMEM;
  return 1;
}

__attribute__((constructor)) static void begin(void) {
  const char *text = getenv("NOMEMORY_AT");
  at = text ? atol(text) : -1;
  ready = 1;
}

__attribute__((destructor)) static void end(void) {
  ready = 0;
  const char *name = getenv("NOMEMORY_COUNT");
  FILE *file = name ? fopen(name, "w") : NULL;
  if (!file) return;
  fprintf(file, "%ld\n", asked);
  fclose(file);
}

void *__libc_malloc(size_t);
void *__libc_calloc(size_t, size_t);
void *__libc_realloc(void *, size_t);
void *__libc_memalign(size_t, size_t);

void *malloc(size_t size) { return refused() ? NULL : __libc_malloc(size); }
void *calloc(size_t count, size_t size) { return refused() ? NULL : __libc_calloc(count, size); }
void *realloc(void *old, size_t size) { return refused() ? NULL : __libc_realloc(old, size); }
void *aligned_alloc(size_t align, size_t size) { return refused() ? NULL : __libc_memalign(align, size); }
void *memalign(size_t align, size_t size) { return refused() ? NULL : __libc_memalign(align, size); }
int posix_memalign(void **out, size_t align, size_t size) {
  void *made = refused() ? NULL : __libc_memalign(align, size);
  if (!made) return ENOMEM;
  *out = made;
  return 0;
}
