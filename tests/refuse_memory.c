/* Preloaded into a program, this refuses one of its requests for memory: the one whose number, from 1, stands in
   REFUSE; with a '+' behind the number, all later ones too. A thread that is to be made is a request as well, since it
   needs a stack. When it refuses, it writes a byte to file descriptor 3, so that whoever started the program knows that
   there was such a request. */
#define _GNU_SOURCE
#include <dlfcn.h>
#include <errno.h>
#include <limits.h>
#include <pthread.h>
#include <stdlib.h>
#include <sys/mman.h>
#include <sys/syscall.h>
#include <unistd.h>

/* The C library's own calls, under the names that it exports beside the usual ones. */
extern void *__libc_malloc(size_t size);
extern void *__libc_calloc(size_t count, size_t size);
extern void *__libc_realloc(void *old, size_t size);
extern void *__libc_memalign(size_t alignment, size_t size);

static unsigned long first;
static unsigned long last;
static unsigned long requests;

__attribute__((constructor)) static void begin(void) {
  const char *number = getenv("REFUSE");
  char *rest;
  if (number == NULL) return;
  first = strtoul(number, &rest, 10);
  last = *rest == '+' ? ULONG_MAX : first;
}

static int refuses(void) {
  unsigned long number = __atomic_add_fetch(&requests, 1, __ATOMIC_SEQ_CST);
  if (number < first || number > last) return 0;
  if (write(3, "!", 1) != 1) _exit(99);
  errno = ENOMEM;
  return 1;
}

void *malloc(size_t size) { return refuses() ? NULL : __libc_malloc(size); }

void *calloc(size_t count, size_t size) { return refuses() ? NULL : __libc_calloc(count, size); }

void *realloc(void *old, size_t size) { return refuses() ? NULL : __libc_realloc(old, size); }

void *aligned_alloc(size_t alignment, size_t size) { return refuses() ? NULL : __libc_memalign(alignment, size); }

void *memalign(size_t alignment, size_t size) { return refuses() ? NULL : __libc_memalign(alignment, size); }

int posix_memalign(void **place, size_t alignment, size_t size) {
  void *given = refuses() ? NULL : __libc_memalign(alignment, size);
  if (given == NULL) return ENOMEM;
  *place = given;
  return 0;
}

void *mmap(void *where, size_t size, int access, int kind, int file, off_t from) {
  return refuses() ? MAP_FAILED : (void *)syscall(SYS_mmap, where, size, access, kind, file, from);
}

int pthread_create(pthread_t *thread, const pthread_attr_t *how, void *(*body)(void *), void *given) {
  int (*create)(pthread_t *, const pthread_attr_t *, void *(*)(void *), void *) = dlsym(RTLD_NEXT, "pthread_create");
  return create == NULL || refuses() ? EAGAIN : create(thread, how, body, given);
}
