/* Preloaded before the C library: refuses one allocation of the program, or all from one on, or thread starts. Allocations that the
   C library makes for itself aren't counted. The environment says what is refused:

     REFUSE_ALLOCATION=N   the N-th allocation, counted from 1
     REFUSE_FROM=N         the N-th and all behind it
     REFUSE_THREAD=N       the N-th start of a thread and all behind it
     REFUSE_SEEN=PATH      a file that is made as soon as something is refused
     REFUSE_COUNT=PATH     a file that has the number of allocations, as eight bytes of this machine's order */
#define _GNU_SOURCE
#include <errno.h>
#include <fcntl.h>
#include <link.h>
#include <pthread.h>
#include <stdatomic.h>
#include <stdlib.h>
#include <sys/mman.h>
#include <unistd.h>
#include <dlfcn.h>

extern void *__libc_malloc(size_t size);
extern void *__libc_realloc(void *old, size_t size);

static unsigned long one, from, thread_from, program_begin, program_end;
static const char *seen;
static atomic_ulong counted_here, threads;
static atomic_ulong *allocations = &counted_here;

static unsigned long number_in(const char *name) {
  const char *text = getenv(name);
  return text == NULL ? 0 : strtoul(text, NULL, 10);
}

/* the first object is the program itself */
static int take_program(struct dl_phdr_info *info, size_t size, void *data) {
  (void)size;
  (void)data;
  for (int i = 0; i < info->dlpi_phnum; i++) {
    if (info->dlpi_phdr[i].p_type == PT_LOAD) {
      unsigned long begin = info->dlpi_addr + info->dlpi_phdr[i].p_vaddr;
      unsigned long end = begin + info->dlpi_phdr[i].p_memsz;
      if (program_end == 0 || begin < program_begin) program_begin = begin;
      if (end > program_end) program_end = end;
    }
  }
  return 1;
}

__attribute__((constructor)) static void begin(void) {
  dl_iterate_phdr(take_program, NULL);
  one = number_in("REFUSE_ALLOCATION");
  from = number_in("REFUSE_FROM");
  thread_from = number_in("REFUSE_THREAD");
  seen = getenv("REFUSE_SEEN");
  const char *path = getenv("REFUSE_COUNT");
  int file = path == NULL ? -1 : open(path, O_CREAT | O_TRUNC | O_RDWR, 0600);
  if (file >= 0 && ftruncate(file, sizeof *allocations) == 0) {
    /* the program may end without being told of it, so the count stands in the file from the first on */
    void *place = mmap(NULL, sizeof *allocations, PROT_READ | PROT_WRITE, MAP_SHARED, file, 0);
    if (place != MAP_FAILED) allocations = place;
  }
  if (file >= 0) close(file);
}

static void is_seen(void) {
  if (seen != NULL) {
    int file = open(seen, O_CREAT | O_WRONLY, 0600);
    if (file >= 0) close(file);
  }
}

static int is_refused(void *caller) {
  unsigned long address = (unsigned long)caller;
  if (address < program_begin || address >= program_end) return 0;
  unsigned long number = atomic_fetch_add(allocations, 1) + 1;
  if (number == one || (from != 0 && number >= from)) {
    is_seen();
    return 1;
  }
  return 0;
}

void *malloc(size_t size) {
  if (is_refused(__builtin_return_address(0))) {
    errno = ENOMEM;
    return NULL;
  }
  return __libc_malloc(size);
}

void *realloc(void *old, size_t size) {
  if (is_refused(__builtin_return_address(0))) {
    errno = ENOMEM;
    return NULL;
  }
  return __libc_realloc(old, size);
}

int pthread_create(pthread_t *thread, const pthread_attr_t *attributes, void *(*body)(void *), void *data) {
  static int (*real)(pthread_t *, const pthread_attr_t *, void *(*)(void *), void *);
  if (real == NULL) real = (int (*)(pthread_t *, const pthread_attr_t *, void *(*)(void *), void *))dlsym(RTLD_NEXT, "pthread_create");
  unsigned long number = atomic_fetch_add(&threads, 1) + 1;
  if (thread_from != 0 && number >= thread_from) {
    is_seen();
    return EAGAIN;
  }
  return real(thread, attributes, body, data);
}
