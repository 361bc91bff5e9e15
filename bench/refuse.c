// Refuses one allocation of a program: preloaded, it fails the call of malloc or realloc whose number is WDL_REFUSE, from 1 on, and none where that is 0.
// The file WDL_COUNTED, of eight bytes, has the number of the calls so far. The program's children run without it.
#include <errno.h>
#include <fcntl.h>
#include <stdatomic.h>
#include <stdlib.h>
#include <sys/mman.h>
#include <unistd.h>

extern void *__libc_malloc(size_t size);
extern void *__libc_realloc(void *old, size_t size);

static atomic_long before;
static atomic_long *calls = &before;
static long refused;

__attribute__((constructor)) static void begin(void) {
  const char *number = getenv("WDL_REFUSE"), *counted = getenv("WDL_COUNTED");
  int file = counted ? open(counted, O_RDWR) : -1;
  void *shared = file < 0 ? MAP_FAILED : mmap(NULL, sizeof *calls, PROT_READ | PROT_WRITE, MAP_SHARED, file, 0);
  if (shared != MAP_FAILED) calls = shared;
  if (file >= 0) close(file);
  refused = number ? atol(number) : 0;
  unsetenv("LD_PRELOAD");
}

static int is_refused(void) {
  if (atomic_fetch_add(calls, 1) + 1 != refused) return 0;
  errno = ENOMEM;
  return 1;
}

void *malloc(size_t size) { return is_refused() ? NULL : __libc_malloc(size); }
void *realloc(void *old, size_t size) { return is_refused() ? NULL : __libc_realloc(old, size); }
