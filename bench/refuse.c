// Refuses what a program asks of the system, and counts what it asked for. For LD_PRELOAD; all words are of the environment.
//   REFUSE=KIND:N   the N-th call of this kind fails, counted from 1; with a + behind N all that follow it too.
//                   The kinds: allocation (ENOMEM), thread (EAGAIN), read of standard input (EIO), write to standard output (ENOSPC).
//   INTERRUPT=1     the first, third, fifth call and so on that reads standard input or writes to standard output or standard
//                   error fails as by a signal (EINTR).
//   MOST=N          a read or a write gives and takes N bytes at most.
//   SEEN=FILE       what was seen is written to this file: how many calls of each kind, in this order, how many allocations are
//                   left at the end, how many calls were interrupted, and how many bytes were asked for in all.
// Memory is filled with bytes of its own before it is given and before it is taken back.
#define _GNU_SOURCE
#include <dlfcn.h>
#include <errno.h>
#include <fcntl.h>
#include <pthread.h>
#include <stdio.h>
#include <stdlib.h>
#include <string.h>
#include <sys/syscall.h>
#include <unistd.h>

enum { ALLOCATION, THREAD, READ, WRITE, KINDS };
static const char *const names[KINDS] = {"allocation", "thread", "read", "write"};
static long counts[KINDS], live, interrupted, calls, asked;
static long refused, most;
static int kind = -1, goes_on, interrupts;

static void *(*real_malloc)(size_t);
static void *(*real_realloc)(void *, size_t);
static void (*real_free)(void *);
static int (*real_create)(pthread_t *, const pthread_attr_t *, void *(*)(void *), void *);

// What is before each allocation that is counted. Memory of the C library's own has none.
struct head {
  unsigned long mark;
  size_t size;
};
#define MARK 0x5245465553452e43ul

__attribute__((constructor)) static void find(void) {
  if (real_malloc)
    return;
  real_malloc = dlsym(RTLD_NEXT, "malloc");
  real_realloc = dlsym(RTLD_NEXT, "realloc");
  real_free = dlsym(RTLD_NEXT, "free");
  real_create = dlsym(RTLD_NEXT, "pthread_create");
  interrupts = getenv("INTERRUPT") != NULL;
  most = getenv("MOST") ? atol(getenv("MOST")) : 0;
  const char *word = getenv("REFUSE");
  const char *number = word ? strchr(word, ':') : NULL;
  for (int k = 0; number && k < KINDS; k++)
    if (strlen(names[k]) == (size_t)(number - word) && strncmp(names[k], word, number - word) == 0) {
      kind = k;
      refused = atol(number + 1);
      goes_on = strchr(number, '+') != NULL;
    }
}

// Counts a call of this kind, and whether it is to fail.
static int is_refused(int of) {
  find();
  long count = __atomic_add_fetch(&counts[of], 1, __ATOMIC_SEQ_CST);
  return of == kind && (goes_on ? count >= refused : count == refused);
}

void *malloc(size_t size) {
  struct head *head = is_refused(ALLOCATION) || size > (size_t)-1 / 2 ? NULL : real_malloc(size + sizeof *head);
  if (!head) {
    errno = ENOMEM;
    return NULL;
  }
  *head = (struct head){MARK, size};
  __atomic_add_fetch(&live, 1, __ATOMIC_SEQ_CST);
  __atomic_add_fetch(&asked, size, __ATOMIC_SEQ_CST);
  return memset(head + 1, 0xa5, size);
}

void *realloc(void *old, size_t size) {
  if (!old)
    return malloc(size);
  struct head *head = (struct head *)old - 1;
  if (head->mark != MARK)
    return real_realloc(old, size);
  struct head *to = is_refused(ALLOCATION) || size > (size_t)-1 / 2 ? NULL : real_realloc(head, size + sizeof *head);
  if (!to) {
    errno = ENOMEM;
    return NULL;
  }
  __atomic_add_fetch(&asked, size, __ATOMIC_SEQ_CST);
  if (size > to->size)
    memset((char *)(to + 1) + to->size, 0xa5, size - to->size);
  to->size = size;
  return to + 1;
}

void free(void *it) {
  find();
  struct head *head = (struct head *)it - 1;
  if (!it || head->mark != MARK) {
    real_free(it);
    return;
  }
  __atomic_sub_fetch(&live, 1, __ATOMIC_SEQ_CST);
  memset(it, 0x5a, head->size);
  head->mark = 0;
  real_free(head);
}

int pthread_create(pthread_t *thread, const pthread_attr_t *with, void *(*start)(void *), void *arg) {
  return is_refused(THREAD) ? EAGAIN : real_create(thread, with, start, arg);
}

// Whether this call is to fail: by a signal, or since it is refused.
static int fails(int of, int is_counted, int why) {
  find();
  if (interrupts && __atomic_add_fetch(&calls, 1, __ATOMIC_SEQ_CST) % 2 == 1) {
    __atomic_add_fetch(&interrupted, 1, __ATOMIC_SEQ_CST);
    errno = EINTR;
    return 1;
  }
  if (is_counted && is_refused(of)) {
    errno = why;
    return 1;
  }
  return 0;
}

// As many bytes as a call may give or take.
static size_t at_most(size_t size) {
  return most > 0 && size > (size_t)most ? (size_t)most : size;
}

ssize_t read(int fd, void *room, size_t size) {
  if (fd == 0 && fails(READ, 1, EIO))
    return -1;
  return syscall(SYS_read, fd, room, at_most(size));
}

ssize_t write(int fd, const void *piece, size_t size) {
  if ((fd == 1 || fd == 2) && fails(WRITE, fd == 1, ENOSPC))
    return -1;
  return syscall(SYS_write, fd, piece, at_most(size));
}

__attribute__((destructor)) static void tell(void) {
  char line[160];
  const char *to = getenv("SEEN");
  int fd = to ? open(to, O_WRONLY | O_CREAT | O_TRUNC, 0644) : -1;
  if (fd < 0)
    return;
  int size = snprintf(line, sizeof line, "%ld %ld %ld %ld %ld %ld %ld\n", counts[ALLOCATION], counts[THREAD], counts[READ],
                      counts[WRITE], live, interrupted, asked);
  syscall(SYS_write, fd, line, size);
  syscall(SYS_close, fd);
}

// A program that ends so runs no destructors.
void _exit(int status) {
  tell();
  for (;;)
    syscall(SYS_exit_group, status);
}
