// Refuses one request of a process: LD_PRELOAD this with, in the environment,
//   REFUSE=N         the Nth request for memory is refused; with 0 none
//   REFUSE_THREAD=N  the Nth start of a thread is refused; with 0 none
// With REFUSE=0 the numbers of both are written to standard error in the end, as 'requests R threads T'.
#define _GNU_SOURCE
#include <dlfcn.h>
#include <errno.h>
#include <pthread.h>
#include <stdio.h>
#include <stdlib.h>
#include <string.h>
#include <sys/syscall.h>
#include <unistd.h>

static _Atomic unsigned long requests, threads;

static int refuses(_Atomic unsigned long* made, const char* name) {
  const char* text = getenv(name);
  return ++*made == (text ? strtoul(text, 0, 10) : 0);
}

static void* next(const char* name) { return dlsym(RTLD_NEXT, name); }

static void print_counts(void) {
  const char* text = getenv("REFUSE");
  if (text && !strcmp(text, "0")) dprintf(2, "requests %lu threads %lu\n", requests, threads);
}

void* malloc(size_t size) {
  static void* (*real)(size_t);
  if (!real) real = (void* (*)(size_t))next("malloc");
  if (refuses(&requests, "REFUSE")) { errno = ENOMEM; return 0; }
  return real(size);
}

void* realloc(void* old, size_t size) {
  static void* (*real)(void*, size_t);
  if (!real) real = (void* (*)(void*, size_t))next("realloc");
  if (refuses(&requests, "REFUSE")) { errno = ENOMEM; return 0; }
  return real(old, size);
}

void* aligned_alloc(size_t align, size_t size) {
  static void* (*real)(size_t, size_t);
  if (!real) real = (void* (*)(size_t, size_t))next("aligned_alloc");
  if (refuses(&requests, "REFUSE")) { errno = ENOMEM; return 0; }
  return real(align, size);
}

int pthread_create(pthread_t* thread, const pthread_attr_t* how, void* (*start)(void*), void* argument) {
  static int (*real)(pthread_t*, const pthread_attr_t*, void* (*)(void*), void*);
  if (!real) real = (int (*)(pthread_t*, const pthread_attr_t*, void* (*)(void*), void*))next("pthread_create");
  if (refuses(&threads, "REFUSE_THREAD")) return EAGAIN;
  return real(thread, how, start, argument);
}

// A program with threads ends by _exit, which runs no destructor.
__attribute__((destructor)) static void at_exit(void) { print_counts(); }

void _exit(int status) {
  print_counts();
  syscall(SYS_exit_group, status);
  __builtin_unreachable();
}
