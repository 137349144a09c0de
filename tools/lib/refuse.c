/* Stands before the C library's malloc, calloc, realloc, pthread_create, getentropy and _exit. The request for memory whose
   number is in REFUSE is refused, or the thread whose number is in REFUSE_THREAD; where REFUSE_RANDOM is set, there are no
   random bytes. COUNT names a file to which the numbers of requests and of threads are written at the end. */
#define _GNU_SOURCE
#include <dlfcn.h>
#include <errno.h>
#include <fcntl.h>
#include <pthread.h>
#include <stdio.h>
#include <stdlib.h>
#include <sys/syscall.h>
#include <unistd.h>

static unsigned long requests, threads, refused, refused_thread;
static void *(*next_malloc)(size_t);
static void *(*next_calloc)(size_t, size_t);
static void *(*next_realloc)(void *, size_t);
static int (*next_create)(pthread_t *, const pthread_attr_t *, void *(*)(void *), void *);

static unsigned long number_in(const char *name) {
    const char *number = getenv(name);
    return number == NULL ? 0 : strtoul(number, NULL, 10);
}

__attribute__((constructor)) static void begin(void) {
    next_malloc = dlsym(RTLD_NEXT, "malloc");
    next_calloc = dlsym(RTLD_NEXT, "calloc");
    next_realloc = dlsym(RTLD_NEXT, "realloc");
    next_create = dlsym(RTLD_NEXT, "pthread_create");
    refused = number_in("REFUSE");
    refused_thread = number_in("REFUSE_THREAD");
}

/* What is asked for before all names are known is the C library's own. */
extern void *__libc_malloc(size_t);
extern void *__libc_calloc(size_t, size_t);
extern void *__libc_realloc(void *, size_t);

static int refuses(void) {
    if (next_create == NULL || __atomic_add_fetch(&requests, 1, __ATOMIC_SEQ_CST) != refused) {
        return 0;
    }
    errno = ENOMEM;
    return 1;
}

void *malloc(size_t size) {
    if (refuses()) {
        return NULL;
    }
    return next_malloc == NULL ? __libc_malloc(size) : next_malloc(size);
}

void *calloc(size_t count, size_t size) {
    if (refuses()) {
        return NULL;
    }
    return next_calloc == NULL ? __libc_calloc(count, size) : next_calloc(count, size);
}

void *realloc(void *old, size_t size) {
    if (refuses()) {
        return NULL;
    }
    return next_realloc == NULL ? __libc_realloc(old, size) : next_realloc(old, size);
}

int pthread_create(pthread_t *thread, const pthread_attr_t *attributes, void *(*start)(void *), void *argument) {
    if (__atomic_add_fetch(&threads, 1, __ATOMIC_SEQ_CST) == refused_thread) {
        return EAGAIN;
    }
    return next_create(thread, attributes, start, argument);
}

int getentropy(void *bytes, size_t size) {
    if (getenv("REFUSE_RANDOM") != NULL) {
        errno = ENOSYS;
        return -1;
    }
    return syscall(SYS_getrandom, bytes, size, 0) == (long)size ? 0 : -1;
}

__attribute__((destructor)) static void tell(void) {
    const char *name = getenv("COUNT");
    int file = name == NULL ? -1 : open(name, O_WRONLY | O_CREAT | O_TRUNC, 0600);
    if (file >= 0) {
        dprintf(file, "%lu %lu\n", requests, threads);
        close(file);
    }
}

/* A program that ends so runs no destructor. */
void _exit(int status) {
    tell();
    syscall(SYS_exit_group, status);
    __builtin_unreachable();
}
