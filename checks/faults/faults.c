/* Lets one call of a program fail, by LD_PRELOAD: the call of one kind whose number the environment gives.
 *
 * FAULT=KIND:N where KIND is
 *   growth       a malloc or realloc answers NULL
 *   read         a read of descriptor 0 fails with EIO
 *   short_read   a read of descriptor 0 moves one byte
 *   write        a write to descriptor 1 fails with EIO
 *   short_write  a write to descriptor 1 moves one byte
 *   thread       a pthread_create fails with EAGAIN
 * Calls of a kind are counted from 1; number 0 is each call. "F" is written to descriptor 3 when a call fails or is cut short.
 */
#define _GNU_SOURCE
#include <dlfcn.h>
#include <errno.h>
#include <pthread.h>
#include <stdatomic.h>
#include <stdlib.h>
#include <string.h>
#include <unistd.h>

enum kind { GROWTH, READ, SHORT_READ, WRITE, SHORT_WRITE, THREAD, KINDS };
static const char *const names[KINDS] = {"growth", "read", "short_read", "write", "short_write", "thread"};

static enum kind wanted = KINDS;
static long number;
static atomic_long counted;

static void *(*real_malloc)(size_t);
static void *(*real_realloc)(void *, size_t);
static ssize_t (*real_read)(int, void *, size_t);
static ssize_t (*real_write)(int, const void *, size_t);
static int (*real_create)(pthread_t *, const pthread_attr_t *, void *(*)(void *), void *);

static void find_calls(void) {
    real_malloc = dlsym(RTLD_NEXT, "malloc");
    real_realloc = dlsym(RTLD_NEXT, "realloc");
    real_read = dlsym(RTLD_NEXT, "read");
    real_write = dlsym(RTLD_NEXT, "write");
    real_create = dlsym(RTLD_NEXT, "pthread_create");
}

__attribute__((constructor)) static void begin(void) {
    find_calls();
    const char *fault = getenv("FAULT");
    const char *colon = fault ? strchr(fault, ':') : NULL;
    for (int kind = 0; colon && kind < KINDS; kind++)
        if (strlen(names[kind]) == (size_t)(colon - fault) && !strncmp(names[kind], fault, colon - fault)) {
            number = atol(colon + 1);
            wanted = kind;
        }
}

/* Whether this call of a kind is the one that fails. */
static int is_due(enum kind kind) {
    if (kind != wanted) return 0;
    long count = atomic_fetch_add(&counted, 1) + 1;
    if (number != 0 && count != number) return 0;
    real_write(3, "F", 1);
    return 1;
}

void *malloc(size_t size) {
    if (!real_malloc) find_calls();
    if (is_due(GROWTH)) {
        errno = ENOMEM;
        return NULL;
    }
    return real_malloc(size);
}

void *realloc(void *old, size_t size) {
    if (is_due(GROWTH)) {
        errno = ENOMEM;
        return NULL;
    }
    return real_realloc(old, size);
}

ssize_t read(int file, void *room, size_t size) {
    if (file == 0 && is_due(READ)) {
        errno = EIO;
        return -1;
    }
    return real_read(file, room, file == 0 && size > 1 && is_due(SHORT_READ) ? 1 : size);
}

ssize_t write(int file, const void *bytes, size_t size) {
    int is_told = file == 1;
    if (is_told && is_due(WRITE)) {
        errno = EIO;
        return -1;
    }
    return real_write(file, bytes, is_told && size > 1 && is_due(SHORT_WRITE) ? 1 : size);
}

int pthread_create(pthread_t *thread, const pthread_attr_t *settings, void *(*call)(void *), void *argument) {
    return is_due(THREAD) ? EAGAIN : real_create(thread, settings, call, argument);
}
