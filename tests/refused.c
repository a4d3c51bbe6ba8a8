/* Stands in front of the C library of a program (LD_PRELOAD), and refuses it what REFUSED says:

     growth once N   the Nth malloc, calloc or realloc gives no memory
     growth from N   nor does any behind it
     thread from N   from the Nth on no thread is to be had
     FD fail N       the Nth read (FD 0) or write (FD 1 or 2) of this stream fails
     FD break N      it is cut short by a signal
     FD stop N       it moves no byte
     FD short N      each moves one byte, and the Nth none

   What the C library takes before main isn't counted. At the end, REFUSED_TOLD is a file that tells how often a call was refused. */
#define _GNU_SOURCE
#include <dlfcn.h>
#include <errno.h>
#include <fcntl.h>
#include <pthread.h>
#include <stdatomic.h>
#include <stdio.h>
#include <stdlib.h>
#include <string.h>
#include <sys/syscall.h>
#include <unistd.h>

void *__libc_malloc(size_t);
void *__libc_calloc(size_t, size_t);
void *__libc_realloc(void *, size_t);

static char kind[16], way[16];
static unsigned long nth;
static atomic_ulong calls, refused;

static ssize_t (*next_read)(int, void *, size_t);
static ssize_t (*next_write)(int, const void *, size_t);
static int (*next_thread)(pthread_t *, const pthread_attr_t *, void *(*)(void *), void *);

__attribute__((constructor)) static void begin(void) {
    const char *said = getenv("REFUSED");
    next_read = (ssize_t (*)(int, void *, size_t))dlsym(RTLD_NEXT, "read");
    next_write = (ssize_t (*)(int, const void *, size_t))dlsym(RTLD_NEXT, "write");
    next_thread = (int (*)(pthread_t *, const pthread_attr_t *, void *(*)(void *), void *))dlsym(RTLD_NEXT, "pthread_create");
    if (said == NULL || sscanf(said, "%15s %15s %lu", kind, way, &nth) != 3)
        kind[0] = '\0';
}

static void tell(void) {
    const char *name = getenv("REFUSED_TOLD");
    int file = name == NULL ? -1 : open(name, O_WRONLY | O_CREAT | O_TRUNC, 0600);
    char line[32];
    if (file >= 0 && next_write(file, line, (size_t)snprintf(line, sizeof line, "%lu\n", atomic_load(&refused))) > 0)
        close(file);
}

/* By this call the program ends. */
void _exit(int status) {
    kind[0] = '\0';
    tell();
    syscall(SYS_exit_group, status);
    __builtin_unreachable();
}

/* Whether a call of this kind is refused. */
static int is_refused(const char *what) {
    unsigned long number;
    if (strcmp(kind, what) != 0)
        return 0;
    number = atomic_fetch_add(&calls, 1) + 1;
    if (strcmp(way, "from") == 0 ? number < nth : number != nth)
        return 0;
    atomic_fetch_add(&refused, 1);
    return 1;
}

/* Whether there is no memory. */
static int is_full(void) {
    if (!is_refused("growth"))
        return 0;
    errno = ENOMEM;
    return 1;
}

void *malloc(size_t size) { return is_full() ? NULL : __libc_malloc(size); }

void *calloc(size_t count, size_t size) { return is_full() ? NULL : __libc_calloc(count, size); }

void *realloc(void *old, size_t size) { return is_full() ? NULL : __libc_realloc(old, size); }

int pthread_create(pthread_t *thread, const pthread_attr_t *kinds, void *(*run)(void *), void *with) {
    return is_refused("thread") ? EAGAIN : next_thread(thread, kinds, run, with);
}

/* How many bytes a call on this stream is to move, or -1. */
static ssize_t moved(int file, size_t size) {
    char name[16];
    snprintf(name, sizeof name, "%d", file);
    if (is_refused(name)) {
        errno = strcmp(way, "break") == 0 ? EINTR : EIO;
        return strcmp(way, "fail") == 0 || strcmp(way, "break") == 0 ? -1 : 0;
    }
    return strcmp(kind, name) == 0 && strcmp(way, "short") == 0 && size > 1 ? 1 : (ssize_t)size;
}

ssize_t read(int file, void *bytes, size_t size) {
    ssize_t most = moved(file, size);
    return most <= 0 ? most : next_read(file, bytes, (size_t)most);
}

ssize_t write(int file, const void *bytes, size_t size) {
    ssize_t most = moved(file, size);
    return most <= 0 ? most : next_write(file, bytes, (size_t)most);
}
