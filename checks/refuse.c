/* Stands before the C library (LD_PRELOAD) in a program, and refuses or shortens one of its calls, as the environment
   says. The scripts beside this file build it.

   REFUSE_CALL   memory: malloc or realloc answers that there is none
                 thread: pthread_create answers EAGAIN
                 read, write: the call fails with EIO; REFUSE_ERROR is another error number, and 0 is a call that moves
                 nothing
                 short-read, short-write: the call moves one byte
   REFUSE_AT     the number of the call of that kind, from 1, in all threads together
   REFUSE_FD     the descriptor whose reads or writes are counted; all where it is left out
   REFUSE_TOLD   a file that is made where a call was refused or shortened */
#define _GNU_SOURCE
#include <dlfcn.h>
#include <errno.h>
#include <fcntl.h>
#include <pthread.h>
#include <stdatomic.h>
#include <stdlib.h>
#include <string.h>
#include <sys/syscall.h>
#include <unistd.h>

extern void *__libc_malloc(size_t);
extern void *__libc_realloc(void *, size_t);

static char kind[32];
static char told[256];
static long at;
static int descriptor = -1;
static int error = EIO;
static atomic_long calls;

__attribute__((constructor)) static void begin(void) {
    const char *word = getenv("REFUSE_AT");
    if (word) at = strtol(word, NULL, 10);
    if ((word = getenv("REFUSE_FD"))) descriptor = atoi(word);
    if ((word = getenv("REFUSE_ERROR"))) error = atoi(word);
    if ((word = getenv("REFUSE_TOLD"))) strncpy(told, word, sizeof told - 1);
    if ((word = getenv("REFUSE_CALL"))) strncpy(kind, word, sizeof kind - 1);
}

static int is_its_turn(const char *call) {
    if (at == 0 || strcmp(kind, call) != 0) return 0;
    if (atomic_fetch_add(&calls, 1) + 1 != at) return 0;
    if (told[0]) {
        long file = syscall(SYS_openat, AT_FDCWD, told, O_CREAT | O_WRONLY, 0600);
        if (file >= 0) syscall(SYS_close, file);
    }
    return 1;
}

void *malloc(size_t size) {
    if (is_its_turn("memory")) {
        errno = ENOMEM;
        return NULL;
    }
    return __libc_malloc(size);
}

void *realloc(void *block, size_t size) {
    if (is_its_turn("memory")) {
        errno = ENOMEM;
        return NULL;
    }
    return __libc_realloc(block, size);
}

int pthread_create(pthread_t *thread, const pthread_attr_t *attributes, void *(*body)(void *), void *argument) {
    static int (*next)(pthread_t *, const pthread_attr_t *, void *(*)(void *), void *);
    if (is_its_turn("thread")) return EAGAIN;
    if (!next) next = (int (*)(pthread_t *, const pthread_attr_t *, void *(*)(void *), void *))dlsym(RTLD_NEXT, "pthread_create");
    return next(thread, attributes, body, argument);
}

static ssize_t moved(long call, const char *failing, const char *shortened, int file, void *bytes, size_t count) {
    if (descriptor < 0 || file == descriptor) {
        if (count > 0 && is_its_turn(failing)) {
            errno = error;
            return error ? -1 : 0;
        }
        if (count > 1 && is_its_turn(shortened)) count = 1;
    }
    return syscall(call, file, bytes, count);
}

ssize_t read(int file, void *bytes, size_t count) {
    return moved(SYS_read, "read", "short-read", file, bytes, count);
}

ssize_t write(int file, const void *bytes, size_t count) {
    return moved(SYS_write, "write", "short-write", file, (void *)bytes, count);
}
