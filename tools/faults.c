/* Makes calls of the C library fail, for tools/faults.py: it is loaded before the library into the program that is run.
 *
 * FAULT is the kind of call that fails: "alloc" (malloc, calloc and realloc), "read" (of standard input), "write" (of standard
 * output) or "thread" (pthread_create); any other word is none. The calls of this kind are numbered from 1, and those from
 * FAULT_FIRST to FAULT_LAST fail. At the first of them a byte goes to the descriptor FAULT_TOLD, and after it, for a write, the
 * bytes that the call was handed. A read and a write move at most FAULT_BYTES bytes, if that is not 0.
 *
 * The calls below are made through the names that the GNU C library has for itself, so that none comes back here.
 */
#define _GNU_SOURCE
#include <dlfcn.h>
#include <errno.h>
#include <pthread.h>
#include <stdatomic.h>
#include <stdlib.h>
#include <string.h>
#include <sys/syscall.h>
#include <unistd.h>

extern void *__libc_malloc(size_t bytes);
extern void *__libc_calloc(size_t count, size_t bytes);
extern void *__libc_realloc(void *old, size_t bytes);

static const char *failing = "";
static long first, last, told, most_bytes;
static atomic_long calls;

static long number_in(const char *name) {
    const char *word = getenv(name);
    return word == NULL ? 0 : atol(word);
}

__attribute__((constructor)) static void prepare(void) {
    first = number_in("FAULT_FIRST");
    last = number_in("FAULT_LAST");
    told = number_in("FAULT_TOLD");
    most_bytes = number_in("FAULT_BYTES");
    const char *word = getenv("FAULT");
    failing = word == NULL ? "" : word;
}

/* Whether this call, which was handed these bytes, is one that is to fail. */
static int fails(const char *kind, const void *handed, size_t bytes) {
    if (strcmp(failing, kind) != 0) {
        return 0;
    }
    long number = atomic_fetch_add(&calls, 1) + 1;
    if (number == first) {
        syscall(SYS_write, told, "x", 1);
        syscall(SYS_write, told, handed, bytes);
    }
    return first <= number && number <= last;
}

static void *no_memory(void) {
    errno = ENOMEM;
    return NULL;
}

void *malloc(size_t bytes) {
    return fails("alloc", "", 0) ? no_memory() : __libc_malloc(bytes);
}

void *calloc(size_t count, size_t bytes) {
    return fails("alloc", "", 0) ? no_memory() : __libc_calloc(count, bytes);
}

void *realloc(void *old, size_t bytes) {
    return fails("alloc", "", 0) ? no_memory() : __libc_realloc(old, bytes);
}

static size_t moved_at_once(size_t bytes) {
    return most_bytes > 0 && bytes > (size_t)most_bytes ? (size_t)most_bytes : bytes;
}

static ssize_t input_output_error(void) {
    errno = EIO;
    return -1;
}

ssize_t read(int from, void *into, size_t bytes) {
    if (from != STDIN_FILENO) {
        return syscall(SYS_read, from, into, bytes);
    }
    return fails("read", "", 0) ? input_output_error() : syscall(SYS_read, from, into, moved_at_once(bytes));
}

ssize_t write(int to, const void *from, size_t bytes) {
    if (to != STDOUT_FILENO) {
        return syscall(SYS_write, to, from, bytes);
    }
    return fails("write", from, bytes) ? input_output_error() : syscall(SYS_write, to, from, moved_at_once(bytes));
}

ssize_t __write(int to, const void *from, size_t bytes) {
    return write(to, from, bytes);
}

int pthread_create(pthread_t *thread, const pthread_attr_t *attributes, void *(*work)(void *), void *handed) {
    if (fails("thread", "", 0)) {
        return EAGAIN;
    }
    int (*next)(pthread_t *, const pthread_attr_t *, void *(*)(void *), void *) = dlsym(RTLD_NEXT, "pthread_create");
    return next(thread, attributes, work, handed);
}
