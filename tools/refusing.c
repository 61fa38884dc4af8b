/* Stands before a program by LD_PRELOAD, and refuses one of its calls or counts them, in whichever thread they are made. The
   environment says which:

     REFUSE=growth:N       the Nth call for memory finds none
     REFUSE=growths:N      neither does any behind it
     REFUSE=thread:N       the Nth thread is not made
     REFUSE=read:N         the Nth read of standard input fails
     REFUSE=write:N        the Nth write to standard output fails
     REFUSE=interrupted:N  the Nth read of standard input and all behind it are interrupted
     READ_BYTES=N          a read of standard input gives at most so many bytes
     REFUSED=FILE          this file is made as soon as a call is refused; it says `again` once the next call of the same
                           thread for memory is for no more than a refused one was
     READS=FILE            is told how often standard input was read, as the program ends
     ASKED=FILE            is told, before each write to standard output, how many bytes of memory were asked for
                           since the one before it, the most of them that were held at a time, and how many bytes are
                           written */

#define _GNU_SOURCE
#include <dlfcn.h>
#include <errno.h>
#include <fcntl.h>
#include <malloc.h>
#include <pthread.h>
#include <stdio.h>
#include <stdlib.h>
#include <string.h>
#include <sys/syscall.h>
#include <unistd.h>

void *__libc_malloc(size_t);
void *__libc_calloc(size_t, size_t);
void *__libc_realloc(void *, size_t);
void *__libc_memalign(size_t, size_t);
void __libc_free(void *);

static const char *refuse_kind = "";
static unsigned long refuse_at, read_bytes;
static unsigned long growths, reads, writes, threads;
static int (*make_thread)(pthread_t *, const pthread_attr_t *, void *(*)(void *), void *);
static __thread size_t refused_size __attribute__((tls_model("initial-exec")));
static unsigned long asked, held, most_held;
static int asked_file = -1;
static int is_ready;

static void say_refused(const char *text) {
    const char *name = getenv("REFUSED");
    if (!name)
        return;
    int file = open(name, O_CREAT | O_TRUNC | O_WRONLY, 0600);
    ssize_t len = strlen(text);
    if (file < 0 || syscall(SYS_write, file, text, len) != len)
        _exit(99);
    close(file);
}

/* Whether the call of this kind, the count-th, is the one to refuse. */
static int is_refused(const char *kind, unsigned long count) {
    if (!is_ready || count != refuse_at || strcmp(refuse_kind, kind) != 0)
        return 0;
    say_refused("");
    return 1;
}

static int is_growth_refused(size_t size) {
    if (!is_ready)
        return 0;
    if (refused_size) {
        if (size <= refused_size)
            say_refused("again");
        refused_size = 0;
    }
    unsigned long count = __atomic_add_fetch(&growths, 1, __ATOMIC_SEQ_CST);
    int is_none_left = count > refuse_at && strcmp(refuse_kind, "growths") == 0;
    if (!is_none_left && !is_refused("growth", count) && !is_refused("growths", count))
        return 0;
    refused_size = size;
    errno = ENOMEM;
    return 1;
}

/* What is counted here is told of programs with one thread alone. */
static void *noted(void *memory, size_t size) {
    if (asked_file < 0)
        return memory;
    asked += size;
    if (memory)
        held += malloc_usable_size(memory);
    if (held > most_held)
        most_held = held;
    return memory;
}

static void let_go(void *memory) {
    if (asked_file < 0)
        return;
    size_t size = memory ? malloc_usable_size(memory) : 0;
    held = size < held ? held - size : 0;
}

void *malloc(size_t size) {
    return is_growth_refused(size) ? NULL : noted(__libc_malloc(size), size);
}

void *calloc(size_t count, size_t size) {
    return is_growth_refused(count * size) ? NULL : noted(__libc_calloc(count, size), count * size);
}

void *realloc(void *old, size_t size) {
    if (is_growth_refused(size))
        return NULL;
    let_go(old);
    return noted(__libc_realloc(old, size), size);
}

void *memalign(size_t align, size_t size) {
    return is_growth_refused(size) ? NULL : noted(__libc_memalign(align, size), size);
}

void *aligned_alloc(size_t align, size_t size) {
    return memalign(align, size);
}

int posix_memalign(void **out, size_t align, size_t size) {
    void *memory = memalign(align, size);
    if (!memory)
        return ENOMEM;
    *out = memory;
    return 0;
}

void free(void *memory) {
    let_go(memory);
    __libc_free(memory);
}

int pthread_create(pthread_t *thread, const pthread_attr_t *how, void *(*work)(void *), void *given) {
    if (is_refused("thread", __atomic_add_fetch(&threads, 1, __ATOMIC_SEQ_CST)))
        return EAGAIN;
    return make_thread(thread, how, work, given);
}

ssize_t read(int file, void *bytes, size_t count) {
    if (file == 0) {
        reads++;
        if (is_refused("read", reads)) {
            errno = EIO;
            return -1;
        }
        if (strcmp(refuse_kind, "interrupted") == 0 && reads >= refuse_at) {
            errno = EINTR;
            return -1;
        }
        if (read_bytes && count > read_bytes)
            count = read_bytes;
    }
    return syscall(SYS_read, file, bytes, count);
}

/* Tells what was asked for, and begins to count anew. What is held stays held, so that the most is counted from it. */
static void tell_asked(size_t count) {
    static unsigned long held_before;
    char line[80];
    int len = snprintf(line, sizeof line, "%lu %lu %zu\n", asked, most_held - held_before, count);
    if (syscall(SYS_write, asked_file, line, len) != len)
        _exit(99);
    asked = 0;
    held_before = most_held = held;
}

ssize_t write(int file, const void *bytes, size_t count) {
    if (file == 1) {
        if (is_refused("write", ++writes)) {
            errno = EIO;
            return -1;
        }
        if (asked_file >= 0)
            tell_asked(count);
    }
    return syscall(SYS_write, file, bytes, count);
}

__attribute__((constructor)) static void begin(void) {
    static char kind[32];
    const char *what = getenv("REFUSE");
    const char *colon = what ? strchr(what, ':') : NULL;
    if (colon && (size_t)(colon - what) < sizeof kind) {
        memcpy(kind, what, colon - what);
        refuse_kind = kind;
        refuse_at = strtoul(colon + 1, NULL, 10);
    }
    if (getenv("READ_BYTES"))
        read_bytes = strtoul(getenv("READ_BYTES"), NULL, 10);
    if (getenv("ASKED"))
        asked_file = open(getenv("ASKED"), O_CREAT | O_TRUNC | O_WRONLY, 0600);
    *(void **)&make_thread = dlsym(RTLD_NEXT, "pthread_create");
    is_ready = 1;
}

__attribute__((destructor)) static void end(void) {
    const char *name = getenv("READS");
    is_ready = 0;
    if (!name)
        return;
    char line[32];
    int len = snprintf(line, sizeof line, "%lu\n", reads);
    int file = open(name, O_CREAT | O_TRUNC | O_WRONLY, 0600);
    if (file < 0 || syscall(SYS_write, file, line, len) != len)
        syscall(SYS_exit_group, 99);
    close(file);
}

/* A program with threads ends by this call, which runs no destructors. */
void _exit(int status) {
    end();
    syscall(SYS_exit_group, status);
    for (;;)
        ;
}
