/* Stands before a program by LD_PRELOAD, and ends it by signal 9 in place of the Nth of its calls that change a disk or tell something:
   KILL_AT=N in the environment. KILL_AT=gone ends it in place of the first that takes a name from a folder of mail. What the calls before it did
   stands, and nothing of those behind it is done. */

#define _GNU_SOURCE
#include <dlfcn.h>
#include <fcntl.h>
#include <signal.h>
#include <stdarg.h>
#include <stdlib.h>
#include <string.h>
#include <sys/stat.h>
#include <sys/types.h>
#include <unistd.h>

static unsigned long calls;

/* Counts a call, which is the last one where it is the Nth. */
static void count(void) {
    const char *at = getenv("KILL_AT");
    if (at && __atomic_add_fetch(&calls, 1, __ATOMIC_SEQ_CST) == strtoul(at, 0, 10))
        kill(getpid(), SIGKILL);
}

/* A call that takes away a name. */
static void count_gone(const char *path) {
    const char *at = getenv("KILL_AT");
    if (at && strcmp(at, "gone") == 0 && (strstr(path, "/cur/") || strstr(path, "/new/")))
        kill(getpid(), SIGKILL);
    count();
}

#define REAL(name) ((__typeof__(name) *)dlsym(RTLD_NEXT, #name))

static mode_t mode_behind(int flags, va_list words) { return flags & O_CREAT ? va_arg(words, mode_t) : 0; }

int open(const char *path, int flags, ...) {
    va_list words;
    va_start(words, flags);
    mode_t mode = mode_behind(flags, words);
    va_end(words);
    if (flags & O_CREAT)
        count();
    return REAL(open)(path, flags, mode);
}

int openat(int folder, const char *path, int flags, ...) {
    va_list words;
    va_start(words, flags);
    mode_t mode = mode_behind(flags, words);
    va_end(words);
    if (flags & O_CREAT)
        count();
    return REAL(openat)(folder, path, flags, mode);
}

ssize_t write(int file, const void *bytes, size_t length) { return count(), REAL(write)(file, bytes, length); }
ssize_t pwrite(int file, const void *bytes, size_t length, off_t at) { return count(), REAL(pwrite)(file, bytes, length, at); }
int rename(const char *from, const char *to) { return count_gone(from), REAL(rename)(from, to); }
int link(const char *from, const char *to) { return count(), REAL(link)(from, to); }
int unlink(const char *path) { return count_gone(path), REAL(unlink)(path); }
int mkdir(const char *path, mode_t mode) { return count(), REAL(mkdir)(path, mode); }
int ftruncate(int file, off_t length) { return count(), REAL(ftruncate)(file, length); }
int fsync(int file) { return count(), REAL(fsync)(file); }
int fdatasync(int file) { return count(), REAL(fdatasync)(file); }
