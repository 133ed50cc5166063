// Stands between the program and its calls of the system: notes them, and makes some of them fail.
//
//   gcc -shared -fPIC -O1 -o calls.so calls.c -ldl
//   LD_PRELOAD=calls.so EDGE_NOTES=FILE EDGE_FAILS="NAME FROM TO ERRNO[,..]" EDGE_COUNTS=FILE EDGE_HOLDS="NAME NUMBER" program ..
//
// EDGE_NOTES names a file. It gets a line for each call, in their order and as soon as it is answered: the call's name, the file
// that the descriptor leads to (or the path that was given), and, of a read or write, its place and count. A call that failed has
// `failed ERRNO` behind it.
//
// EDGE_FAILS makes calls fail and leaves them undone: those of this name with these numbers, the first being 1. `malloc` is
// one of the names, and counts each request for memory of the program. Up to four such parts may follow one another.
//
// EDGE_COUNTS names a file. When the program ends it gets a line for each part of EDGE_FAILS: how many calls of that name were made.
//
// EDGE_HOLDS stops the program, by SIGSTOP, before the call of this name and number is made.
#define _GNU_SOURCE
#include <dlfcn.h>
#include <errno.h>
#include <fcntl.h>
#include <pthread.h>
#include <signal.h>
#include <stdarg.h>
#include <stdio.h>
#include <stdlib.h>
#include <string.h>
#include <sys/file.h>
#include <sys/stat.h>
#include <sys/syscall.h>
#include <unistd.h>

static pthread_mutex_t turn = PTHREAD_MUTEX_INITIALIZER;
static int notes = -1;
static char holding[32];
static long held, holding_count;
static struct {
    char name[32];
    long from, to, count;
    int error;
} failing[4];
static int failing_parts;

__attribute__((constructor)) static void begin(void) {
    const char *name = getenv("EDGE_NOTES"), *fails = getenv("EDGE_FAILS"), *holds = getenv("EDGE_HOLDS");
    if (name) {
        // (far from the numbers that the program gets)
        int fd = syscall(SYS_openat, AT_FDCWD, name, O_WRONLY | O_CREAT | O_APPEND | O_CLOEXEC, 0600);
        notes = fcntl(fd, F_DUPFD_CLOEXEC, 100);
        syscall(SYS_close, fd);
    }
    for (; fails; fails = strchr(fails, ',') ? strchr(fails, ',') + 1 : NULL) {
        if (failing_parts == 4) _exit(120);
        __typeof__(&failing[0]) part = &failing[failing_parts++];
        if (sscanf(fails, "%31s %ld %ld %d", part->name, &part->from, &part->to, &part->error) != 4) _exit(120);
    }
    if (holds && sscanf(holds, "%31s %ld", holding, &held) != 2) _exit(120);
}

// Whether this call is one that fails. Where it is the one to be held at, the program stops first.
static int fails(const char *name) {
    if (!strcmp(name, holding) && __atomic_add_fetch(&holding_count, 1, __ATOMIC_SEQ_CST) == held)
        syscall(SYS_tgkill, getpid(), syscall(SYS_gettid), SIGSTOP);
    for (int i = 0; i < failing_parts; i++) {
        if (strcmp(name, failing[i].name)) continue;
        long number = __atomic_add_fetch(&failing[i].count, 1, __ATOMIC_SEQ_CST);
        if (number < failing[i].from || number > failing[i].to) continue;
        errno = failing[i].error;
        return 1;
    }
    return 0;
}

// Tells the counts. The program ends by `_exit`, which runs no destructor.
__attribute__((destructor)) static void end(void) {
    const char *name = getenv("EDGE_COUNTS");
    if (!name) return;
    int fd = syscall(SYS_openat, AT_FDCWD, name, O_WRONLY | O_CREAT | O_TRUNC | O_CLOEXEC, 0600);
    for (int i = 0; i < failing_parts; i++) {
        char line[80];
        int length = snprintf(line, sizeof line, "%s %ld\n", failing[i].name, failing[i].count);
        if (syscall(SYS_write, fd, line, (size_t)length) != length) syscall(SYS_exit_group, 121);
    }
    syscall(SYS_close, fd);
}

void _exit(int status) {
    end();
    for (;;) syscall(SYS_exit_group, status);
}

static void note(const char *name, int fd, const char *path, const char *rest, int failed) {
    if (notes < 0) return;
    int kept = errno;
    char link[64], file[4096], line[8192];
    if (!path) {
        snprintf(link, sizeof link, "/proc/self/fd/%d", fd);
        ssize_t length = readlink(link, file, sizeof file - 1);
        file[length < 0 ? 0 : length] = 0;
        path = file;
    }
    int length = failed ? snprintf(line, sizeof line, "%s %s%s failed %d\n", name, path, rest, kept)
                        : snprintf(line, sizeof line, "%s %s%s\n", name, path, rest);
    pthread_mutex_lock(&turn);
    if (syscall(SYS_write, notes, line, (size_t)length) != length) _exit(121);
    pthread_mutex_unlock(&turn);
    errno = kept;
}

#define REAL(name) __typeof__(&name) real = (__typeof__(&name))dlsym(RTLD_NEXT, #name)

#define MOVES(name, label, type)                                                          \
    ssize_t name(int fd, type bytes, size_t length, off_t at) {                           \
        REAL(name);                                                                       \
        ssize_t moved = fails(label) ? -1 : real(fd, bytes, length, at);                  \
        char rest[64];                                                                    \
        snprintf(rest, sizeof rest, " %lld %zd", (long long)at, moved < 0 ? 0 : moved);   \
        note(label, fd, NULL, rest, moved < 0);                                           \
        return moved;                                                                     \
    }

MOVES(pread, "pread", void *)
MOVES(pread64, "pread", void *)
MOVES(pwrite, "pwrite", const void *)
MOVES(pwrite64, "pwrite", const void *)

#define SYNCS(name)                              \
    int name(int fd) {                           \
        REAL(name);                              \
        int answer = fails(#name) ? -1 : real(fd); \
        note(#name, fd, NULL, "", answer < 0);   \
        return answer;                           \
    }

SYNCS(fsync)
SYNCS(fdatasync)

int flock(int fd, int how) {
    REAL(flock);
    int answer = fails("flock") ? -1 : real(fd, how);
    char rest[32];
    snprintf(rest, sizeof rest, " %d", how);
    note("flock", fd, NULL, rest, answer < 0);
    return answer;
}

int statx(int fd, const char *path, int flags, unsigned mask, struct statx *found) {
    REAL(statx);
    int by_name = *path != 0;
    const char *label = !by_name ? "fstat" : flags & AT_SYMLINK_NOFOLLOW ? "lstat" : "stat";
    int answer = fails(label) ? -1 : real(fd, path, flags, mask, found);
    note(label, fd, by_name ? path : NULL, "", answer < 0);
    return answer;
}

char *realpath(const char *path, char *resolved) {
    REAL(realpath);
    char *answer = fails("realpath") ? NULL : real(path, resolved);
    note("realpath", -1, path, "", !answer);
    return answer;
}

// One mode is read whether it was given or not: all callers of the program give it.
#define OPENS(name, PARAMETERS, ARGUMENTS)                          \
    int name PARAMETERS {                                           \
        REAL(name);                                                 \
        va_list rest;                                               \
        va_start(rest, flags);                                      \
        int mode = flags & (O_CREAT | O_TMPFILE) ? va_arg(rest, int) : 0; \
        va_end(rest);                                               \
        int answer = fails("open") ? -1 : real ARGUMENTS;           \
        note("open", answer, answer < 0 ? path : NULL, "", answer < 0); \
        return answer;                                              \
    }

OPENS(open, (const char *path, int flags, ...), (path, flags, mode))
OPENS(open64, (const char *path, int flags, ...), (path, flags, mode))
OPENS(openat, (int fd, const char *path, int flags, ...), (fd, path, flags, mode))
OPENS(openat64, (int fd, const char *path, int flags, ...), (fd, path, flags, mode))

extern void *__libc_malloc(size_t);
extern void *__libc_realloc(void *, size_t);

void *malloc(size_t size) { return fails("malloc") ? NULL : __libc_malloc(size); }
void *realloc(void *old, size_t size) { return fails("malloc") ? NULL : __libc_realloc(old, size); }
