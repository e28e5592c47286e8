/* Stands before calls of the C library, and has one of them fail, or all from one on.

   CALL     the call that fails: malloc (and realloc), open, statx, read, pread, write, fsync,
   rename, close or pthread_create AT       which one of them in the process, counted from 1 HOW a
   number of errno, or what happens in place of a failure: short (half of the bytes, and one at
   least, are moved), none (no byte is, as at an end), less, more (a file is said to have half of
   its bytes, or twice as many), killed (the process is, before the call) ON       if it is there,
   all such calls from that one on CLOCK    moves (each time that is asked for is a second after the
   one before) or stands (all are the same) MET      the file to which a line is added for each call
   that was met: at which byte a file stood, or -, and its path, or what else it was for READ     a
   file of 8 bytes, a number to which the bytes are added that read and pread move */
#define _GNU_SOURCE
#include <dlfcn.h>
#include <errno.h>
#include <fcntl.h>
#include <pthread.h>
#include <signal.h>
#include <stdarg.h>
#include <stdatomic.h>
#include <stdio.h>
#include <stdlib.h>
#include <string.h>
#include <sys/mman.h>
#include <sys/stat.h>
#include <sys/syscall.h>
#include <time.h>
#include <unistd.h>

enum { PATHS = 256, PATH_LEN = 256 };

static char paths[PATHS][PATH_LEN];
static atomic_long calls;

static atomic_long *moved_in;

__attribute__((constructor)) static void begin(void) {
    const char *file = getenv("READ");
    if (!file) return;
    int fd = (int)syscall(SYS_openat, AT_FDCWD, file, O_RDWR);
    void *number = mmap(0, sizeof *moved_in, PROT_READ | PROT_WRITE, MAP_SHARED, fd, 0);
    syscall(SYS_close, fd);
    if (number != MAP_FAILED) moved_in = number;
}

static ssize_t counted(ssize_t some) {
    if (moved_in && some > 0) atomic_fetch_add(moved_in, some);
    return some;
}

static const char *path_of(int fd) {
    static const char *const streams[] = {"standard input", "standard output", "standard error"};
    if (fd >= 0 && fd < 3) return streams[fd];
    return fd >= 0 && fd < PATHS ? paths[fd] : "";
}

static void tell(const char *place, off_t at) {
    char line[PATH_LEN + 32];
    const char *file = getenv("MET");
    if (!file) return;
    int len = at < 0 ? snprintf(line, sizeof line, "- %s\n", place)
                     : snprintf(line, sizeof line, "%lld %s\n", (long long)at, place);
    int fd = (int)syscall(SYS_openat, AT_FDCWD, file, O_WRONLY | O_CREAT | O_APPEND, 0666);
    syscall(SYS_write, fd, line, (size_t)len);
    syscall(SYS_close, fd);
}

/* Whether this call is met, for a file that stands at a byte, if it does. */
static int is_met_at(const char *call, const char *place, off_t byte) {
    const char *wanted = getenv("CALL"), *at = getenv("AT");
    if (!wanted || !at || strcmp(wanted, call)) return 0;
    long left = atomic_fetch_add(&calls, 1) + 1 - atol(at);
    if (left < 0 || (left > 0 && !getenv("ON"))) return 0;
    tell(place, byte);
    const char *how = getenv("HOW");
    if (how && !strcmp(how, "killed")) syscall(SYS_kill, getpid(), SIGKILL);
    return 1;
}

static int is_met(const char *call, const char *place) { return is_met_at(call, place, -1); }

static int is_how(const char *name) {
    const char *how = getenv("HOW");
    return how && !strcmp(how, name);
}

static int failed(void) {
    const char *how = getenv("HOW");
    errno = how ? atoi(how) : EIO;
    return -1;
}

#define REAL(name) ((__typeof__(&name))dlsym(RTLD_NEXT, #name))

/* How many bytes a call moves that was met, or -1 where it fails. */
static ssize_t moved(size_t size) {
    if (is_how("none") || size == 0) return 0;
    if (is_how("short")) return (ssize_t)(size / 2 ? size / 2 : 1);
    return failed();
}

void *malloc(size_t size) {
    static void *(*real)(size_t);
    if (!real) real = REAL(malloc);
    return is_met("malloc", "memory") ? 0 : real(size);
}

void *realloc(void *old, size_t size) {
    static void *(*real)(void *, size_t);
    if (!real) real = REAL(realloc);
    return is_met("malloc", "memory") ? 0 : real(old, size);
}

int open(const char *path, int flags, ...) {
    va_list rest;
    va_start(rest, flags);
    mode_t mode = flags & O_CREAT ? va_arg(rest, mode_t) : 0;
    va_end(rest);
    if (is_met("open", path)) return failed();
    int fd = REAL(open)(path, flags, mode);
    if (fd >= 0 && fd < PATHS) strncpy(paths[fd], path, PATH_LEN - 1);
    return fd;
}

int statx(int fd, const char *restrict path, int flags, unsigned mask,
          struct statx *restrict said) {
    if (!is_met("statx", *path ? path : path_of(fd)))
        return REAL(statx)(fd, path, flags, mask, said);
    if (!is_how("less") && !is_how("more")) return failed();
    int answer = REAL(statx)(fd, path, flags, mask, said);
    said->stx_size = is_how("less") ? said->stx_size / 2 : said->stx_size * 2;
    return answer;
}

ssize_t read(int fd, void *to, size_t size) {
    if (is_met_at("read", path_of(fd), lseek(fd, 0, SEEK_CUR))) {
        ssize_t some = moved(size);
        if (some <= 0) return some;
        size = (size_t)some;
    }
    return counted(REAL(read)(fd, to, size));
}

ssize_t pread(int fd, void *to, size_t size, off_t at) {
    if (is_met_at("pread", path_of(fd), at)) {
        ssize_t some = moved(size);
        if (some <= 0) return some;
        size = (size_t)some;
    }
    return counted(REAL(pread)(fd, to, size, at));
}

ssize_t write(int fd, const void *from, size_t size) {
    if (is_met("write", path_of(fd))) {
        ssize_t some = moved(size);
        if (some <= 0) return some;
        size = (size_t)some;
    }
    return REAL(write)(fd, from, size);
}

ssize_t __write(int fd, const void *from, size_t size) { return write(fd, from, size); }

int fsync(int fd) { return is_met("fsync", path_of(fd)) ? failed() : REAL(fsync)(fd); }

int rename(const char *from, const char *to) {
    return is_met("rename", to) ? failed() : REAL(rename)(from, to);
}

/* The descriptor is closed all the same, as Linux does it. */
int close(int fd) {
    int is_ours = is_met("close", path_of(fd));
    int answer = REAL(close)(fd);
    return is_ours ? failed() : answer;
}

int clock_gettime(clockid_t clock, struct timespec *time) {
    static atomic_long seconds;
    const char *how = getenv("CLOCK");
    if (!how) return REAL(clock_gettime)(clock, time);
    time->tv_sec = 1000 + (strcmp(how, "moves") ? 0 : atomic_fetch_add(&seconds, 1));
    time->tv_nsec = 0;
    return 0;
}

int pthread_create(pthread_t *thread, const pthread_attr_t *given, void *(*run)(void *),
                   void *word) {
    if (is_met("pthread_create", "thread")) return EAGAIN;
    return REAL(pthread_create)(thread, given, run, word);
}
