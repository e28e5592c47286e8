/* Linked into bw-fetch with -Wl,--wrap=malloc,--wrap=calloc,--wrap=realloc: refuses a request for
 * memory of the program, of the library or of libcurl.
 *
 *     BW_REFUSE=N        the Nth request is refused
 *     BW_REFUSE=N+       it is, and all after it
 *     BW_REFUSE=fsync    none is, but each fsync fails
 *     BW_REFUSE=https    none is, but libcurl knows no https
 *     BW_REFUSE=hang     none is, but a read of a file hangs.bao never ends
 *     BW_REFUSE=threads  none is, but no thread is allowed
 *     BW_REFUSE=flock    none is, but before a first lock the file BW_FROM is renamed to BW_TO, as
 * by another run that ends then
 *
 * Where that many were made, the last line on standard error is 'refused'. */
#define _GNU_SOURCE
#include <curl/curl.h>

#include <errno.h>
#include <limits.h>
#include <pthread.h>
#include <stdarg.h>
#include <stdbool.h>
#include <stddef.h>
#include <stdio.h>
#include <stdlib.h>
#include <string.h>
#include <unistd.h>

void *__real_malloc(size_t len);
void *__real_calloc(size_t count, size_t len);
void *__real_realloc(void *at, size_t len);
void *__wrap_malloc(size_t len);
void *__wrap_calloc(size_t count, size_t len);
void *__wrap_realloc(void *at, size_t len);
CURLcode __wrap_curl_global_init(long flags);
int __real_fsync(int fd);
int __wrap_fsync(int fd);
int __real_flock(int fd, int how);
int __wrap_flock(int fd, int how);

ssize_t __real_pread(int fd, void *at, size_t len, off_t from);
ssize_t __wrap_pread(int fd, void *at, size_t len, off_t from);
int __real_pthread_create(pthread_t *thread, const pthread_attr_t *with, void *(*run)(void *),
                          void *of);
int __wrap_pthread_create(pthread_t *thread, const pthread_attr_t *with, void *(*run)(void *),
                          void *of);
#undef curl_easy_setopt
CURLcode __real_curl_easy_setopt(CURL *easy, CURLoption option, ...);
CURLcode __wrap_curl_easy_setopt(CURL *easy, CURLoption option, ...);

static pthread_mutex_t lock = PTHREAD_MUTEX_INITIALIZER;
static long made = 0, number = -1;
static bool all_after = false, refused = false, no_fsync = false, renames = false, no_https = false,
            hangs = false, no_threads = false;

static void say(void) {
    static const char text[] = "refused\n";
    if (refused && write(STDERR_FILENO, text, sizeof text - 1) < 0) _exit(99);
}

__attribute__((constructor)) static void begin(void) {
    const char *word = getenv("BW_REFUSE");
    if (!word) return;
    number = strtol(word, NULL, 10);
    all_after = strchr(word, '+') != NULL;
    no_fsync = !strcmp(word, "fsync");
    renames = !strcmp(word, "flock");
    no_https = !strcmp(word, "https");
    hangs = !strcmp(word, "hang");
    no_threads = !strcmp(word, "threads");
    atexit(say);
}

static bool refuses(void) {
    pthread_mutex_lock(&lock);
    made++;
    bool it = number > 0 && (made == number || (all_after && made > number));
    refused |= it;
    pthread_mutex_unlock(&lock);
    return it;
}

void *__wrap_malloc(size_t len) { return refuses() ? NULL : __real_malloc(len); }

void *__wrap_calloc(size_t count, size_t len) {
    return refuses() ? NULL : __real_calloc(count, len);
}

void *__wrap_realloc(void *at, size_t len) { return refuses() ? NULL : __real_realloc(at, len); }

static char *copy(const char *text) {
    size_t len = strlen(text) + 1;
    char *it = __wrap_malloc(len);
    return it ? memcpy(it, text, len) : NULL;
}

/* libcurl takes its memory by these too. */
CURLcode __wrap_curl_global_init(long flags) {
    return curl_global_init_mem(flags, __wrap_malloc, free, __wrap_realloc, copy, __wrap_calloc);
}

int __wrap_fsync(int fd) {
    if (!no_fsync) return __real_fsync(fd);
    errno = EIO;
    return -1;
}

int __wrap_flock(int fd, int how) {
    if (renames && rename(getenv("BW_FROM"), getenv("BW_TO"))) _exit(98);
    renames = false;
    return __real_flock(fd, how);
}

ssize_t __wrap_pread(int fd, void *at, size_t len, off_t from) {
    char name[64], path[PATH_MAX] = "";
    snprintf(name, sizeof name, "/proc/self/fd/%d", fd);
    while (hangs && readlink(name, path, sizeof path - 1) > 0 && strstr(path, "/hangs.bao"))
        pause();
    return __real_pread(fd, at, len, from);
}

int __wrap_pthread_create(pthread_t *thread, const pthread_attr_t *with, void *(*run)(void *),
                          void *of) {
    return no_threads ? EAGAIN : __real_pthread_create(thread, with, run, of);
}

/* Each argument is as wide as a pointer where this is built. */
CURLcode __wrap_curl_easy_setopt(CURL *easy, CURLoption option, ...) {
    va_list words;
    va_start(words, option);
    void *word = va_arg(words, void *);
    va_end(words);
    bool refused_here = no_https && option == CURLOPT_PROTOCOLS_STR && strstr(word, "https");
    return refused_here ? CURLE_UNSUPPORTED_PROTOCOL : __real_curl_easy_setopt(easy, option, word);
}
