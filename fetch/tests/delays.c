/* Linked into bw-fetch under the thread sanitizer with -Wl,--wrap=pthread_mutex_lock and the like:
 * at each lock, unlock, wait and signal a thread goes on, lets others go first, or sleeps for up to
 * a millisecond, as it is drawn. The draws hang on the number BW_DELAYS, and on how many there were
 * before; without it there are none. They order nothing: the counter is relaxed. */
#define _GNU_SOURCE
#include <pthread.h>
#include <sched.h>
#include <stdatomic.h>
#include <stdint.h>
#include <stdlib.h>
#include <time.h>

int __real_pthread_mutex_lock(pthread_mutex_t *it);
int __wrap_pthread_mutex_lock(pthread_mutex_t *it);
int __real_pthread_mutex_unlock(pthread_mutex_t *it);
int __wrap_pthread_mutex_unlock(pthread_mutex_t *it);
int __real_pthread_cond_wait(pthread_cond_t *it, pthread_mutex_t *with);
int __wrap_pthread_cond_wait(pthread_cond_t *it, pthread_mutex_t *with);
int __real_pthread_cond_signal(pthread_cond_t *it);
int __wrap_pthread_cond_signal(pthread_cond_t *it);

static uint64_t seed;
static _Atomic uint64_t draws;

__attribute__((constructor)) static void begin(void) {
    const char *word = getenv("BW_DELAYS");
    seed = word ? strtoull(word, NULL, 10) : 0;
}

static void delay(void) {
    if (!seed) return;
    uint64_t x = (seed << 32 ^ atomic_fetch_add_explicit(&draws, 1, memory_order_relaxed)) +
                 0x9E3779B97F4A7C15;
    x = (x ^ x >> 30) * 0xBF58476D1CE4E5B9;
    x = (x ^ x >> 27) * 0x94D049BB133111EB;
    x ^= x >> 31;
    if (x % 4 == 0) sched_yield();
    if (x % 16 == 1) nanosleep(&(struct timespec){.tv_nsec = (long)((x >> 8) % 1000000)}, NULL);
}

int __wrap_pthread_mutex_lock(pthread_mutex_t *it) {
    delay();
    return __real_pthread_mutex_lock(it);
}

int __wrap_pthread_mutex_unlock(pthread_mutex_t *it) {
    int r = __real_pthread_mutex_unlock(it);
    delay();
    return r;
}

int __wrap_pthread_cond_wait(pthread_cond_t *it, pthread_mutex_t *with) {
    int r = __real_pthread_cond_wait(it, with);
    delay();
    return r;
}

int __wrap_pthread_cond_signal(pthread_cond_t *it) {
    delay();
    return __real_pthread_cond_signal(it);
}
