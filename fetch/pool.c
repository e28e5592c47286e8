#include "http.h"

#include <signal.h>
#include <time.h>

/* Milliseconds of a clock that doesn't go back. */
uint64_t now_ms(void) {
    struct timespec t;
    clock_gettime(CLOCK_MONOTONIC, &t);
    return (uint64_t)t.tv_sec * 1000 + (uint64_t)t.tv_nsec / 1000000;
}

void pool_new(pool *it, unsigned most, CURLM *wakes) {
    *it = (pool){.most = most, .wakes = wakes, .end = &it->first};
    pthread_mutex_init(&it->lock, NULL);
    pthread_cond_init(&it->wake, NULL);
    pthread_cond_init(&it->gone, NULL);
}

static void finish(pool *it, job *what) {
    pthread_mutex_lock(&it->lock);
    what->next = it->done;
    it->done = what;
    pthread_mutex_unlock(&it->lock);
    curl_multi_wakeup(it->wakes); /* if it can't, the job is seen when it next looks */
}

static void *serve(void *with) {
    pool *it = with;
    pthread_mutex_lock(&it->lock);
    while (!it->quit) {
        job *what = it->first;
        if (!what) {
            it->idle++;
            pthread_cond_wait(&it->wake, &it->lock);
            it->idle--;
            continue;
        }
        it->first = what->next;
        if (!it->first) it->end = &it->first;
        pthread_mutex_unlock(&it->lock);
        what->run(what);
        finish(it, what);
        pthread_mutex_lock(&it->lock);
    }
    it->threads--;
    pthread_cond_signal(&it->gone);
    pthread_mutex_unlock(&it->lock);
    return NULL;
}

/* One more thread, with all signals left to the thread that decides. Under the lock. */
static void grow(pool *it) {
    pthread_t thread;
    sigset_t all, before;
    sigfillset(&all);
    pthread_sigmask(SIG_SETMASK, &all, &before);
    if (!pthread_create(&thread, NULL, serve, it)) {
        pthread_detach(thread);
        it->threads++;
    }
    pthread_sigmask(SIG_SETMASK, &before, NULL);
}

void pool_post(pool *it, job *what) {
    what->next = NULL;
    pthread_mutex_lock(&it->lock);
    if (!it->idle && it->threads < it->most) grow(it);
    const bool has_thread = it->threads;
    if (has_thread) {
        *it->end = what;
        it->end = &what->next;
        pthread_cond_signal(&it->wake);
    }
    pthread_mutex_unlock(&it->lock);
    if (has_thread) return;
    what->run(what); /* no thread is allowed: it is done here and now */
    finish(it, what);
}

/* Calls `done` of each job that is. */
void pool_collect(pool *it) {
    pthread_mutex_lock(&it->lock);
    job *what = it->done;
    it->done = NULL;
    pthread_mutex_unlock(&it->lock);
    for (job *next; what; what = next) {
        next = what->next;
        what->done(what);
    }
}

/* Ends the threads, and waits a second for them. False: some hang, and use what they were given. */
bool pool_end(pool *it) {
    struct timespec until;
    int r = 0;
    clock_gettime(CLOCK_MONOTONIC, &until);
    until.tv_sec++;
    pthread_mutex_lock(&it->lock);
    it->quit = true;
    pthread_cond_broadcast(&it->wake);
    while (!r && it->threads)
        r = pthread_cond_clockwait(&it->gone, &it->lock, CLOCK_MONOTONIC, &until);
    pthread_mutex_unlock(&it->lock);
    return !r;
}
