#include "nbd.h"

#include <malloc.h>
#include <time.h>

/* STORE_LEN: what a group's store takes of memory, with a few seats. */
enum { BUCKETS = 4096, STORE_LEN = BW_GROUP_CHUNKS * 1120 + 4096, STREAMS = 16, LOOK_MS = 100 };
enum { SEQUENTIAL = 3 };

/* Reads that go on from where others ended: by position, since a copy comes by many connections. */
typedef struct stream {
    uint64_t end, ahead, used;
    unsigned hits;
} stream;

const options *set;
pthread_mutex_t lock = PTHREAD_MUTEX_INITIALIZER;
atomic_bool is_ending;
static pthread_cond_t room, opened;
static window *buckets[BUCKETS], *newest, *oldest;
static size_t store_count, store_most; /* those of a pinned window count as all of its groups */
static size_t ahead_most;
static stream streams[STREAMS];
static uint64_t reads;
static struct {
    uint64_t len;
    bool is_known, is_asked;
    unsigned failures;
    int error;
} length;

/* --- Waiting. Under the lock. */

/* Waits, and looks now and then whether there is still reason to. */
static int wait_for(pthread_cond_t *it) {
    struct timespec until;
    clock_gettime(CLOCK_MONOTONIC, &until);
    until.tv_nsec += LOOK_MS * 1000000L;
    until.tv_sec += until.tv_nsec / 1000000000;
    until.tv_nsec %= 1000000000;
    if (!is_ending && pthread_cond_timedwait(it, &lock, &until) == ETIMEDOUT) {
        pthread_mutex_unlock(&lock);
        const bool is_over = core_is_over();
        pthread_mutex_lock(&lock);
        if (is_over) return ESHUTDOWN;
    }
    return is_ending ? ESHUTDOWN : 0;
}

static bool cond_new(pthread_cond_t *it) {
    pthread_condattr_t as;
    if (pthread_condattr_init(&as)) return false;
    const bool ok = !pthread_condattr_setclock(&as, CLOCK_MONOTONIC) && !pthread_cond_init(it, &as);
    pthread_condattr_destroy(&as);
    return ok;
}

/* --- Windows and their seats. Under the lock. */

uint64_t blob_len(void) { return length.len; }

unsigned window_chunks(uint64_t number) {
    return (unsigned)least(chunks_of(length.len) - number * UNIT_CHUNKS, UNIT_CHUNKS);
}

static void free_seats(seats *it) {
    for (int g = 0; g < UNIT_GROUPS; g++) bw_free(&it->of[g]);
}

static void window_free(window *w) {
    for (seats *it = w->idle, *next; it; it = next) {
        next = it->next;
        free_seats(it);
        free(it);
    }
    free_seats(&w->first);
    pthread_mutex_destroy(&w->making);
    pthread_cond_destroy(&w->changed);
    free(w);
}

static void unlink_from_use(window *w) {
    *(w->newer ? &w->newer->older : &newest) = w->older;
    *(w->older ? &w->older->newer : &oldest) = w->newer;
}

static void link_as_newest(window *w) {
    w->newer = NULL;
    w->older = newest;
    *(newest ? &newest->newer : &oldest) = w;
    newest = w;
}

static void window_drop(window *w) {
    window **at = &buckets[w->number % BUCKETS];
    while (*at != w) at = &(*at)->chained;
    *at = w->chained;
    unlink_from_use(w);
    store_count -= w->stores;
    window_free(w);
}

/* One without a store. */
static window *window_new(uint64_t number) {
    window *w = calloc(1, sizeof *w), **at = &buckets[number % BUCKETS];
    if (!w || !cond_new(&w->changed)) {
        free(w);
        return NULL;
    }
    pthread_mutex_init(&w->making, NULL);
    w->number = number;
    w->chained = *at;
    *at = w;
    link_as_newest(w);
    return w;
}

/* Puts seats back that claim nothing, if there are any, and ends a pin. A window that is left
 * without a store is dropped. */
void window_leave(window *w, seats *it) {
    if (it) {
        it->next = w->idle;
        w->idle = it;
    }
    if (--w->pins) return;
    for (int g = w->stores = 0; g < UNIT_GROUPS; g++) w->stores += w->first.of[g].at != NULL;
    store_count -= UNIT_GROUPS - w->stores;
    if (!w->stores) window_drop(w);
    pthread_cond_broadcast(&room);
}

/* Whether there is memory for so many more stores, if need be that of windows that nobody has
 * pinned, from the one that was used longest ago on. */
static bool has_room(size_t more, const window *but) {
    for (window *w = oldest, *next; w && store_count + more > store_most; w = next) {
        next = w->newer;
        if (!w->pins && w != but) window_drop(w);
    }
    return store_count + more <= store_most;
}

/* A window, pinned. Where there is no memory for its stores, since too many are pinned, the caller
 * waits, who pins no other meanwhile, or is answered NULL. */
static window *pin(uint64_t number, bool waits, int *error) {
    window *w;
    for (;;) {
        for (w = buckets[number % BUCKETS]; w && w->number != number;) w = w->chained;
        if ((w && w->pins) || has_room(UNIT_GROUPS - (w ? w->stores : 0), w)) break;
        if (!waits || (*error = wait_for(&room))) return NULL;
    }
    if (w) {
        unlink_from_use(w);
        link_as_newest(w);
    } else if (!(w = window_new(number))) {
        *error = ENOMEM;
        return NULL;
    }
    if (!w->pins++) store_count += UNIT_GROUPS - w->stores;
    return w;
}

static seats *seats_of(window *w) {
    seats *it = w->idle;
    if (!it) return calloc(1, sizeof *it);
    w->idle = it->next;
    return it;
}

/* The seat of a group among a pinned window's seats: where there is none yet, it is made, and if
 * need be the store. NULL: no memory. Not under the lock. */
bw_seat *seat_at(window *w, seats *it, uint64_t group) {
    const unsigned from = (unsigned)group * BW_GROUP_CHUNKS;
    const unsigned chunks = (unsigned)least(window_chunks(w->number) - from, BW_GROUP_CHUNKS);
    bw_seat *first = &w->first.of[group], *at = &it->of[group];
    if (at->at) return at;
    pthread_mutex_lock(&w->making);
    bw_status r = BW_OK;
    if (!first->at)
        r = bw_seat_new(&set->mode, set->root, w->number * UNIT_CHUNKS + from, chunks, first);
    if (!r) r = bw_seat_split(first, at);
    pthread_mutex_unlock(&w->making);
    return r ? NULL : at;
}

/* Some claims ended: who waits for a chunk of the window looks again. */
void window_changed(window *w) {
    w->ended++;
    pthread_cond_broadcast(&w->changed);
}

/* --- Reading ahead. Under the lock. */

/* Unless so much is on its way that there is no memory for more. */
static void ahead_in(uint64_t number, run groups) {
    int error = 0;
    if (task_count >= store_most / UNIT_GROUPS / 2) return;
    window *w = pin(number, false, &error);
    seats *it = w ? seats_of(w) : NULL;
    if (it) pthread_mutex_unlock(&lock);
    task *t = it ? task_new(w, it, NULL, groups, &error) : NULL;
    if (it) pthread_mutex_lock(&lock);
    if (t) task_post(t, w->pins > 1); /* who has pinned it too may wait */
    else if (w) window_leave(w, it);
}

static void ahead(uint64_t from, uint64_t end) {
    for (end = least(end, length.len); from < end; from = from / UNIT_LEN * UNIT_LEN + UNIT_LEN) {
        const uint64_t number = from / UNIT_LEN, to = least(end - number * UNIT_LEN, UNIT_LEN);
        const uint64_t first = from % UNIT_LEN / GROUP_LEN;
        ahead_in(number, (run){first, (to - 1) / GROUP_LEN + 1 - first});
    }
}

/* Whether a read goes on from where others ended. Then what follows is read ahead. */
static bool goes_on(uint64_t at, uint64_t len) {
    const uint64_t slack = len > UNIT_LEN / 8 ? 2 * len : UNIT_LEN / 4;
    stream *s = streams, *it = streams;
    for (; it < streams + STREAMS; it++) {
        if (it->used && at <= it->end + slack && at + len + slack > it->end) break;
        if (it->used < s->used) s = it;
    }
    if (it < streams + STREAMS) s = it;
    else *s = (stream){.end = at + len};
    s->used = ++reads;
    if (at + len > s->end) {
        s->end = at + len;
        s->hits++;
    }
    if (s->hits < SEQUENTIAL) return false;
    const uint64_t end = s->end + ahead_most * UNIT_LEN,
                   from = s->ahead > s->end ? s->ahead : s->end;
    if (end / UNIT_LEN * UNIT_LEN > from) {
        s->ahead = end / UNIT_LEN * UNIT_LEN;
        ahead(from, s->ahead);
    }
    return true;
}

void core_ahead(uint64_t at, uint64_t len) {
    pthread_mutex_lock(&lock);
    ahead(at, at + least(len, ahead_most * UNIT_LEN));
    pthread_mutex_unlock(&lock);
}

/* --- Reading */

/* A part of a window that is read, by seats of its own. */
typedef struct reading {
    window *w;
    seats *seats;
    uint64_t at; /* in the blob */
    uint8_t *out;
    size_t len;
    unsigned groups; /* that are asked for together */
    bool is_last;    /* its own task failed, or all were asked for the group, since the last look */
} reading;

/* The group of the window in which it goes on. */
static unsigned group_of(const reading *r) { return (unsigned)(r->at / GROUP_LEN % UNIT_GROUPS); }

/* Reads what is held: 0 where that is all, EAGAIN where some is missing, or ENOMEM. *moved: to
 * another group than it was in. */
static int read_held(reading *r, bool *moved) {
    const unsigned began = group_of(r);
    bw_status status = BW_OK;
    while (r->len && !status) {
        const size_t len = least(GROUP_LEN - r->at % GROUP_LEN, r->len);
        uint64_t until = r->at + len;
        bw_seat *it = seat_at(r->w, r->seats, group_of(r));
        if (!it) return ENOMEM;
        status = bw_seat_read_at(it, r->at, r->out, len, &until);
        if (status && status != BW_MISSING) return EIO;
        r->out += until - r->at;
        r->len -= until - r->at;
        r->at = until;
    }
    *moved = group_of(r) != began;
    return status ? EAGAIN : 0;
}

/* Has the group fetched of which something is missing, and waits until some claim has ended since
 * `ended`; the group had failed so many times. Under the lock. */
static int wait_for_group(reading *r, uint64_t ended, unsigned times) {
    const unsigned group = group_of(r);
    const run around = {group / r->groups * r->groups, r->groups};
    int error = 0;
    pthread_mutex_unlock(&lock);
    task *t = task_new(r->w, r->seats, &group, around, &error);
    const bool is_own = t;
    pthread_mutex_lock(&lock);
    if (is_own) {
        r->w->pins++; /* the task's */
        task_post(t, true);
        if (!(r->seats = seats_of(r->w))) error = ENOMEM;
    } else if (error) {
        window_changed(r->w); /* what was claimed is free again */
    } else {
        task_urge(r->w);
    }
    while (!error && r->w->ended == ended) error = wait_for(&r->w->changed);
    const bool has_failed = r->w->failed[group].times != times;
    r->is_last = has_failed && (is_own || r->w->failed[group].error == EIO);
    return error;
}

/* Under the lock, but while it reads and claims. The order is what matters: `ended` is noted, then
 * it reads, then it claims. A claim that stands in the way ends after `ended` was noted and is
 * counted after that, so no wake-up is lost. */
static int read_part(reading *r) {
    for (int error;;) {
        const uint64_t ended = r->w->ended;
        const unsigned times = r->w->failed[group_of(r)].times;
        bool moved = false;
        pthread_mutex_unlock(&lock);
        error = read_held(r, &moved);
        pthread_mutex_lock(&lock);
        if (error != EAGAIN) return error;
        if (moved) r->is_last = false;
        else if (r->is_last) return r->w->failed[group_of(r)].error;
        else if ((error = wait_for_group(r, ended, times))) return error;
    }
}

/* So many groups, a power of 2, that the read is within as many that are aligned. */
static unsigned groups_around(uint64_t at, size_t len) {
    const uint64_t first = at / GROUP_LEN, last = (at + len - 1) / GROUP_LEN;
    unsigned groups = 1;
    while (groups < UNIT_GROUPS && first / groups != last / groups) groups *= 2;
    return groups;
}

int core_read(uint64_t at, uint8_t *out, size_t len) {
    int error = 0;
    pthread_mutex_lock(&lock);
    const unsigned groups = goes_on(at, len) ? UNIT_GROUPS : groups_around(at, len);
    if (len > UNIT_LEN) ahead(at, at + least(len, ahead_most * UNIT_LEN));
    for (size_t done = 0; done < len && !error;) {
        const uint64_t from = at + done;
        const size_t take = least(UNIT_LEN - from % UNIT_LEN, len - done);
        window *w = pin(from / UNIT_LEN, true, &error);
        if (!w) break;
        reading r = {.w = w, .seats = seats_of(w), .at = from, .out = out + done, .len = take};
        r.groups = groups;
        error = r.seats ? read_part(&r) : ENOMEM;
        window_leave(w, r.seats);
        done += take;
    }
    pthread_mutex_unlock(&lock);
    return error;
}

/* --- The length */

/* What a task came to. Under the lock. */
void length_found(uint64_t len, int error) {
    if (!error) length.len = len;
    length.is_known = !error;
    length.failures += error != 0;
    length.error = error;
    length.is_asked = false;
    pthread_cond_broadcast(&opened);
}

int core_length(uint64_t *len) {
    int error = 0;
    pthread_mutex_lock(&lock);
    const unsigned failures = length.failures;
    if (!length.is_known && !length.is_asked) {
        task *t = task_of_length();
        if (t) task_post(t, true);
        else error = ENOMEM;
        length.is_asked = t;
    }
    while (!error && !length.is_known)
        error = length.failures != failures ? length.error : wait_for(&opened);
    *len = length.len;
    pthread_mutex_unlock(&lock);
    return error;
}

/* --- Start and end */

/* What is fetched at a time takes up to a third of the memory. */
int core_start(const options *of) {
    const uint64_t most = of->cache / 3 * 2 / STORE_LEN;
    set = of;
    /* what a store, a buffer or libcurl took the next one takes, and no page is cleared anew */
    mallopt(M_ARENA_MAX, 1);
    mallopt(M_MMAP_THRESHOLD, 4 * UNIT_LEN);
    mallopt(M_TRIM_THRESHOLD, 8 * UNIT_LEN);
    mallopt(M_TOP_PAD, UNIT_LEN);
    store_most = most < 2 * UNIT_GROUPS ? 2 * UNIT_GROUPS : (size_t)most;
    ahead_most = (size_t)least(of->readahead / UNIT_LEN, store_most / UNIT_GROUPS / 2);
    is_ending = false;
    if (!cond_new(&room) || !cond_new(&opened)) return ENOMEM;
    return gather_start();
}

void core_stop(void) {
    pthread_mutex_lock(&lock);
    is_ending = true;
    pthread_cond_broadcast(&room);
    pthread_cond_broadcast(&opened);
    for (window *w = newest; w; w = w->older) pthread_cond_broadcast(&w->changed);
    pthread_mutex_unlock(&lock);
    gather_stop();
    pthread_mutex_lock(&lock);
    while (newest) window_drop(newest);
    pthread_mutex_unlock(&lock);
}
