#include "nbd.h"

#include <signal.h>

/* FAULTS: so many failures in a row leave a mirror out of a task. */
enum { FAULTS = 4, PAUSE_MS = 100, LATER_MOST_MS = 30000, LIES = 2, LIES_OF = 8, ENDING_MS = 20 };

hub mirrors;
holder holders[HOLDERS_MOST];
size_t holder_count, task_count;
atomic_uint_fast64_t changes; /* for which a plan may answer anew */
static settings how;
static server servers[2 * NAMES_MOST];
static size_t server_count;
static pthread_t thread;
static pthread_cond_t work = PTHREAD_COND_INITIALIZER;
static bool is_idle; /* the thread waits for `work`, and not for the mirrors */
static task *posted, **posted_end = &posted, *tasks; /* linked and unlinked under the lock */

/* --- Tasks, for those who read */

/* After so long another is asked as well: a fifth of the patience. */
uint64_t patience_ms(void) { return (uint64_t)(set->how.stall * 200); }

/* No call of a plan or seat fails but for memory: else this program has a fault. */
void task_must(task *t, bw_status of) {
    if (of) t->error = of == BW_MEMORY ? ENOMEM : EIO;
}

static void task_free(task *t) {
    bw_free(&t->plan);
    free(t);
}

static task *new_task(uint64_t total) {
    const bw_plan_policy by = {FAULTS, PAUSE_MS, LATER_MOST_MS, (uint32_t)patience_ms()};
    task *t = calloc(1, sizeof *t);
    size_t number;
    bw_status r = t ? bw_plan_new(total, &by, &t->plan) : BW_MEMORY;
    for (size_t i = 0; i < holder_count && !r; i++) r = bw_plan_add_holder(&t->plan, &number);
    if (!r) return t;
    if (t) task_free(t);
    return NULL;
}

task *task_of_length(void) { return new_task(1); }

/* Claims what it can of a group of a window. 0 also where there is no memory for its store. */
static uint64_t claim(window *w, seats *of, unsigned group) {
    bw_seat *it = seat_at(w, of, group);
    uint64_t granted;
    return it && !bw_seat_take(it, 0, UINT64_MAX, &granted) ? granted : 0;
}

/* Claims for seats what it can of so many groups from the first on, if of the one that is needed
 * some, if one is. NULL: there is nothing to claim or, then *error is set, no memory. Not under the
 * lock. */
task *task_new(window *w, seats *of, const unsigned *needed, run groups, int *error) {
    const unsigned chunks = window_chunks(w->number), all = (chunks - 1) / BW_GROUP_CHUNKS + 1;
    const uint64_t granted = needed ? claim(w, of, *needed) : 0;
    uint64_t taken = 0, any = 0;
    if (needed && !of->of[*needed].at) *error = ENOMEM;
    if (needed && !granted) return NULL;
    task *t = new_task((uint64_t)chunks * BW_CHUNK_LEN);
    if (!t) {
        const bool gave = !needed || !bw_seat_give(&of->of[*needed], 0, UINT64_MAX, &taken);
        *error = gave ? ENOMEM : EIO;
        return NULL;
    }
    for (unsigned g = groups.first; g < least(groups.first + groups.count, all); g++)
        t->wanted[g] = claim(w, of, g);
    if (needed) t->wanted[*needed] |= granted;
    for (unsigned g = 0; g < all; g++) {
        any |= t->wanted[g];
        task_must(t, bw_plan_kept(&t->plan, 0, g, ~t->wanted[g], &taken));
    }
    t->w = w;
    t->seats = of;
    t->start = w->number * UNIT_LEN;
    t->total = blob_len();
    if (any) return t;
    task_free(t);
    return NULL;
}

/* Hands a task over. Under the lock. */
void task_post(task *t, bool is_urgent) {
    atomic_init(&t->is_urgent, is_urgent);
    *posted_end = t;
    posted_end = &t->next;
    task_count++;
    if (is_idle) pthread_cond_signal(&work);
    else curl_multi_wakeup(mirrors.multi);
}

/* Somebody waits for all that is asked for in a window. Under the lock. */
void task_urge(const window *w) {
    bool some = false;
    for (int i = 0; i < 2; i++) {
        for (task *t = i ? posted : tasks; t; t = t->next)
            if (t->w == w && !atomic_exchange(&t->is_urgent, true)) some = true;
    }
    if (!some) return;
    atomic_fetch_add(&changes, 1);
    curl_multi_wakeup(mirrors.multi);
}

/* --- Who is asked, in the thread that talks to the mirrors */

bool task_is_alone(const task *t) { return tasks == t && !t->next; }

/* 0; 1: it failed, or was overtaken, not long ago; 2: much of what it has is false, or it has no
 * ranges. */
static unsigned tier_of(const server *s, uint64_t now) {
    if (!s) return 0;
    const bool lies = s->bad >= LIES && s->bad * LIES_OF > s->good;
    return lies || s->at.no_ranges ? 2 : s->until > now;
}

static double cost_of(const server *s) { return s ? (s->at.live + 1) * s->pace : 0; }

/* Whether it has no connection for a task: one is kept for those that somebody waits for. */
static bool is_full(const server *s, bool is_urgent) {
    return s && s->at.live + (!is_urgent && s->at.most > 1) >= s->at.most;
}

/* The best holder that wasn't asked yet, or holder_count, and its tier. */
static size_t best_of(const bool *asked, uint64_t now, unsigned *tier) {
    size_t best = holder_count;
    double least_cost = 0;
    for (size_t i = 0; i < holder_count; i++) {
        const holder *h = &holders[i];
        const unsigned a = tier_of(h->from, now), b = tier_of(h->by, now), worse = a > b ? a : b;
        const double cost = cost_of(h->from) + cost_of(h->by);
        if (asked[i]) continue;
        if (best < holder_count && (worse > *tier || (worse == *tier && cost >= least_cost)))
            continue;
        best = i;
        *tier = worse;
        least_cost = cost;
    }
    return best;
}

/* Asks the plan, of each holder that has a connection. A doubtful one waits for better ones that
 * have none. */
static void ask(task *t, uint64_t now) {
    const bool is_urgent = atomic_load(&t->is_urgent);
    bool asked[HOLDERS_MOST] = {false}, waits = false;
    unsigned tier = 0;
    t->until = UINT64_MAX;
    for (size_t i; (i = best_of(asked, now, &tier)) < holder_count && !t->error;) {
        bw_plan_next next = {0};
        asked[i] = true;
        if (waits && tier == 2) break;
        if (is_full(holders[i].from, is_urgent) || is_full(holders[i].by, is_urgent)) {
            waits = true;
            continue;
        }
        task_must(t, bw_plan_ask(&t->plan, i, now, &next));
        if (next.kind == BW_NEXT_FETCH) exchange_new(t, i, (run){next.first, next.count});
        if (next.kind == BW_NEXT_WAIT) t->until = least(t->until, next.until_ms);
        asked[i] = next.kind != BW_NEXT_FETCH;
    }
    t->is_at_end = !t->exchanges && !waits && t->until == UINT64_MAX;
}

/* --- Each task, until it ends */

static bool is_through(task *t) {
    uint32_t done = 0;
    if (t->is_verifying) return false;
    task_must(t, bw_plan_is_done(&t->plan, &done));
    return done || t->error || t->is_at_end || is_ending;
}

/* Gives all claims back. Who waits for what is lacking still is told so, and why. */
static void leave_window(task *t, int error) {
    uint64_t lacking, given;
    for (unsigned g = 0; g < UNIT_GROUPS; g++) {
        if (!t->wanted[g]) continue;
        task_must(t, bw_seat_give(&t->seats->of[g], 0, UINT64_MAX, &given));
        task_must(t, bw_plan_lacking(&t->plan, g, &lacking));
        if (!(lacking & t->wanted[g])) continue;
        t->w->failed[g].times++;
        t->w->failed[g].error = error;
    }
    window_changed(t->w);
    window_leave(t->w, t->seats);
}

static void end_task(task *t) {
    task **at = &tasks;
    uint32_t done = 0;
    task_must(t, bw_plan_is_done(&t->plan, &done));
    for (exchange *e = t->exchanges; e; e = t->exchanges) {
        if (done) exchange_overtaken(e);
        exchange_free(e);
    }
    pthread_mutex_lock(&lock);
    while (*at != t) at = &(*at)->next;
    *at = t->next;
    task_count--;
    if (t->w) leave_window(t, t->error ? t->error : EIO);
    else length_found(t->total, done ? 0 : t->error ? t->error : EIO);
    pthread_mutex_unlock(&lock);
    task_free(t);
}

/* Moves all tasks on, first those that somebody waits for. Until when nothing is to be done. */
static uint64_t turn(uint64_t now) {
    const uint64_t before = atomic_load(&changes);
    uint64_t until = UINT64_MAX;
    for (int urgent = 1; urgent >= 0; urgent--) {
        for (task *t = tasks, *next; t; t = next) {
            next = t->next;
            if (atomic_load(&t->is_urgent) != urgent) continue;
            exchanges_move(t);
            const uint64_t seen = atomic_load(&changes);
            if (!is_through(t) && (t->seen != seen || now >= t->until)) {
                t->seen = seen;
                ask(t, now);
            }
            until = least(until, t->until);
            if (is_through(t)) end_task(t);
        }
    }
    return before == atomic_load(&changes) ? until : now;
}

static void adopt(void) {
    task **at = &tasks;
    while (*at) at = &(*at)->next;
    *at = posted;
    posted = NULL;
    posted_end = &posted;
}

static void *serve(void *unused) {
    pthread_mutex_lock(&lock);
    for (adopt(); tasks || !is_ending; adopt()) {
        if (!tasks) {
            is_idle = true;
            pthread_cond_wait(&work, &lock);
            is_idle = false;
            continue;
        }
        pthread_mutex_unlock(&lock);
        const uint64_t until = turn(now_ms());
        hub_wait(&mirrors, is_ending ? least(until, now_ms() + ENDING_MS) : until);
        pthread_mutex_lock(&lock);
    }
    pthread_mutex_unlock(&lock);
    return unused;
}

/* --- Start and end */

static server *add_server(const char *url, kind as, unsigned most) {
    server *it = &servers[server_count++];
    it->pace = 1;
    return source_new(&it->at, url, as, most) ? it : NULL;
}

/* Each combined encoding is a holder, and each plain file beside each outboard encoding. */
static bool add_holders(void) {
    server *outboards[NAMES_MOST];
    for (unsigned i = 0; i < set->outboard_count; i++)
        if (!(outboards[i] = add_server(set->outboards[i], OUTBOARD, set->connections)))
            return false;
    for (unsigned i = 0; i < set->url_count; i++) {
        const bool is_combined = url_is_combined(set->urls[i]);
        server *it = add_server(set->urls[i], is_combined ? COMBINED : PLAIN, set->connections);
        if (!it) return false;
        if (is_combined) holders[holder_count++] = (holder){it, NULL};
        for (unsigned o = 0; o < set->outboard_count && !is_combined; o++)
            holders[holder_count++] = (holder){it, outboards[o]};
    }
    return true;
}

int gather_start(void) {
    sigset_t all, before;
    how = set->how;
    how.plain = how.headers = curl_slist_append(NULL, "Accept-Encoding: identity");
    if (!how.headers || !hub_new(&mirrors, &how) || !add_holders()) return ENOMEM;
    sigfillset(&all);
    pthread_sigmask(SIG_SETMASK, &all, &before);
    const int error = pthread_create(&thread, NULL, serve, NULL);
    pthread_sigmask(SIG_SETMASK, &before, NULL);
    return error;
}

/* What hangs in the system or in a name server is left as it is. */
void gather_stop(void) {
    pthread_mutex_lock(&lock);
    pthread_cond_signal(&work);
    curl_multi_wakeup(mirrors.multi);
    pthread_mutex_unlock(&lock);
    pthread_join(thread, NULL);
    exchanges_stop();
    if (!hub_free(&mirrors)) return;
    for (server *it = servers; it < servers + server_count; it++) source_free(&it->at);
    curl_slist_free_all(how.headers);
}
