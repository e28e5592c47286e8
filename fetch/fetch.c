#include "fetch.h"

enum { PAUSE_MS = 100, ROUND_MS = 1000, ROUND_MOST_MS = 10000, LOOK_MS = 1000 };
enum { BAD_ENOUGH = 4, LOST_ENOUGH = 3 };

/* --- Made and freed */

/* A fetch of the root to OUT. 0, or a status; then some message was written. */
int fetch_new(fetch **it, hub *on, const options *set, const char *root, const char *name) {
    uint8_t bytes[BW_HASH_LEN];
    if (!read_hash(root, bytes) || !*name)
        return usage("ROOT has 64 hexadecimal digits, and OUT a name");
    fetch *f = *it = calloc(1, sizeof *f);
    if (!f) return no_memory();
    *f = (fetch){.hub = on, .set = set, .status = GOES_ON, .changes = 1, .out = {.fd = -1}};
    f->began = f->moved_at = now_ms();
    f->name = strdup(name);
    f->drain_bytes = malloc(DRAIN_LEN);
    if (!f->name || !f->drain_bytes || bw_hasher_new(&set->mode, &f->hasher)) return no_memory();
    const int status = out_new(&f->out, f->name, bytes);
    f->out.served_as = set->serve ? &set->mode : NULL;
    f->swarm.is_on = set->peer_count || set->peers_file;
    return status == NO_MEMORY ? no_memory() : status;
}

/* Local mirrors come before those of the network, then peers, then outboard encodings. */
static int place_of(const peer *it) {
    return it->at.kind == OUTBOARD ? 3 : it->member ? 2 : !it->at.is_local;
}

/* Adds a mirror, which is a peer if it comes with what is known of it: only that may be done after
 * the fetch has begun. NULL: there is no memory. */
peer *fetch_add(fetch *f, const char *url, kind as, struct member *with) {
    peer *it = calloc(1, sizeof *it), **at = &f->peers;
    const unsigned most = as == OUTBOARD ? IN_MOST : (unsigned)f->set->connections;
    if (!it || !source_new(&it->at, url, as, most)) {
        free(it);
        return NULL;
    }
    it->of = f;
    it->member = with;
    while (*at && place_of(*at) <= place_of(it)) at = &(*at)->next;
    it->next = *at;
    *at = it;
    if (f->has_begun && f->next_in == it->next) f->next_in = it;
    if (f->has_begun && f->unopened == it->next) f->unopened = it;
    if (as != OUTBOARD) f->mirror_count++;
    else if (!f->lines) f->lines = it;
    return it;
}

/* Whether all that used the fetch has ended. */
bool fetch_is_quiet(fetch *f) {
    exchange_sweep(f);
    return !f->exchanges && !f->is_draining;
}

void fetch_free(fetch *f) {
    if (!f) return;
    for (peer *it = f->peers, *next; it; it = next) {
        next = it->next;
        source_free(&it->at);
        peers_free(it);
        free(it->spine);
        free(it);
    }
    for (opener *it = f->openers, *next; it; it = next) {
        next = it->next;
        free(it);
    }
    bw_free(&f->length);
    bw_free(&f->chunks);
    bw_free(&f->parents);
    bw_free(&f->hasher);
    out_free(&f->out);
    free(f->own.at.shown);
    free(f->swarm.units);
    free(f->swarm.left);
    free(f->drain_bytes);
    free(f->known);
    free(f->name);
    free(f);
}

/* --- Plans */

void fetch_say(const fetch *f, const peer *of, const char *what) {
    if (f->set->verbose)
        fprintf(stderr, "bw-fetch: %s: %s\n", of->at.shown, what ? what : of->at.why);
}

/* It has to be looked at again at that moment. */
void fetch_wait(fetch *f, uint64_t until) {
    f->waits = true;
    f->wake = least(f->wake, until);
}

/* No call of a plan fails but for memory: else this program has a fault. */
void fetch_must(fetch *f, bw_status of) {
    if (of) fetch_stop(f, of == BW_MEMORY ? NO_MEMORY : OTHER_ROOT);
}

booking booking_of(fetch *f, peer *it) {
    bw_plan *plan = it->at.kind == OUTBOARD ? &f->parents : &f->chunks;
    return (booking){.plan = plan, .of = &it->at, .holder = it->holder};
}

/* Books what is wanted of a holder: 0; or until when that is nothing, UINT64_MAX for ever. */
uint64_t fetch_book(fetch *f, booking *it, uint64_t now) {
    bw_plan_next next = {0};
    fetch_must(f, bw_plan_ask(it->plan, it->holder, now, &next));
    it->is_open = next.kind == BW_NEXT_FETCH;
    it->chunks = (run){next.first, next.count};
    return it->is_open ? 0 : next.kind == BW_NEXT_WAIT ? next.until_ms : UINT64_MAX;
}

/* Tells the plan how it ended, if it is open, and counts a failure as the source's. */
void fetch_close(fetch *f, booking *it, uint32_t how, uint64_t later_ms) {
    const run of = it->chunks;
    uint32_t failed = 0;
    if (!it->is_open) return;
    it->is_open = false;
    fetch_must(f, bw_plan_ended(it->plan, it->holder, of.first, of.count, how, later_ms, now_ms(),
                                &failed));
    it->of->faults += failed;
}

/* The chunks of a unit, and all behind it. */
run all_from(const fetch *f, uint64_t unit) {
    return (run){unit * UNIT_CHUNKS, chunks_of(f->total) - unit * UNIT_CHUNKS};
}

/* Tells a plan something of a holder's chunks, but for those in `but`, of a unit's groups. */
void fetch_report(fetch *f, const booking *of, report *as, run it, const uint64_t *but) {
    for (uint64_t g = it.first / BW_GROUP_CHUNKS; g < group_after(it); g++) {
        const uint64_t mask = mask_in(g, it) & ~(but ? but[g % UNIT_GROUPS] : 0);
        fetch_must(f, as(of->plan, of->holder, g, mask));
    }
}

void fetch_stop(fetch *f, int status) {
    if (f->status != GOES_ON) return;
    f->status = status;
    atomic_store(&f->out.is_over, status != DONE);
    for (exchange *e = f->exchanges; e; e = e->next) exchange_cut(e);
    peers_stop(f);
}

/* Ends all that is under way. Whether no job works on any of it. */
static bool end_all(fetch *f) {
    bool is_quiet = true;
    for (exchange *e = f->exchanges; e; e = e->next) {
        exchange_end(e, BW_ENDED_CUT, 0);
        is_quiet &= !e->is_busy;
    }
    return is_quiet;
}

/* --- Who is in: so few at a time that no list of mirrors costs more memory or descriptors */

bool fetch_has_left_out(fetch *f, const peer *it) {
    bw_plan *plan = it->at.kind == OUTBOARD ? &f->parents : &f->chunks;
    uint32_t out = 0;
    return it->is_holder && plan->at && !bw_plan_is_left_out(plan, it->holder, &out) && out;
}

/* Whether more than a third of its groups are false, as far as is known, or others overtake it. */
bool is_doubtful(const peer *it) {
    const bool lies = it->bad >= BAD_ENOUGH && 2 * it->bad > it->good;
    return lies || (it->lost >= LOST_ENOUGH && (uint64_t)it->lost * UNIT_GROUPS > it->good);
}

/* Whether more of its requests failed, or were overtaken, than it gave units. */
bool has_failed(const peer *it) {
    return ((uint64_t)it->at.faults + it->lost) * UNIT_GROUPS > it->good;
}

uint32_t rank_of(const fetch *f, const peer *it) {
    if (it->at.kind == PLAIN && f->lacks_lines) return USELESS;
    if (it == f->believed) return 0;
    return is_doubtful(it) || it->at.hangs || it->at.no_ranges ? LAST : !it->at.is_local;
}

/* While a length is only believed, no plan has more holders than those that are asked. */
static void let_in(fetch *f, peer *it) {
    const bool is_line = it->at.kind == OUTBOARD;
    const bool is_late = f->believed && it != f->believed && (!is_line || it->claimed != f->total);
    it->is_in = true;
    if (!f->is_settled || it->is_holder || is_late) return;
    bw_plan *plan = booking_of(f, it).plan;
    it->rank = rank_of(f, it);
    it->is_holder = it->is_in =
        !bw_plan_add_holder(plan, &it->holder) && !bw_plan_rank(plan, it->holder, it->rank);
    if (!it->is_in) f->hindrance = NO_MEMORY;
    const booking of = booking_of(f, it);
    if (it->is_in && (is_line || peers_choose(f, it)))
        fetch_report(f, &of, bw_plan_lacks, all_from(f, 0), NULL);
}

/* Lets one more mirror in, with its outboard encoding; where all are in, one more of these. False:
 * there is none. */
bool fetch_admit(fetch *f) {
    peer *m = f->next_in, *line = f->lines;
    if (m == f->lines) {
        while (line && line->is_in) line = line->next;
        if (line) let_in(f, line);
        return line && line->is_in;
    }
    f->next_in = m->next;
    if (f->has_own_lines) line = m->line;
    for (int i = 0; i < (f->has_own_lines ? 1 : IN_MOST) && line; i++, line = line->next)
        if (!line->is_in) let_in(f, line);
    let_in(f, m);
    return true;
}

static size_t share_of(const peer *it) { return it->member ? 1 : PEERS_EACH; }

/* Whether some mirror is in. Those that lie or fail leave their place to others. */
static bool admit_all(fetch *f) {
    size_t in = 0;
    bool some = false;
    for (peer *m = f->peers; m != f->next_in; m = m->next)
        if (m->is_in && !is_doubtful(m) && !has_failed(m) && !fetch_has_left_out(f, m))
            in += share_of(m);
    while (in < IN_MOST * PEERS_EACH && f->next_in != f->lines) {
        in += share_of(f->next_in);
        fetch_admit(f);
    }
    for (peer *m = f->peers; m != f->next_in; m = m->next) some |= m->is_in;
    return some;
}

static void let_all_in(fetch *f) {
    for (peer *it = f->peers; it; it = it->next)
        if (it->is_in) let_in(f, it);
}

/* --- The length is there */

/* What a copy took that is of another length is there for the blob. A read of it finds its end. */
static void certify(fetch *f) {
    f->believed = NULL;
    f->changes++;
    for (const peer *it = f->lines; it; it = it->next)
        if (it->at.fd >= 0 && it->claimed != f->total && !url_is_local(it->at.url) &&
            ftruncate(it->at.fd, 0))
            errno = 0;
    let_all_in(f);
    bw_free(&f->length);
    const int status = out_certify(&f->out);
    if (status) return fetch_stop(f, status);
    if (f->out.served_as) shelf_certify();
}

static bw_plan_policy policy_of(const fetch *f, uint32_t patience_ms) {
    const double longest = SETTLING * f->set->set.stall * 1000;
    return (bw_plan_policy){(uint32_t)f->set->retries, PAUSE_MS, (uint32_t)longest, patience_ms};
}

/* What went to a pipe is true, whatever its length. OUT.part.fetch is verified anew. */
static int begin_anew(fetch *f, uint64_t total) {
    const bw_plan_policy of_chunks = policy_of(f, OVERTAKE_MS), of_parents = policy_of(f, 0);
    f->total = total;
    f->unit_count = units_of(total);
    f->chunks_open = chunks_of(total);
    free(f->known);
    f->known = calloc(f->unit_count, sizeof *f->known);
    if (!f->known || !peers_begin(f) || bw_plan_new(total, &of_chunks, &f->chunks) ||
        (f->lines && bw_plan_new(total, &of_parents, &f->parents)) ||
        (!f->out.is_pipe && bw_hasher_new(&f->set->mode, &f->hasher)))
        return NO_MEMORY;
    if (!f->out.is_pipe) f->drained = 0;
    for (peer *it = f->peers; it; it = it->next) it->is_holder = false;
    const int status = f->out.fd < 0 || f->out.total != total ? out_open(&f->out, total) : 0;
    const bool is_served = !status && f->out.served_as;
    return is_served && !shelf_open(f->out.fd, f->out.fd, total, total) ? NO_MEMORY : status;
}

static void limit(fetch *f) {
    const uint64_t end = (f->drained + WINDOW_UNITS) * UNIT_CHUNKS;
    if (!f->out.is_pipe) return;
    fetch_must(f, bw_plan_limit(&f->chunks, end));
    f->changes++;
}

/* A length isn't believed any more. */
static void doubt(fetch *f) {
    f->is_settled = false;
    f->believed = NULL;
    f->changes++;
    fetch_wait(f, now_ms());
}

/* A length is certified, or believed: makes the plans and, where there is none yet, OUT.part.fetch.
 * What came under the same length stays. A length for which there is no room isn't believed. */
void fetch_settle(fetch *f, uint64_t total) {
    const bool is_new = !f->chunks.at || f->total != total;
    const int status = is_new ? begin_anew(f, total) : DONE;
    uint64_t taken;
    f->is_settled = true;
    if (status && f->believed) {
        f->hindrance = status;
        bw_free(&f->chunks);
        return doubt(f);
    }
    if (status) return fetch_stop(f, status);
    let_all_in(f);
    if (!admit_all(f)) return fetch_stop(f, NO_MEMORY); /* what is resumed needs a holder, too */
    for (uint64_t g = 0; is_new && g < f->drained * UNIT_GROUPS && f->status == GOES_ON; g++) {
        fetch_must(f, bw_plan_kept(&f->chunks, 0, g, UINT64_MAX, &taken));
        f->chunks_open -= (uint64_t)__builtin_popcountll(taken);
    }
    limit(f);
    if (!f->believed) certify(f);
}

/* Takes chunks of a group as there. A pipe's bytes go to its window; a file's were written already.
 * The last chunk certifies a length that was believed. */
void fetch_keep(fetch *f, size_t holder, uint64_t group, uint64_t mask, const uint8_t *bytes) {
    const uint64_t all = chunks_of(f->total), last = all - 1;
    uint64_t taken = 0, at = group * GROUP_LEN;
    fetch_must(f, bw_plan_kept(&f->chunks, holder, group, mask, &taken));
    if (f->status != GOES_ON) return;
    f->chunks_open -= (uint64_t)__builtin_popcountll(taken);
    if (all - f->chunks_open > f->most_had) {
        f->most_had = all - f->chunks_open;
        f->moved_at = now_ms();
        f->rounds = 0;
    }
    if (f->believed && group == last / BW_GROUP_CHUNKS && mask >> last % BW_GROUP_CHUNKS & 1)
        certify(f);
    for (; taken && f->out.is_pipe; taken >>= 1, at += BW_CHUNK_LEN, bytes += BW_CHUNK_LEN)
        if (taken & 1 && at < f->total)
            out_put(&f->out, at, &(struct iovec){(void *)bytes, least(f->total - at, BW_CHUNK_LEN)},
                    1);
}

/* --- Hashed in order, as it stands in OUT.part.fetch or is passed on: this decides on status 0 */

/* Whether some of the chunks are lacking, but for those in `but`, of a unit's groups. */
bool fetch_lacks(fetch *f, run of, const uint64_t *but) {
    uint64_t lacking = 0;
    for (uint64_t g = of.first / BW_GROUP_CHUNKS, end = group_after(of); g < end && !lacking; g++) {
        fetch_must(f, bw_plan_lacking(&f->chunks, g, &lacking));
        lacking &= mask_in(g, of) & ~(but ? but[g % UNIT_GROUPS] : 0);
    }
    return lacking;
}

bool fetch_has_unit(fetch *f, uint64_t unit) {
    return !fetch_lacks(f, run_of_unit(f->total, unit), NULL);
}

/* Of the next unit; and of none the last word: a proved hasher over the bytes that went to OUT. */
static void run_drain(job *of) {
    fetch *f = of->with;
    uint64_t from = f->drained * UNIT_LEN, end = least(f->total, from + UNIT_LEN);
    f->drain_status = GOES_ON;
    if (f->drained == f->unit_count) {
        const bool is_same = out_has_root(&f->out, &f->hasher);
        f->drain_status = !is_same ? OTHER_ROOT : out_finish(&f->out) ? DONE : FILE_FAULT;
        return;
    }
    out_write_back(&f->out, from, end - from);
    for (size_t len; from < end && f->drain_status == GOES_ON; from += len) {
        len = least(end - from, DRAIN_LEN);
        if (!out_get(&f->out, from, f->drain_bytes, len) || !out_pass(&f->out, f->drain_bytes, len))
            f->drain_status = FILE_FAULT;
        else if (bw_hasher_update(&f->hasher, f->drain_bytes, len)) f->drain_status = OTHER_ROOT;
    }
}

static void was_drained(job *of) {
    fetch *f = of->with;
    f->is_draining = false;
    if (f->drain_status == OTHER_ROOT) say(OTHER_ROOT, "what was written doesn't have the root");
    if (f->drain_status != GOES_ON) return fetch_stop(f, f->drain_status);
    f->drained++;
    f->moved_at = now_ms();
    limit(f);
}

static void drain_turn(fetch *f) {
    const bool finishes = f->drained == f->unit_count;
    if (f->is_draining || (!finishes && !fetch_has_unit(f, f->drained))) return;
    if (finishes && !end_all(f)) return; /* a job may still write behind the blob */
    f->is_draining = true;
    f->drain = (job){.run = run_drain, .done = was_drained, .with = f};
    pool_post(f->out.is_pipe ? &f->hub->reading : &f->hub->computing, &f->drain);
}

/* --- What an earlier run left is verified in place, before anybody is asked */

static void start_resuming(fetch *f) {
    char *name = strdup(f->out.part);
    if (!name) return fetch_stop(f, NO_MEMORY);
    f->own.at = (source){.shown = name, .kind = PLAIN, .fd = f->out.fd, .is_local = true};
    f->own_line.at = f->own.at;
    f->own_line.at.kind = OUTBOARD;
    f->own_line.at.base = f->out.total;
    f->is_resuming = true;
    fetch_settle(f, f->out.total);
}

static void resume_turn(fetch *f) {
    while (f->status == GOES_ON && f->live < IN_MOST && f->resumed < f->unit_count) {
        const uint64_t at = out_data(&f->out, f->resumed * UNIT_LEN) / UNIT_LEN;
        if (at > f->resumed) {
            f->resumed = least(at, f->unit_count);
            continue;
        }
        exchange *e = exchange_new(f, &f->own, NULL);
        if (!e && !f->live) fetch_stop(f, NO_MEMORY);
        if (!e) return;
        e->by = &f->own_line;
        e->proving = run_of_unit(f->total, f->resumed++);
        exchange_unit(e, e->proving);
    }
    f->is_resuming = f->live || f->resumed < f->unit_count;
}

/* --- The end */

/* Parents that no outboard encoding had may be had now. */
static void ask_lines_again(fetch *f) {
    f->changes++;
    for (peer *m = f->peers; m != f->lines; m = m->next) {
        const booking of = booking_of(f, m);
        if (peers_choose(f, m)) peers_forget(m);
        else if (m->is_holder && m->at.kind == PLAIN)
            fetch_report(f, &of, bw_plan_has, all_from(f, 0), NULL);
    }
}

/* Those whose faults were the network's are asked again, after a while. */
static void forgive(fetch *f, uint64_t now) {
    const uint64_t pause = least((uint64_t)ROUND_MS << least(f->rounds, 4), ROUND_MOST_MS);
    f->rounds++;
    ask_lines_again(f);
    for (peer *it = f->peers; it; it = it->next) {
        const booking of = booking_of(f, it);
        it->later = now + pause;
        it->is_tried &= !it->at.is_far;
        if (it->at.kind != OUTBOARD && !it->at.no_ranges)
            it->at.most = (unsigned)f->set->connections;
        if (it->is_holder && it->at.is_far) fetch_must(f, bw_plan_forgive(of.plan, of.holder));
    }
    for (opener *it = f->openers; it && !f->is_settled; it = it->next)
        if (it->from->at.is_far) fetch_must(f, bw_plan_forgive(&f->length, it->booked.holder));
    fetch_wait(f, now + 1);
}

/* Nothing is under way, and nobody is to be asked. */
static void give_up(fetch *f, uint64_t now) {
    bool some = false, may_pass = false; /* the network is to blame: then it may be there later */
    if (f->believed) {
        if (end_all(f)) doubt(f);
        return;
    }
    if (!f->is_settled && open_believe(f, now)) return;
    if (fetch_admit(f)) {
        ask_lines_again(f);
        return fetch_wait(f, now);
    }
    for (const peer *it = f->peers; it; it = it->next) {
        const bool is_far = it->at.is_far && it->at.faults;
        some |= is_far && it->is_in;
        may_pass |= is_far;
    }
    const bool is_late = (double)(now - f->moved_at) >= f->set->patience * 1000;
    if (some && !is_late) return forgive(f, now);
    if (f->set->peers_file && !is_late) return fetch_wait(f, now + LOOK_MS); /* some may come yet */
    fetch_stop(f, f->hindrance ? f->hindrance : may_pass ? UNREACHED : LACKING);
}

/* What is there before anything is asked for. It may be long, or on a slow disk. */
static void run_compare(job *of) {
    fetch *f = of->with;
    f->drain_status = out_compare(&f->out, &f->hasher, f->drain_bytes, &f->total);
    if (f->drain_status == FILE_FAULT && f->asks_nobody) file_fault(f->out.path);
}

static void was_compared(job *of) {
    fetch *f = of->with;
    f->is_draining = false;
    if (f->status != GOES_ON) return;
    f->is_settled = f->drain_status == DONE;
    if (f->is_settled || f->asks_nobody) return fetch_stop(f, f->drain_status);
    const int status = out_resume(&f->out);
    if (status > 0) return fetch_stop(f, status);
    if (!status && f->out.total <= f->set->most) return start_resuming(f);
    const bw_plan_policy policy = policy_of(f, 0);
    if (bw_plan_new(1, &policy, &f->length)) fetch_stop(f, NO_MEMORY);
}

static void begin(fetch *f) {
    f->has_begun = f->is_draining = true;
    f->asks_nobody = f->set->check || (!f->mirror_count && !f->set->peers_file);
    f->next_in = f->unopened = f->peers;
    for (peer *m = f->peers, *line = f->lines; m != f->lines && !f->has_own_lines; m = m->next)
        m->line = line = line->next ? line->next : f->lines;
    f->drain = (job){.run = run_compare, .done = was_compared, .with = f};
    if (f->out.is_there) return pool_post(&f->hub->reading, &f->drain);
    run_compare(&f->drain);
    was_compared(&f->drain);
}

static void step(fetch *f, uint64_t now) {
    peers_turn(f, now);
    if (!f->is_settled) open_all(f, now);
    if (f->status == GOES_ON && f->is_resuming) resume_turn(f);
    if (f->status == GOES_ON && f->is_settled) drain_turn(f);
    if (f->status != GOES_ON || !f->is_settled || f->is_resuming) return;
    admit_all(f);
    exchange_ask_all(f, now);
}

/* Does what can be done now. Whether it is over, with f->status. */
bool fetch_turn(fetch *f, uint64_t now) {
    exchange_sweep(f);
    if (f->status != GOES_ON) return true;
    f->wake = now + LOOK_MS;
    f->waits = false;
    if (!f->has_begun) begin(f);
    const bool is_late = f->set->max_time > 0 && (double)(now - f->began) > f->set->max_time * 1000;
    if (f->status == GOES_ON && is_late) fetch_stop(f, say(UNREACHED, "--max-time is up"));
    const bool is_compared = f->length.at || f->is_settled;
    if (f->status == GOES_ON && is_compared) step(f, now);
    const bool is_idle = exchange_all_wait(f) && !f->waits && !f->is_draining && !f->is_resuming;
    const bool drains =
        f->is_settled && (f->drained == f->unit_count || fetch_has_unit(f, f->drained));
    if (f->status == GOES_ON && is_idle && !drains) give_up(f, now);
    return f->status != GOES_ON;
}
