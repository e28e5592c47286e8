#include "nbd.h"

enum { LATER_MOST_MS = 30000, FIRST_PAUSE_MS = 250, DOUBLED_MOST = 6, OVERTAKEN_MS = 16000 };
enum { SPARE_MOST = 16 };
enum { LOOK_LEN = GROUP_LEN + GROUP_LEN / 4 }; /* when so much more came, a group may be whole */

/* A request of a plan: of a holder, for chunks of the window. */
struct exchange {
    exchange *next;
    task *of;
    size_t holder;
    run chunks; /* of the window */
    uint64_t total, began;
    unsigned live;               /* legs that run */
    bool is_last_look, is_claim; /* is_claim: it is the length alone that comes */
    uint64_t later_ms, lacked;   /* lacked: bytes of the file, when it was verified last */
    leg data, beside;
    pieces of_file, of_outboard; /* where the legs put what comes, and parents that are known */
    uint8_t known[BW_DEPTH_MAX][BW_PARENT_LEN];
    pieces seen, seen_beside; /* of these, what is verified */
    uint64_t kept[UNIT_GROUPS], refused[UNIT_GROUPS], orphans[UNIT_GROUPS];
    unsigned next_group;
    job job;
    uint8_t claim[BW_LENGTH_LEN], *bytes, *text;
};

static exchange *spare; /* with what libcurl has of their legs, which takes long to make */
static unsigned spare_count;

/* --- What came is verified and stored, in a thread of the pool */

/* Puts a slice together of what came. Its length, or 0 where a node is lacking. */
static size_t put(exchange *e, slice *nodes, uint64_t start, uint64_t len) {
    const origin from = {NULL, holders[e->holder].from->at.kind, &e->seen, &e->seen_beside};
    const bool is_there = slice_find(nodes, &from, e->total, start, len);
    return is_there ? slice_put(nodes, e->total, e->text) : 0;
}

/* Verifies and stores chunks of a group. */
static verdict take(void *with, run it, bw_placed *refused) {
    exchange *e = with;
    const uint64_t start = it.first * BW_CHUNK_LEN, len = it.count * BW_CHUNK_LEN;
    const uint64_t group = it.first / BW_GROUP_CHUNKS;
    slice nodes;
    const size_t used = put(e, &nodes, start, len);
    bw_seat *seat = seat_at(e->of->w, e->of->seats, group % UNIT_GROUPS);
    uint64_t committed, at = 0;
    if (!used || !seat) return NOT_THERE;
    if (bw_seat_commit_chunks(seat, start, len, e->text, used, &committed, &at))
        return bw_node_at(e->total, start, len, at, refused) ? NOT_THERE : REFUTED;
    learn(&nodes);
    e->kept[group % UNIT_GROUPS] |= mask_in(group, it);
    return TAKEN;
}

static void blame(void *with, run of, const bw_placed *refused) {
    exchange *e = with;
    const uint64_t group = of.first / BW_GROUP_CHUNKS;
    uint64_t *whose = refused->kind == BW_NODE_PARENT ? e->orphans : e->refused;
    whose[group % UNIT_GROUPS] |= mask_in(group, of);
}

static void verify(job *of) {
    exchange *e = of->with;
    const uint64_t start = e->of->start / BW_CHUNK_LEN;
    const run all = {start + e->chunks.first, e->chunks.count};
    for (; e->next_group < UNIT_GROUPS; e->next_group++) {
        const run it = run_in(all, start + e->next_group * BW_GROUP_CHUNKS, BW_GROUP_CHUNKS);
        bw_placed refused;
        const verdict r = it.count ? take(e, it, &refused) : TAKEN;
        if (r == NOT_THERE && !e->is_last_look) return;
        if (r == REFUTED) salvage(&(trial){take, blame, e}, it, &refused);
        if (!e->kept[e->next_group]) continue;
        pthread_mutex_lock(&lock);
        window_changed(e->of->w);
        pthread_mutex_unlock(&lock);
    }
}

/* --- Exchanges, in the thread that talks to the mirrors, as all below */

static void cut(exchange *e, leg *it) {
    if (!it->runs || it->is_cut) return;
    leg_cut(it);
    e->live--;
}

/* One that fails is asked after the others for a while. */
static void has_failed(server *s, uint64_t wait_ms) {
    const uint64_t pause = (uint64_t)FIRST_PAUSE_MS << least(s->in_row, DOUBLED_MOST);
    s->until = now_ms() + (wait_ms ? least(wait_ms, LATER_MOST_MS) : pause);
    s->in_row++;
    core_say("%s: %s", s->at.shown, s->at.why);
}

static void has_given(server *s, uint64_t since, const pieces *what) {
    size_t len = GROUP_LEN;
    for (size_t i = 0; i < what->count; i++) len += what->list[i].len;
    s->pace = s->pace * .8 + (double)(now_ms() - since) * UNIT_LEN / (double)len * .2;
    s->in_row = 0;
    s->until = 0;
}

/* A leg of an exchange ended. Of bytes that come, nothing is told: they're looked for. */
static void was_told(leg *it, leg_end end) {
    exchange *e = it->with;
    if (end == LEG_MORE) return;
    e->live--;
    if (end == LEG_ALL) return has_given((server *)it->of, e->began, it->wanted);
    has_failed((server *)it->of, end == LEG_LATER ? it->wait_ms : 0);
    if (end == LEG_LATER && it->wait_ms > e->later_ms) e->later_ms = it->wait_ms;
    if (it == &e->beside) cut(e, &e->data);
    else if (!are_whole(&e->of_outboard)) cut(e, &e->beside);
}

static void start_leg(exchange *e, leg *it, server *of, pieces *wanted) {
    it->tell = was_told;
    it->with = e;
    e->live++;
    leg_start(it, &mirrors, &of->at, wanted);
}

/* Room for what is lacking. */
static void lay_out(pieces *of, uint8_t **at) {
    for (piece *it = of->list; it < of->list + of->count; it++) {
        if (piece_is_whole(it)) continue;
        it->bytes = *at;
        *at += it->len;
    }
}

/* Asks for a slice of at most a window, but for parents that are known. Of several groups those
 * within the window come as well, since one range has all. False: there is no such slice. */
static bool ask_for(exchange *e, uint64_t start, uint64_t len) {
    const holder *h = &holders[e->holder];
    const kind as = h->from->at.kind;
    pieces *file = &e->of_file, *outboard = &e->of_outboard;
    const uint64_t below = len > GROUP_LEN ? UNIT_LEN : GROUP_LEN;
    file->count = outboard->count = 0;
    if (!recall(h->by ? outboard : file, e->known, h->by ? OUTBOARD : as, e->total, start, below) ||
        !pieces_add(file, NULL, as, e->total, start, len) ||
        (h->by && !pieces_add(outboard, NULL, OUTBOARD, e->total, start, len)))
        return false;
    e->lacked = pieces_lacking(file->list, file->count);
    free(e->bytes);
    e->text = e->bytes =
        malloc(e->lacked + pieces_lacking(outboard->list, outboard->count) + GROUP_TEXT);
    if (!e->bytes) {
        e->of->error = ENOMEM;
        return true;
    }
    lay_out(file, &e->text);
    lay_out(outboard, &e->text);
    if (!are_whole(outboard)) start_leg(e, &e->beside, h->by, outboard);
    if (!are_whole(file)) start_leg(e, &e->data, h->from, file);
    if (!e->live) atomic_fetch_add(&changes, 1); /* an empty blob has no bytes */
    return true;
}

/* Carries out what the plan says. Of the length, what the file claims is asked for first. */
void exchange_new(task *t, size_t number, run chunks) {
    const holder *h = &holders[number];
    const uint64_t from = chunks.first / BW_GROUP_CHUNKS;
    exchange *e = spare;
    if (e) {
        spare = e->next;
        spare_count--;
    } else if (!(e = calloc(1, sizeof *e))) {
        t->error = ENOMEM;
        return;
    }
    e->next = t->exchanges;
    t->exchanges = e;
    e->of = t;
    e->holder = number;
    e->chunks = chunks;
    e->total = t->total;
    e->began = now_ms();
    e->is_claim = !t->w;
    e->of_file = (pieces){1, {{.len = BW_LENGTH_LEN, .bytes = e->claim}}};
    if (e->is_claim) start_leg(e, &e->data, h->by ? h->by : h->from, &e->of_file);
    else if (!ask_for(e, t->start + from * GROUP_LEN, (group_after(chunks) - from) * GROUP_LEN))
        t->error = EIO;
}

static void legs_free(exchange *e) {
    leg_free(&e->data);
    leg_free(&e->beside);
    free(e);
}

void exchange_free(exchange *e) {
    exchange **at = &e->of->exchanges;
    while (*at != e) at = &(*at)->next;
    *at = e->next;
    cut(e, &e->data);
    cut(e, &e->beside);
    free(e->bytes);
    atomic_fetch_add(&changes, 1);
    if (spare_count == SPARE_MOST) return legs_free(e);
    *e = (exchange){.next = spare, .data = e->data, .beside = e->beside};
    spare = e;
    spare_count++;
}

void exchanges_stop(void) {
    for (exchange *e = spare, *next; e; e = next) {
        next = e->next;
        legs_free(e);
    }
}

/* Nothing more comes of it, and what came was reported. */
static void end(exchange *e) {
    const uint32_t outcome = e->later_ms ? BW_ENDED_LATER : BW_ENDED_OVER;
    uint32_t failed;
    task_must(e->of, bw_plan_ended(&e->of->plan, e->holder, e->chunks.first, e->chunks.count,
                                   outcome, e->later_ms, now_ms(), &failed));
    exchange_free(e);
}

/* Reports chunks that are false to the plan: of each holder that has them of the same server. */
static void refuse(exchange *e, uint64_t group, uint64_t mask, server *liar) {
    if (!mask) return;
    liar->bad++;
    core_say("%s: bytes near %" PRIu64 " are false", liar->at.shown,
             e->of->start + group * GROUP_LEN);
    for (size_t i = 0; i < holder_count; i++)
        if (holders[i].from == liar || holders[i].by == liar)
            task_must(e->of, bw_plan_refused(&e->of->plan, i, group, mask));
}

static void was_verified(job *of) {
    exchange *e = of->with;
    const holder *h = &holders[e->holder];
    server *beside = h->by ? h->by : h->from;
    uint64_t taken;
    e->of->is_verifying = false;
    for (unsigned g = 0; g < UNIT_GROUPS; g++) {
        if (e->kept[g]) {
            task_must(e->of, bw_plan_kept(&e->of->plan, e->holder, g, e->kept[g], &taken));
            h->from->good++;
            beside->good += h->by != NULL;
        }
        refuse(e, g, e->refused[g], h->from);
        refuse(e, g, e->orphans[g], beside);
        e->kept[g] = e->refused[g] = e->orphans[g] = 0;
    }
    if (e->is_last_look) end(e);
}

static void see(exchange *e) {
    e->seen = e->of_file;
    e->seen_beside = e->of_outboard;
}

static void post(exchange *e) {
    e->of->is_verifying = true;
    see(e);
    e->job = (job){.run = verify, .done = was_verified, .with = e};
    if (!task_is_alone(e->of) || e->chunks.count > BW_GROUP_CHUNKS)
        return pool_post(&mirrors.computing, &e->job);
    verify(&e->job); /* little, while nothing else is to be done: to wake another takes longer */
    was_verified(&e->job);
}

/* Another gave all of it, while this one had more than its time. */
void exchange_overtaken(exchange *e) {
    const leg *legs[] = {&e->data, &e->beside};
    const uint64_t now = now_ms();
    for (int i = 0; i < 2 && now - e->began >= patience_ms(); i++)
        if (legs[i]->runs) ((server *)legs[i]->of)->until = now + OVERTAKEN_MS;
}

/* --- The length: what the file claims, then the slice of its last chunk, which certifies it */

static bool is_certified(exchange *e) {
    bw_slice last = {set->mode, {0}, UINT64_MAX, 1};
    uint8_t chunk[BW_CHUNK_LEN];
    uint64_t total, at;
    size_t used;
    memcpy(last.root, set->root, BW_HASH_LEN);
    slice nodes;
    see(e);
    const size_t len = put(e, &nodes, last_chunk_at(e->total), BW_CHUNK_LEN);
    if (!len || bw_decode(&last, e->text, len, chunk, sizeof chunk, &used, &total, &at) ||
        total != e->total)
        return false;
    learn(&nodes);
    return true;
}

static bool ask_for_last(exchange *e) {
    e->is_claim = false;
    e->total = length_claimed(e->claim);
    return e->total <= INT64_MAX && ask_for(e, last_chunk_at(e->total), BW_CHUNK_LEN);
}

static void was_opened(exchange *e) {
    task *t = e->of;
    uint64_t taken;
    if (!are_whole(&e->of_file) || !are_whole(&e->of_outboard)) return end(e);
    const bool was_claim = e->is_claim;
    if (was_claim && ask_for_last(e)) return;
    if (!was_claim && is_certified(e)) {
        t->total = e->total;
        task_must(t, bw_plan_kept(&t->plan, e->holder, 0, 1, &taken));
    } else {
        task_must(t, bw_plan_refused(&t->plan, e->holder, 0, 1));
        core_say("%s: its last chunk isn't the root's", holders[e->holder].from->at.shown);
    }
    end(e);
}

/* --- */

/* Whether there is something to do for an exchange, which is done. */
static bool has_moved(exchange *e) {
    const uint64_t lacks = pieces_lacking(e->of_file.list, e->of_file.count);
    const bool may_look = e->of->w && e->lacked - lacks >= LOOK_LEN && are_whole(&e->of_outboard);
    if (e->live && !may_look) return false;
    e->lacked = lacks;
    e->is_last_look = !e->live;
    if (e->of->w) post(e);
    else was_opened(e);
    return true;
}

/* Looks at what came of a task's exchanges. One is verified at a time: there is one seat. */
void exchanges_move(task *t) {
    for (exchange *e = t->exchanges, *next; e && !t->is_verifying && !t->error; e = next) {
        next = e->next;
        has_moved(e);
    }
}
