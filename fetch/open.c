/* How the length is certified: by the slice of the last chunk, which has that and all parents above
 * it. A combined encoding takes two requests, of which the second brings a unit of the blob as
 * well. Beside a plain file the parents come from an outboard encoding, and the last chunk from
 * each plain file in turn. */
#include "fetch.h"

static bool add_last(exchange *e, pieces *to, kind of) {
    return pieces_add(to, NULL, of, e->claimed, last_chunk_at(e->claimed), BW_CHUNK_LEN);
}

/* Nothing more is asked of it: what it has is false, or it lacks what certifies. */
static void decide(exchange *e, bool is_false) {
    fetch *f = e->fetch;
    fetch_report(f, &e->opener->booked, is_false ? bw_plan_refused : bw_plan_lacks, (run){0, 1},
                 NULL);
    exchange_end(e, BW_ENDED_OVER, 0);
}

/* --- Who is asked */

/* Whether a plain file is asked beside an outboard encoding that isn't its own: that comes last. */
static bool is_foreign(const opener *it) { return it->by && it->by != it->from->line; }

static void add_opener(fetch *f, peer *from, peer *by) {
    opener *it = malloc(sizeof *it);
    if (it) *it = (opener){.next = f->openers, .from = from, .by = by};
    if (it) it->booked = (booking){.plan = &f->length, .of = &from->at};
    if (it && !bw_plan_add_holder(&f->length, &it->booked.holder) &&
        !bw_plan_rank(&f->length, it->booked.holder, is_foreign(it) ? LAST : !from->at.is_local)) {
        f->openers = it;
        return;
    }
    f->hindrance = NO_MEMORY;
    free(it);
}

/* Each once. So few foreign ones are undecided at a time that their number doesn't grow with the
 * square of that of mirrors. */
static void add_openers(fetch *f) {
    for (peer *m; (m = f->unopened) != f->next_in; f->unopened = m->next) {
        if (m->at.kind == COMBINED) add_opener(f, m, NULL);
        else if (m->line->spine) add_opener(f, m, m->line);
    }
    for (peer *line = f->lines, *m; line; line = line->next) {
        if (line->is_in && !line->beside) {
            line->beside = f->peers;
            add_opener(f, line, NULL);
        }
        for (; f->foreign < IN_MOST && line->spine && (m = line->beside) != f->next_in;
             line->beside = m->next) {
            if (m->at.kind != PLAIN || m->line == line) continue;
            add_opener(f, m, line);
            f->foreign++;
        }
    }
}

/* The parents are there; the last chunk is asked for. */
static void open_beside(exchange *e) {
    e->claimed = e->by->claimed;
    e->step = PROOF;
    if (!add_last(e, &e->parents, OUTBOARD) || !add_last(e, &e->parts, PLAIN))
        return decide(e, true);
    e->certifying = e->parts.count;
    pieces_lay_out(&e->parents, e->by->spine, NULL, 0);
    for (size_t i = 0; i < e->parents.count; i++) e->parents.list[i].have = e->parents.list[i].len;
    pieces_lay_out(&e->parts, e->bytes, NULL, 0);
    if (e->parts.count) return exchange_get(e, e->from, &e->parts);
    e->has_ended = true;
    open_move(e);
}

static void begin(fetch *f, opener *it) {
    if (it->by && it->from->at.no_ranges) {
        fetch_report(f, &it->booked, bw_plan_lacks, (run){0, 1}, NULL);
        return fetch_close(f, &it->booked, BW_ENDED_CUT, 0);
    }
    exchange *e = it->asked = exchange_new(f, it->from, &it->booked);
    if (!e) return;
    e->opener = it;
    e->by = it->by;
    if (it->by) return open_beside(e);
    const size_t len = it->from->member ? BW_LENGTH_LEN : HEAD_LEN; /* which it has in any case */
    e->parts = (pieces){1, {{.len = len, .bytes = e->head}}};
    exchange_get(e, it->from, &e->parts);
}

/* Asks whoever may be asked, where enough are asked in place of the one that lags most. How many
 * that neither failed nor lag may be asked at some time, but for the foreign ones. */
static size_t ask_openers(fetch *f, uint64_t now) {
    size_t alive = 0;
    f->foreign = 0;
    for (opener *it = f->openers; it && f->status == GOES_ON && !f->is_settled; it = it->next) {
        uint64_t until = it->from->later > now ? it->from->later : 0;
        exchange *slow = f->live < IN_MOST ? NULL : exchange_slowest(f, now);
        const bool has_room = f->live < IN_MOST || (slow && !has_failed(it->from));
        const bool may_ask =
            !until && !it->booked.is_open && has_room && it->from->busy < it->from->at.most;
        if (may_ask) until = fetch_book(f, &it->booked, now);
        if (may_ask && it->booked.is_open) {
            if (slow) exchange_leave(slow);
            begin(f, it);
        }
        const bool lags = it->booked.is_open && exchange_lags(it->asked, now);
        alive += until != UINT64_MAX && !has_failed(it->from) && !is_foreign(it) && !lags;
        f->foreign += until != UINT64_MAX && is_foreign(it);
        if (it->booked.is_open && !lags) until = it->asked->began + OVERTAKE_MS;
        if (until > now && until != UINT64_MAX) fetch_wait(f, until);
    }
    return alive;
}

void open_all(fetch *f, uint64_t now) {
    for (int i = 0; i < IN_MOST && !f->openers && f->next_in != f->lines; i++) fetch_admit(f);
    for (bool more = true; more && f->status == GOES_ON;) {
        add_openers(f);
        more = ask_openers(f, now) < IN_MOST && !f->is_settled && fetch_admit(f);
    }
}

/* Takes the length that a mirror claims whose file can only be streamed. False: there is none. */
bool open_believe(fetch *f, uint64_t now) {
    const uint64_t passed = f->out.is_pipe ? f->drained * UNIT_LEN : 0;
    for (const opener *it = f->openers; it; it = it->next) {
        peer *m = it->from;
        const uint64_t claimed = it->by ? it->by->claimed : m->claimed;
        const bool is_stream = m->at.no_ranges && m->at.kind != OUTBOARD;
        const bool is_old = m->is_tried && m->tried == claimed;
        if (!is_stream || is_old || claimed > f->set->most || claimed <= passed) continue;
        fetch_wait(f, m->later);
        if (m->later > now) return true;
        m->is_tried = true;
        m->tried = claimed;
        f->believed = m;
        fetch_settle(f, claimed);
        return true;
    }
    return false;
}

/* --- What certifies it */

/* The first unit that nobody with the same claim is asked for together with the length. */
static bool pick_unit(exchange *e) {
    for (e->unit = 0; e->unit < least(units_of(e->claimed), WINDOW_UNITS); e->unit++) {
        const exchange *x = e->fetch->exchanges;
        while (x &&
               (x->is_over || !x->opens_unit || x->claimed != e->claimed || x->unit != e->unit))
            x = x->next;
        if (!x) return true;
    }
    return false;
}

/* Plans the request for what certifies the length and, unless the mirror has failed before, for a
 * unit of the blob as well. The first pieces certify; of the last unit all do. */
static bool plan_opening(exchange *e) {
    const source *of = &e->from->at;
    e->opens_unit = !of->is_local && !of->faults && !e->fetch->swarm.is_on && pick_unit(e);
    const bool is_end = e->opens_unit && e->unit + 1 == units_of(e->claimed);
    if (!is_end && !add_last(e, &e->parts, COMBINED)) return false;
    e->certifying = e->parts.count;
    if (e->opens_unit &&
        !pieces_add(&e->parts, NULL, COMBINED, e->claimed, e->unit * UNIT_LEN, UNIT_LEN)) {
        if (is_end) return false;
        e->opens_unit = false;
        e->parts.count = e->certifying;
    }
    if (is_end) e->certifying = e->parts.count;
    return true;
}

static void was_claimed(exchange *e) {
    fetch *f = e->fetch;
    peer *m = e->from;
    const bool is_combined = m->at.kind == COMBINED;
    e->head_len = e->parts.list[0].have;
    if (e->end != LEG_ALL && (!e->leg.at_end || e->head_len < BW_LENGTH_LEN))
        return exchange_end_by(e);
    if (e->end != LEG_ALL) m->at.why[0] = 0;
    m->claimed = e->claimed = length_claimed(e->head);
    if (e->claimed > f->set->most) {
        if (e->claimed > f->claimed_above) f->claimed_above = e->claimed;
        source_note(&m->at, false, "it claims more bytes than are wanted");
        fetch_say(f, m, NULL);
        return decide(e, true);
    }
    pieces *wanted = is_combined ? &e->parts : &e->parents;
    wanted->count = 0;
    if (!(is_combined ? plan_opening(e) : add_last(e, wanted, OUTBOARD))) return decide(e, true);
    e->bytes_len = pieces_lay_out(wanted, e->bytes, e->head, e->head_len);
    e->step = is_combined ? PROOF : SPINE;
    e->end = LEG_ALL;
    if (are_whole(wanted)) return open_move(e);
    if (!is_combined || !m->at.no_ranges) return exchange_get(e, m, wanted);
    e->end = LEG_NO_RANGES;
    exchange_end_by(e);
}

static void was_spine(exchange *e) {
    peer *line = e->from;
    if (e->end != LEG_ALL) return exchange_end_by(e);
    if (!line->spine && (line->spine = malloc(e->bytes_len + e->head_len))) {
        line->head = line->spine + e->bytes_len;
        line->head_len = e->head_len;
        memcpy(line->spine, e->bytes, e->bytes_len);
        memcpy(line->head, e->head, e->head_len);
        for (peer *m = e->fetch->peers; m != e->fetch->unopened; m = m->next)
            if (m->at.kind == PLAIN && m->line == line) add_opener(e->fetch, m, line);
    }
    decide(e, false);
}

/* A refused chunk, or its claim, may be false: nobody is blamed. A parent is its own file's. */
static void was_refuted(exchange *e) {
    fetch *f = e->fetch;
    peer *liar = !e->by ? e->from : e->is_parent_false ? e->by : NULL;
    if (liar) {
        liar->bad++;
        liar->at.wrong +=
            e->by ? BW_PARENT_LEN : bw_slice_len(e->claimed, UINT64_MAX, 1) - BW_LENGTH_LEN;
        source_note(&liar->at, false,
                    e->by ? "it isn't the root's" : "its last chunk isn't the root's");
        fetch_say(f, liar, NULL);
    }
    for (opener *it = f->openers; it && liar && e->by; it = it->next)
        if (it->by == liar) fetch_report(f, &it->booked, bw_plan_refused, (run){0, 1}, NULL);
    decide(e, true);
}

/* --- It is certified */

/* The last chunk came with the length, and with it the parents above it. */
static void keep_last(exchange *e) {
    fetch *f = e->fetch;
    const uint64_t last = chunks_of(f->total) - 1, group = last / BW_GROUP_CHUNKS;
    const uint8_t *of_group = e->image ? e->image + group % UNIT_GROUPS * GROUP_LEN : NULL;
    const origin from = {NULL, e->from->at.kind, &e->seen, &e->parents};
    static slice of;
    if (slice_find(&of, &from, f->total, last * BW_CHUNK_LEN, 1)) out_learn(&f->out, f->known, &of);
    if (f->out.is_pipe && last / UNIT_CHUNKS >= WINDOW_UNITS) return;
    if (f->out.is_pipe)
        memcpy(e->image + last % UNIT_CHUNKS * BW_CHUNK_LEN, e->chunk, e->chunk_len);
    else if (!out_put(&f->out, last * BW_CHUNK_LEN, &(struct iovec){e->chunk, e->chunk_len}, 1))
        return fetch_stop(f, FILE_FAULT);
    if (f->out.served_as) shelf_mark(group, mask_in(group, (run){last, 1}));
    fetch_keep(f, e->from->holder, group, mask_in(group, (run){last, 1}), of_group);
    e->from->good++;
}

/* A unit that was asked for already becomes a request of the plan, if that wants it just so. */
static void adopt(exchange *e) {
    fetch *f = e->fetch;
    booking of = booking_of(f, e->from);
    e->opener->booked.is_open = false;
    e->opener = NULL;
    if (e->opens_unit && e->claimed == f->total && e->step == PROOF && e->from->is_in)
        fetch_book(f, &of, now_ms());
    if (of.is_open && of.chunks.first / UNIT_CHUNKS == e->unit) {
        e->of_from = of;
        e->chunks = e->proving = of.chunks;
        e->step = UNIT;
        e->opens_unit = false;
        return exchange_move(e);
    }
    fetch_close(f, &of, BW_ENDED_CUT, 0);
    exchange_end(e, BW_ENDED_CUT, 0);
}

static void settle(exchange *e) {
    fetch *f = e->fetch;
    fetch_settle(f, e->claimed);
    if (f->status != GOES_ON) return;
    keep_last(e);
    for (uint64_t u = 0; u <= WINDOW_UNITS && f->status == GOES_ON; u++) {
        for (exchange *x = f->exchanges; x; x = x->next) {
            const bool is_next = u == WINDOW_UNITS || (x->opens_unit && x->unit == u);
            if (!x->is_over && x->opener && is_next) adopt(x);
        }
    }
}

void open_move(exchange *e) {
    if (e->is_busy) return;
    if (e->is_certified) settle(e);
    else if (e->is_refuted) was_refuted(e);
    else if (e->step == PROOF && !pieces_lacking(e->parts.list, e->certifying)) verify(e);
    else if (!e->has_ended) return;
    else if (e->step == HEAD) was_claimed(e);
    else if (e->step == SPINE) was_spine(e);
    else exchange_end_by(e);
}
