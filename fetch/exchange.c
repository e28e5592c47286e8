/* A request of a plan: the parents of an outboard encoding, then the bytes of a mirror. */
#include "fetch.h"

enum { TRY_AFTER = GROUP_LEN, SHORT_WAIT = 100, SLOW_MS = 30000, SPARE_MOST = 4 };

/* Places the pieces, and copies what the file's head has of them. How many bytes they take. */
size_t pieces_lay_out(pieces *of, uint8_t *at, const uint8_t *head, size_t head_len) {
    size_t used = 0;
    for (piece *it = of->list; it < of->list + of->count; used += it++->len) {
        it->bytes = at + used;
        if (it->at >= head_len) continue;
        it->have = least(head_len - it->at, it->len);
        memcpy(it->bytes, head + it->at, it->have);
    }
    return used;
}

/* A stream that breaks off ends the exchange, once the parents that are under way came. What is
 * behind the file's end isn't asked for. */
static void told(leg *of, leg_end as) {
    exchange *e = of->with;
    fetch *f = e->fetch;
    e->heard = now_ms();
    if (as == LEG_MORE) return exchange_move(e);
    if (of == &e->flow) {
        const booking all = booking_of(f, e->from);
        if (of->at_end) {
            fetch_report(f, &all, bw_plan_lacks, all_from(f, e->unit), NULL);
            peers_lack(f, e->from, all_from(f, e->unit));
        }
        e->flow_end = as;
        if (e->step != UNIT) return;
    }
    e->has_ended = true;
    e->end = as;
    e->later_ms = of->wait_ms;
    if (as != LEG_ALL && !(e->step == HEAD && of->at_end)) fetch_say(f, e->asked, NULL);
    exchange_move(e);
}

/* Ended exchanges, of whose memory and handle the next are made, so that no unit costs the system's
 * work for a MiB. */
static exchange *spare;
static unsigned spares;

/* Of what is booked, if it isn't NULL. NULL: there is no memory for one more, which is as a failure
 * of the mirror's. */
exchange *exchange_new(fetch *f, peer *from, booking *of) {
    const size_t image_len = f->out.is_pipe ? UNIT_LEN : 0;
    exchange *e = spare ? spare : malloc(sizeof *e + BYTES_MOST + HEAD_LEN + image_len);
    CURL *easy = spare ? spare->leg.easy : NULL;
    if (spare) {
        spare = spare->next;
        spares--;
    }
    if (!e && of) {
        f->hindrance = NO_MEMORY;
        fetch_close(f, of, BW_ENDED_OVER, 0);
    }
    if (!e) return NULL;
    *e = (exchange){.fetch = f, .from = from, .asked = from, .next = f->exchanges};
    e->began = now_ms();
    e->streams = from->at.no_ranges && from->at.kind != OUTBOARD;
    e->leg = (leg){.tell = told, .with = e, .easy = easy};
    e->flow = (leg){.tell = told, .with = e, .streams = true};
    e->head = e->bytes + BYTES_MOST;
    e->image = f->out.is_pipe ? e->head + HEAD_LEN : NULL;
    f->exchanges = e;
    f->live++;
    from->busy++;
    return e;
}

void exchange_sweep(fetch *f) {
    for (exchange **at = &f->exchanges, *e; (e = *at);) {
        if (!e->is_over || e->leg.runs || e->flow.runs || e->is_busy) {
            at = &e->next;
            continue;
        }
        *at = e->next;
        leg_free(&e->flow);
        if (spares < SPARE_MOST) {
            free(e->leg.url);
            e->next = spare;
            spare = e;
            spares++;
            continue;
        }
        leg_free(&e->leg);
        free(e);
    }
}

/* An outboard encoding that has no ranges is copied whole, beside OUT. */
void exchange_get(exchange *e, peer *of, pieces *wanted) {
    fetch *f = e->fetch;
    e->has_ended = false;
    e->asked = of;
    e->heard = now_ms();
    e->leg.copy_to = of->at.kind == OUTBOARD ? f->out.folder : NULL;
    e->leg.copy_most = bw_outboard_len(f->is_settled ? f->total : e->claimed);
    leg_start(&e->leg, f->hub, &of->at, wanted);
}

/* Those that have given something come first; those that lie or mostly fail get what others leave.
 */
static int turn_of(const peer *it) { return it->rank == LAST || has_failed(it) ? LAST : !it->good; }

/* --- Parents: an outboard encoding's plan hears what is wanted of it, and says when to ask it */

/* Whether some of an exchange's chunks are asked of an outboard encoding already, for another. */
static bool is_asked_for(const exchange *e, const peer *line) {
    for (const exchange *x = e->fetch->exchanges; x; x = x->next) {
        const run of = x->of_by.chunks;
        if (x->of_by.is_open && x->of_by.of == &line->at &&
            run_in(of, e->chunks.first, e->chunks.count).count)
            return true;
    }
    return false;
}

/* Asks one for the chunks, of which it is told to have those that are asked for alone. False: it
 * isn't to be asked now, but may be from *until on. */
static bool take_line(exchange *e, peer *line, uint64_t now, uint64_t *until) {
    fetch *f = e->fetch;
    const run all = e->chunks;
    booking of = booking_of(f, line);
    uint64_t next = now + SHORT_WAIT;
    if (line->at.live < line->at.most && line->later <= now && !is_asked_for(e, line)) {
        fetch_report(f, &of, bw_plan_has, all, e->refuted);
        next = fetch_book(f, &of, now);
        const run got = of.is_open ? of.chunks : (run){all.first, 0};
        fetch_report(f, &of, bw_plan_lacks, (run){all.first, got.first - all.first}, NULL);
        fetch_report(f, &of, bw_plan_lacks, (run){end_of(got), end_of(all) - end_of(got)}, NULL);
    }
    *until = least(*until, of.is_open ? UINT64_MAX : next);
    if (!of.is_open) return false;
    e->by = line;
    e->of_by = of;
    e->line_since = now;
    e->proving = of.chunks;
    return true;
}

/* Picks one for the chunks: the mirror's own, or one that follows it. Those that lie or lag are the
 * last, if any. False: none now, and from *until on there may be one, or never where that is
 * UINT64_MAX. */
static bool pick_line(exchange *e, bool may_lie, uint64_t now, uint64_t *until) {
    peer *const first = e->from->line;
    *until = UINT64_MAX;
    for (int turn = 0; first && turn <= LAST; turn++) {
        peer *it = first;
        do {
            if (it->is_holder && turn_of(it) == turn && (may_lie || !is_doubtful(it)) &&
                take_line(e, it, now, until))
                return true;
            it = it->next ? it->next : e->fetch->lines;
        } while (it != first);
    }
    return false;
}

/* Asks for the parents, which lie behind the other bytes in memory. */
static void ask_parents(exchange *e) {
    const uint64_t start = e->proving.first * BW_CHUNK_LEN, len = e->proving.count * BW_CHUNK_LEN;
    fetch *f = e->fetch;
    e->parents.count = e->next_group = 0;
    e->is_whole = false;
    e->wrong_parent = 0;
    if (e->by && !pieces_add(&e->parents, f->known, OUTBOARD, f->total, start, len))
        return exchange_end(e, BW_ENDED_OVER, 0);
    if (e->by) pieces_lay_out(&e->parents, e->bytes + e->bytes_len, e->by->head, e->by->head_len);
    e->step = PARENTS;
    e->has_ended = true;
    e->end = LEG_ALL;
    if (are_whole(&e->parents)) exchange_move(e);
    else exchange_get(e, e->by, &e->parents);
}

/* Afterwards nothing is wanted of the outboard encoding. */
static void close_line(fetch *f, booking *of, uint32_t outcome, uint64_t later) {
    if (!of->is_open) return;
    fetch_close(f, of, outcome, later);
    fetch_report(f, of, bw_plan_lacks, of->chunks, NULL);
}

/* --- Begin and end */

/* The parents above a unit that a stream has passed already are taken as they came. */
static void give_passed(exchange *e) {
    const uint8_t *text;
    for (piece *it = e->parts.list; it < e->parts.list + e->parts.count; it++) {
        while (it->len - it->have >= BW_PARENT_LEN &&
               (text = pieces_find(&e->passed, it->at + it->have, BW_PARENT_LEN))) {
            memcpy(it->bytes + it->have, text, BW_PARENT_LEN);
            it->have += BW_PARENT_LEN;
        }
    }
}

static void keep_passed(exchange *e) {
    slice above;
    pieces *to = &e->passed;
    to->count = 0;
    if (!slice_of(&above, e->fetch->total, e->unit * UNIT_LEN, 1)) return;
    for (const bw_placed *it = above.nodes; it < above.nodes + above.count; it++) {
        const uint8_t *text = pieces_find(&e->parts, it->combined_at, BW_PARENT_LEN);
        if (!text || it->len <= UNIT_LEN) continue;
        uint8_t *copy = memcpy(e->passed_text[to->count], text, BW_PARENT_LEN);
        to->list[to->count++] = (piece){it->combined_at, BW_PARENT_LEN, BW_PARENT_LEN, copy};
    }
}

/* Asks for bytes of chunks of a unit, and for the parents of those in `proving`. */
void exchange_unit(exchange *e, run of) {
    fetch *f = e->fetch;
    const uint64_t start = of.first * BW_CHUNK_LEN, len = of.count * BW_CHUNK_LEN;
    e->unit = of.first / UNIT_CHUNKS;
    e->chunks = of;
    e->try_at = TRY_AFTER;
    memset(e->refuted, 0, sizeof e->refuted);
    e->parts.count = 0;
    const bool ok = pieces_add(&e->parts, f->known, e->from->at.kind, f->total, start, len);
    if (!ok) return exchange_end(e, BW_ENDED_OVER, 0);
    e->bytes_len = pieces_lay_out(&e->parts, e->bytes, NULL, 0);
    give_passed(e);
    ask_parents(e);
}

/* Also by the plan that isn't made yet: a server's wish to be left alone is about it, and not about
 * what it is asked for. */
static void leave_alone(const fetch *f, peer *it, uint64_t ms) {
    const uint64_t most = (uint64_t)(SETTLING * f->set->set.stall * 1000);
    const uint64_t until = now_ms() + least(ms, most);
    if (until > it->later) it->later = until;
}

/* Wants nothing more. */
void exchange_cut(exchange *e) {
    if (e->is_over) return;
    e->is_over = true;
    e->fetch->live--;
    e->from->busy--;
    leg_cut(&e->leg);
    leg_cut(&e->flow);
}

/* Tells the plans its end. */
void exchange_end(exchange *e, uint32_t outcome, uint64_t later_ms) {
    fetch *f = e->fetch;
    if (e->is_over) return;
    exchange_cut(e);
    close_line(f, &e->of_by, BW_ENDED_CUT, 0);
    f->changes++;
    if (outcome == BW_ENDED_LATER) leave_alone(f, e->from, later_ms);
    if (e->opener) fetch_close(f, &e->opener->booked, outcome, later_ms);
    const bool was_open = e->of_from.is_open;
    fetch_close(f, &e->of_from, e->orphaned ? BW_ENDED_CUT : outcome, later_ms);
    if (was_open) peers_close(f, e->from, &e->of_from, outcome == BW_ENDED_CUT);
}

/* Its mirror is too slow for a place that others wait for. */
void exchange_leave(exchange *e) {
    e->from->lost++;
    exchange_end(e, BW_ENDED_CUT, 0);
}

/* Whether it brings nothing for a while, or takes long as a whole, and that isn't due to a limit:
 * then others are asked in its place. Not while many names are looked up whose servers hang. */
bool exchange_lags(const exchange *e, uint64_t now) {
    const uint64_t since = e->opener ? e->began : e->heard;
    const bool is_late = since + OVERTAKE_MS <= now || e->began + SLOW_MS <= now;
    const bool is_asked = e->leg.runs && !e->leg.is_local && !e->is_over && !e->is_busy;
    const fetch *f = e->fetch;
    return is_late && is_asked && !f->set->set.limit_rate && f->hub->ghosts < IN_MOST;
}

/* Of those that lag, or wait for a window to move, the one that began first; or NULL. */
exchange *exchange_slowest(const fetch *f, uint64_t now) {
    exchange *found = NULL;
    for (exchange *e = f->exchanges; e; e = e->next)
        if (exchange_lags(e, now) || (e->waits == FOR_WINDOW && !e->is_over)) found = e;
    return found;
}

/* What an end of the bytes is to the plans. A file that comes only whole is streamed at last, and
 * can't be asked for what certifies a length. A server that refuses one connection beside others
 * gets fewer. */
static uint32_t outcome_of(exchange *e) {
    fetch *f = e->fetch;
    source *of = &e->asked->at;
    if (e->end == LEG_NO_RANGES) {
        e->from->rank = LAST;
        fetch_must(f, e->opener ? bw_plan_lacks(&f->length, e->opener->booked.holder, 0, 1)
                                : bw_plan_rank(&f->chunks, e->from->holder, LAST));
        return BW_ENDED_CUT;
    }
    if (e->end != LEG_ALL && of->is_far && of->live) {
        of->most = of->live;
        return BW_ENDED_CUT;
    }
    return e->end == LEG_LATER ? BW_ENDED_LATER : BW_ENDED_OVER;
}

/* The same, by what the bytes' end was. */
void exchange_end_by(exchange *e) { exchange_end(e, outcome_of(e), e->later_ms); }

/* The parents didn't come: another outboard encoding is asked. */
static void change_line(exchange *e) {
    const uint32_t outcome = outcome_of(e);
    uint64_t until;
    if (outcome == BW_ENDED_LATER) leave_alone(e->fetch, e->by, e->later_ms);
    close_line(e->fetch, &e->of_by, outcome, e->later_ms);
    if (!e->leg.runs && pick_line(e, true, now_ms(), &until)) ask_parents(e);
    else exchange_end(e, BW_ENDED_CUT, 0);
}

/* --- What a job found */

/* A mirror of mostly false groups, or one that others overtake, is asked last, and a plain file
 * without an outboard encoding not at all. */
static void judge(fetch *f, peer *m) {
    const uint32_t rank = rank_of(f, m);
    if (!m->is_holder || rank == m->rank || (rank < m->rank && m->rank != USELESS)) return;
    m->rank = rank;
    f->changes++;
    fetch_must(f, bw_plan_rank(&f->chunks, m->holder, rank));
}

static void take_group(exchange *e, unsigned g) {
    fetch *f = e->fetch;
    const bool has_line = e->by && e->by->is_holder, is_own = e->from == &f->own;
    const uint64_t group = e->unit * UNIT_GROUPS + g;
    uint64_t none;
    if (e->kept[g]) {
        fetch_keep(f, e->from->holder, group, e->kept[g],
                   e->image ? e->image + g * GROUP_LEN : NULL);
        if (has_line)
            fetch_must(f, bw_plan_kept(&f->parents, e->by->holder, group, e->kept[g], &none));
        if (has_line) e->by->good++;
        e->from->good += !e->refused[g];
    }
    e->refuted[g] |= e->refused[g];
    if (e->refused[g] && !is_own) {
        fetch_must(f, bw_plan_refused(&f->chunks, e->from->holder, group, e->refused[g]));
        e->from->bad++;
    }
    if (e->orphans[g] && has_line) {
        fetch_must(f, bw_plan_refused(&f->parents, e->by->holder, group, e->orphans[g]));
        e->by->bad++;
        e->orphaned += (unsigned)__builtin_popcountll(e->orphans[g]);
    }
    e->kept[g] = e->refused[g] = e->orphans[g] = 0;
}

static void take_results(exchange *e) {
    fetch *f = e->fetch;
    for (unsigned g = 0; g < UNIT_GROUPS; g++) take_group(e, g);
    if (e->wrong_of_line) fetch_say(f, e->by, "a parent isn't the root's");
    e->from->at.wrong += e->wrong;
    if (e->by) e->by->at.wrong += e->wrong_of_line;
    e->wrong = e->wrong_of_line = 0;
    if (e->failed_to_write) fetch_stop(f, FILE_FAULT);
    judge(f, e->from);
}

/* Whether none of its chunks is lacking any more, but for those that were refused. */
static bool is_decided(const exchange *e) { return !fetch_lacks(e->fetch, e->chunks, e->refuted); }

/* Ends those whose chunks others gave, unless all came, or it is read just then by a thread. */
static void end_overtaken(fetch *f, const exchange *but) {
    for (exchange *e = f->exchanges; e; e = e->next) {
        const bool is_coming =
            (e->leg.runs && e->leg.is_local) || e->streams || are_whole(&e->parts);
        if (e == but || e->is_over || !e->of_from.is_open || is_coming || !is_decided(e)) continue;
        e->from->lost++;
        judge(f, e->from);
        exchange_end(e, BW_ENDED_OVER, 0);
    }
}

/* Chunks whose parents were false are verified once more, out of the same bytes, by what another
 * outboard encoding has. False: there is none. */
static bool verify_again(exchange *e) {
    const uint64_t now = now_ms();
    const bool is_through = e->next_group == UNIT_GROUPS || e->waits == FOR_PARENTS;
    if (!is_through || !e->by || e->from == &e->fetch->own || is_decided(e)) return false;
    const bool has_line = pick_line(e, true, now, &e->wait_until);
    e->waits = has_line || e->wait_until == UINT64_MAX ? FOR_NOTHING : FOR_PARENTS;
    if (!has_line) return e->waits;
    e->orphaned = 0;
    ask_parents(e);
    return true;
}

/* --- A file that comes whole: each unit is verified where something of it is lacking */

/* Goes on with the next of these. */
static void stream_on(exchange *e) {
    fetch *f = e->fetch;
    const uint64_t now = now_ms();
    for (; e->next_unit < f->unit_count; e->next_unit++) {
        if (fetch_has_unit(f, e->next_unit)) continue;
        e->wait_until = now;
        e->waits = FOR_WINDOW;
        if (f->out.is_pipe && e->next_unit >= f->drained + WINDOW_UNITS) return;
        e->chunks = e->proving = run_of_unit(f->total, e->next_unit);
        memset(e->refuted, 0, sizeof e->refuted);
        if (e->from->at.kind == COMBINED || pick_line(e, true, now, &e->wait_until)) {
            e->waits = FOR_NOTHING;
            e->next_unit++;
            return exchange_unit(e, e->chunks);
        }
        e->waits = FOR_UNIT;
        if (e->wait_until != UINT64_MAX) return;
        fetch_report(f, &e->of_from, bw_plan_lacks, e->chunks, NULL);
    }
    e->waits = FOR_NOTHING;
    exchange_end(e, BW_ENDED_OVER, 0);
}

/* Asks for the unit's bytes; a stream has come to them. */
static void ask_bytes(exchange *e) {
    if (!e->streams) return exchange_get(e, e->from, &e->parts);
    e->has_ended = false;
    if (e->flow_end) told(&e->flow, e->flow_end);
    else if (e->flow.runs) leg_go_on(&e->flow);
    else leg_start(&e->flow, e->fetch->hub, &e->from->at, &e->parts);
}

/* All of a unit was verified. A length that is believed is false where no parent is true. */
static void end_unit(exchange *e) {
    const bool is_vain = e->fetch->believed && e->orphaned && !e->taken;
    if (e->end == LEG_ALL && verify_again(e)) return;
    if (!e->streams || e->end != LEG_ALL || is_vain) return exchange_end_by(e);
    keep_passed(e);
    stream_on(e);
}

/* Whether all that are left wait for a window to move. */
bool exchange_all_wait(const fetch *f) {
    for (const exchange *e = f->exchanges; e; e = e->next)
        if (!e->is_over && e->waits != FOR_WINDOW) return false;
    return true;
}

/* Parents that don't come are asked of another outboard encoding that doesn't lie or lag. */
static void overtake_line(exchange *e, uint64_t now) {
    peer *slow = e->by;
    booking of_slow = e->of_by;
    uint64_t until;
    if (!of_slow.is_open || e->leg.is_local) return;
    if (e->line_since + OVERTAKE_MS > now) return fetch_wait(e->fetch, e->line_since + OVERTAKE_MS);
    if (!pick_line(e, false, now, &until)) return;
    slow->lost++;
    close_line(e->fetch, &of_slow, BW_ENDED_CUT, 0);
    leg_cut(&e->leg);
    ask_parents(e);
}

/* One that lags gives way to a mirror that wasn't asked yet. */
static void end_waits(fetch *f, uint64_t now) {
    for (exchange *e = f->exchanges; e && f->status == GOES_ON; e = e->next) {
        if (f->next_in != f->lines && exchange_lags(e, now)) exchange_leave(e);
        if (!e->is_over) overtake_line(e, now);
        if (e->is_over || !e->waits) continue;
        if (e->wait_until > now) fetch_wait(f, e->wait_until);
        else if (e->waits == FOR_PARENTS) end_unit(e);
        else stream_on(e);
    }
}

static void move_unit(exchange *e) {
    const bool is_all = e->has_ended || are_whole(&e->parts);
    const uint32_t rank = e->from->rank;
    if (e->is_busy) return;
    take_results(e);
    if (e->taken) end_overtaken(e->fetch, e);
    if (e->is_over || e->fetch->status != GOES_ON) return;
    if (e->from->rank > rank && !is_all && !e->from->at.no_ranges)
        return exchange_end(e, BW_ENDED_OVER, 0);
    const uint64_t there = e->bytes_len - pieces_lacking(e->parts.list, e->parts.count);
    if (e->next_group < UNIT_GROUPS && (there >= e->try_at || is_all) && !e->is_whole) {
        e->try_at = there + TRY_AFTER;
        e->is_whole = is_all;
        return verify(e);
    }
    if (e->has_ended || (e->streams && is_all)) end_unit(e);
}

/* Moves an exchange on, after its last bytes came or its job was done. A read of a file that hangs
 * still uses its pieces, which nobody else may look at. Whether parents are true is told later:
 * until then others may ask for the same. */
void exchange_move(exchange *e) {
    const bool hangs = e->has_ended && e->leg.runs;
    if (e->is_over && !e->is_busy && e->step == UNIT && e->fetch->is_settled) take_results(e);
    if (e->is_over) return;
    if (hangs && e->step != PARENTS) exchange_end_by(e);
    else if (e->opener) open_move(e);
    else if (e->step == UNIT) move_unit(e);
    else if (e->has_ended && e->end != LEG_ALL) change_line(e);
    else if (e->has_ended) {
        close_line(e->fetch, &e->of_by, BW_ENDED_CUT, 0);
        e->step = UNIT;
        e->asked = e->from;
        if (are_whole(&e->parts)) move_unit(e);
        else ask_bytes(e);
    }
}

/* --- Who is asked */

/* What the plan wants of a mirror now, where enough are asked in place of the one that lags most.
 * Whether it was asked. */
static bool ask_one(fetch *f, peer *m, uint64_t most, uint64_t now) {
    exchange *slow = f->live < most ? NULL : exchange_slowest(f, now);
    if (f->live >= most && (!slow || turn_of(m) == LAST)) return false;
    booking of = booking_of(f, m);
    uint64_t until = peers_choose(f, m) ? peers_book(f, m, &of, now) : fetch_book(f, &of, now);
    m->wait = until;
    m->asked = now;
    m->seen = f->changes;
    if (!of.is_open) return false;
    if (slow) exchange_leave(slow);
    exchange *e = exchange_new(f, m, &of);
    if (!e) {
        peers_close(f, m, &of, true);
        return false;
    }
    e->of_from = of;
    e->chunks = e->proving = of.chunks;
    if (e->streams) stream_on(e);
    else if (m->at.kind == COMBINED || pick_line(e, true, now, &until))
        exchange_unit(e, e->proving);
    else {
        if (until == UINT64_MAX) {
            fetch_report(f, &of, bw_plan_lacks, of.chunks, NULL);
            peers_lack(f, m, of.chunks);
        } else m->later = until;
        exchange_end(e, BW_ENDED_CUT, 0);
        return until == UINT64_MAX;
    }
    return true;
}

static void ask(fetch *f, peer *m, uint64_t now) {
    const uint64_t most = IN_MOST * f->set->connections * (f->swarm.is_on ? PEERS_EACH : 1);
    judge(f, m);
    if (!m->is_in || (f->believed && m != f->believed)) return;
    if (m->at.kind == PLAIN && f->lacks_lines) return; /* nobody waits for it */
    if (m->later > now) fetch_wait(f, m->later);
    const bool is_known = m->seen == f->changes && now < m->wait;
    const bool is_put_off = !is_known && m->rank == LAST && f->live > m->busy &&
                            now < m->asked + SHORT_WAIT; /* while others are asked */
    if (is_put_off) fetch_wait(f, m->asked + SHORT_WAIT);
    while (f->status == GOES_ON && !is_known && !is_put_off && m->busy < m->at.most &&
           m->later <= now && ask_one(f, m, most, now))
        continue;
    if (m->wait != UINT64_MAX && m->wait > now && m->busy < m->at.most) fetch_wait(f, m->wait);
}

void exchange_ask_all(fetch *f, uint64_t now) {
    f->lacks_lines = true;
    for (const peer *line = f->lines; line; line = line->next)
        f->lacks_lines &= !line->is_in || fetch_has_left_out(f, line);
    end_waits(f, now);
    for (int turn = 0; turn <= LAST; turn++) {
        for (peer *m = f->peers; m != f->lines && f->status == GOES_ON; m = m->next)
            if (turn_of(m) == turn) ask(f, m, now);
    }
}
