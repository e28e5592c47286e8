/* Peers: mirrors that may be unfinished, and that fetch the same blob from others and from this
 * program. A peer tells in each answer which groups it has, and which units it gets from an origin:
 * a mirror that is no peer.
 *
 * With peers it is chosen here which unit a mirror is asked for. The plan hears that the mirror has
 * these chunks, is asked, and hears in the end that the mirror lacks them. Whether it is asked for
 * them, and whose fault it is if they don't come, stays the plan's answer. */
#include "fetch.h"

#include <sys/random.h>
#include <sys/stat.h>

enum {
    POLL_MS = 200,     /* how often a peer is asked for its map at most, */
    POLL_EACH_MS = 10, /* and for each peer that there is */
    POLL_MOST_MS = 8000,
    LOOK_AGAIN_MS = 100,
    READ_MS = 1000, /* how often the file of peers is looked at */
    MAP_LEN = 2048, /* bytes, with as many bits as a server tells at most */
    NAME_LEN = 16,  /* of what a server calls itself */
    TRUST = 2,      /* at first; of each request that falls short this much is lost */
    TRUST_MOST = 4,
    TRUST_LEAST = -4,
    SLOW = 4,      /* a peer is slow that takes so small a part of what origins wait */
    TRIES_MOST = 8 /* units that the plan is asked for at a time */
};

/* What a peer says it has. */
struct has {
    uint8_t map[MAP_LEN]; /* bit i: it has the groups from i * each on, so many */
    uint64_t each, bits;  /* each: 0 where it says nothing */
    uint64_t name;        /* what it calls itself, as a number */
};

/* What is known of a peer beside what is known of each mirror. */
struct member {
    struct has has, counted;      /* counted: what units are counted by */
    uint64_t coming[COMING_MOST]; /* units */
    size_t coming_count;
    char name[NAME_LEN + 1];
    uint64_t poll_at, heard_at, pause;
    int trust; /* it gives what it says it has; above 0 it is relied on */
    bool has_news, is_self, is_of_file, is_listed;
    leg leg;
    pieces claim;
    uint8_t bytes[BW_LENGTH_LEN];
};

struct unit {
    uint16_t held_by, left_to;  /* peers that have all of it; that are to ask an origin for it */
    uint8_t asked;              /* requests that are for it */
    bool is_coming;             /* some peer gets it from an origin */
    uint64_t asked_at, awaited; /* when it was asked for, and when some peer first got it */
};

static bool is_gone(const peer *it) { return it->member->is_self || !it->member->is_listed; }

/* --- What a peer says */

/* The map, as a server writes it; another one as far as it is understood. */
static void read_map(struct member *it, const char *text) {
    static const char digits[] = "0123456789abcdef";
    struct has *to = &it->has;
    int used = 0;
    unsigned each = 0;
    if (sscanf(text, "%9u %n", &each, &used) != 1 || !each || !used) return;
    to->each = each;
    to->bits = 0;
    memset(to->map, 0, MAP_LEN);
    const char *at;
    for (text += used; to->bits < 8 * MAP_LEN && *text && (at = strchr(digits, *text)); text++) {
        to->map[to->bits / 8] |= (uint8_t)((at - digits) << to->bits % 8);
        to->bits += 4;
    }
    it->has_news = true;
    it->heard_at = now_ms();
}

/* Its name, and what it gets. What has this program's own name is this program. */
static void read_coming(struct member *it, char *text) {
    char *word = strtok(text, " ");
    it->coming_count = 0;
    snprintf(it->name, sizeof it->name, "%s", word ? word : "");
    it->has.name = strtoull(it->name, NULL, 16);
    it->is_self |= *it->name && !strcmp(it->name, shelf_self());
    while (it->coming_count < COMING_MOST && (word = strtok(NULL, " ")))
        it->coming[it->coming_count++] = strtoull(word, NULL, 10);
    it->has_news = true;
}

/* A line of an answer's headers. */
static void hear(void *with, const char *line, size_t len) {
    static char text[2 * MAP_LEN + 64];
    if (len >= sizeof text) return;
    memcpy(text, line, len);
    text[len] = 0;
    text[strcspn(text, "\r\n")] = 0;
    if (!strncasecmp(text, HAS_HEADER ": ", strlen(HAS_HEADER ": ")))
        read_map(with, text + strlen(HAS_HEADER ": "));
    else if (!strncasecmp(text, COMING_HEADER ": ", strlen(COMING_HEADER ": ")))
        read_coming(with, text + strlen(COMING_HEADER ": "));
}

/* Which groups of a unit a peer says it has. */
static unsigned groups_at(const fetch *f, const struct has *it, uint64_t unit) {
    const uint64_t first = unit * UNIT_GROUPS;
    const uint64_t count = least(groups_of(f->total) - first, UNIT_GROUPS);
    unsigned found = 0;
    if (!it->each) return 0;
    for (uint64_t bit = first / it->each, at; bit < it->bits; bit++) {
        at = bit * it->each;
        if (at >= first + count) break;
        if (it->map[bit / 8] >> bit % 8 & 1)
            found |=
                (1u << least(at + it->each - first, count)) - (1u << (at > first ? at - first : 0));
    }
    return found;
}

/* Whether these are all that there are of it. */
static bool are_all(const fetch *f, uint64_t unit, unsigned groups) {
    const uint64_t count = least(groups_of(f->total) - unit * UNIT_GROUPS, UNIT_GROUPS);
    return groups == (1u << count) - 1;
}

/* --- Who there is */

/* The address of the combined encoding, which may be left out at the end. */
static char *address_of(const fetch *f, const char *url) {
    char *it, root[2 * BW_HASH_LEN + 1];
    size_t len = strlen(url);
    if (url_is_combined(url)) return strdup(url);
    while (len && url[len - 1] == '/') len--;
    for (int i = 0; i < BW_HASH_LEN; i++) sprintf(root + 2 * i, "%02x", f->out.root[i]);
    return asprintf(&it, "%.*s/%s.bao", (int)len, url, root) < 0 ? NULL : it;
}

/* Adds a peer, unless it is there. 0, or a status. */
int peers_add(fetch *f, const char *url, bool is_of_file) {
    if (url_is_local(url)) return usage("a peer is a URL");
    char *address = address_of(f, url);
    struct member *it = NULL;
    for (peer *m = f->peers; m != f->lines && address; m = m->next) {
        if (!m->member || strcmp(m->at.url, address)) continue;
        m->member->is_listed = true;
        free(address);
        return DONE;
    }
    if (address && (it = calloc(1, sizeof *it))) {
        *it = (struct member){.is_of_file = is_of_file, .is_listed = true, .trust = TRUST};
        peer *m = fetch_add(f, address, COMBINED, it);
        if (m) {
            m->at.hear = hear;
            m->at.hearer = it;
            f->swarm.members++;
        } else free(it), it = NULL;
    }
    free(address);
    return it ? DONE : NO_MEMORY;
}

static int add_of_file(void *with, char *url) {
    fetch *f = with;
    url[strcspn(url, " \t")] = 0;
    return f->mirror_count < MIRRORS_MOST ? peers_add(f, url, true) : DONE;
}

/* Reads the file of peers anew, if it has changed or has to be. Who isn't in it any more isn't
 * asked any more. 0, or a status. */
int peers_read(fetch *f, bool must) {
    const char *path = f->set->peers_file;
    struct stat is;
    if (!path) return DONE;
    if (stat(path, &is)) return file_fault(path);
    struct stat *was = &f->swarm.file;
    if (!must && is.st_ino == was->st_ino && is.st_size == was->st_size &&
        is.st_mtim.tv_sec == was->st_mtim.tv_sec && is.st_mtim.tv_nsec == was->st_mtim.tv_nsec)
        return DONE;
    *was = is;
    for (peer *m = f->peers; m != f->lines; m = m->next)
        if (m->member) m->member->is_listed &= !m->member->is_of_file;
    f->changes++;
    return each_line(path, add_of_file, f);
}

/* Nothing more is asked for. */
void peers_stop(fetch *f) {
    const uint64_t none[COMING_MOST] = {0};
    if (f->out.served_as) shelf_announce(none);
    for (peer *m = f->peers; m != f->lines; m = m->next)
        if (m->member) leg_cut(&m->member->leg);
}

/* What wasn't to be had of a mirror may be now. */
void peers_forget(peer *it) {
    free(it->vain);
    it->vain = NULL;
}

void peers_free(peer *it) {
    if (it->member) leg_free(&it->member->leg);
    free(it->member);
    free(it->vain);
}

/* A blob is known to have so many units, which are put in an order of this run's own. False: there
 * is no memory. */
bool peers_begin(fetch *f) {
    swarm *s = &f->swarm;
    uint64_t seed;
    for (peer *m = f->peers; m; m = m->next) {
        peers_forget(m);
        if (m->member) m->member->counted.each = 0;
    }
    if (!s->is_on) return true;
    free(s->units);
    free(s->left);
    s->units = calloc(f->unit_count, sizeof *s->units);
    s->left = malloc(f->unit_count * sizeof *s->left);
    if (!s->units || !s->left) return false;
    if (getrandom(&seed, sizeof seed, GRND_NONBLOCK) < 0) seed = now_ms();
    for (uint64_t i = 0; i < f->unit_count; i++) {
        seed = seed * 6364136223846793005 + 1442695040888963407;
        const uint64_t j = (seed >> 32) % (i + 1);
        s->left[i] = s->left[j];
        s->left[j] = i;
    }
    s->left_count = f->unit_count;
    return true;
}

/* --- Which unit is asked for */

/* Whether it is chosen here what a mirror is asked for. */
bool peers_choose(const fetch *f, const peer *it) {
    return f->swarm.is_on && it->at.kind != OUTBOARD && !it->at.is_local;
}

static bool is_of_unit(const exchange *e, uint64_t unit) {
    return !e->is_over && e->of_from.is_open && e->of_from.chunks.first / UNIT_CHUNKS == unit;
}

/* Whether a unit is asked of a mirror, or of any origin where that is NULL. */
static bool is_asked_of(const fetch *f, const peer *m, uint64_t unit) {
    for (const exchange *e = f->exchanges; e; e = e->next)
        if ((m ? e->from == m : !e->from->member) && is_of_unit(e, unit)) return true;
    return false;
}

static uint64_t patience_of(const fetch *f) { return (uint64_t)(f->set->origin_last * 1000); }

/* Whether it hasn't given something yet that was asked for long ago. */
static bool is_slow(const fetch *f, const peer *m, uint64_t now) {
    for (const exchange *e = f->exchanges; e; e = e->next) {
        const uint64_t unit = e->of_from.chunks.first / UNIT_CHUNKS;
        if (e->from == m && is_of_unit(e, unit) &&
            f->swarm.units[unit].asked_at + patience_of(f) / SLOW < now)
            return true;
    }
    return false;
}

/* Whether origins needn't be asked for what a peer has. */
static bool is_relied_on(fetch *f, const peer *m, uint64_t now) {
    return m->member && m->is_holder && m->member->has.each && !is_gone(m) && !is_doubtful(m) &&
           m->member->trust > 0 && m->later <= now && !fetch_has_left_out(f, m) &&
           !is_slow(f, m, now);
}

enum { LATER = 1000000, NEVER };

/* How little a mirror is to be asked for a unit: a peer for what few have; an origin, once its time
 * has come, for what no peer has or gets. */
static unsigned weight_of(fetch *f, const peer *m, uint64_t unit, uint64_t now) {
    const struct unit *it = &f->swarm.units[unit];
    const uint64_t patience = patience_of(f);
    const bool is_peer = m->member;
    const unsigned groups = is_peer ? groups_at(f, &m->member->has, unit) : 0;
    unsigned weight = it->held_by;
    if (is_peer && !groups) return NEVER;
    if (is_peer && !are_all(f, unit, groups)) weight += 100;
    if (m->rank == LAST && f->live > m->busy) return LATER;
    if (it->asked) {
        const uint64_t least_time = is_asked_of(f, NULL, unit) ? patience : patience / SLOW;
        if (it->asked_at + (is_peer ? OVERTAKE_MS : least_time) > now || is_asked_of(f, m, unit))
            return LATER;
        weight += 1000;
    }
    if (is_peer) return weight;
    if (it->held_by && f->moved_at + patience > now) return LATER;
    if (it->is_coming && it->awaited + patience > now) return LATER;
    return weight + (it->is_coming ? 500 : 0) + (it->left_to > 0);
}

/* The best unit. What is there isn't looked at again. Whether there is one; else *later tells
 * whether there may be. */
static bool pick(fetch *f, const peer *m, uint64_t now, uint64_t *unit, bool *later) {
    swarm *s = &f->swarm;
    const uint64_t end = f->out.is_pipe ? f->drained + WINDOW_UNITS : f->unit_count;
    for (;;) {
        unsigned least_weight = LATER;
        uint64_t found = 0;
        for (uint64_t i = 0; i < s->left_count && least_weight > (m->member != NULL); i++) {
            const uint64_t u = s->left[i];
            if (u >= end || (m->vain && m->vain[u])) continue;
            const unsigned weight = weight_of(f, m, u, now);
            *later |= weight == LATER;
            if (weight >= least_weight) continue;
            least_weight = weight;
            found = i;
        }
        if (least_weight >= LATER) return false;
        *unit = s->left[found];
        if (!fetch_has_unit(f, *unit)) return true;
        s->left[found] = s->left[--s->left_count];
    }
}

/* Nothing of some chunks' units is to be had of a mirror. */
void peers_lack(fetch *f, peer *m, run of) {
    if (!peers_choose(f, m) || !of.count) return;
    if (!m->vain && !(m->vain = calloc(f->unit_count, 1))) {
        f->hindrance = NO_MEMORY;
        m->is_in = false;
        return;
    }
    for (uint64_t u = of.first / UNIT_CHUNKS; u <= (end_of(of) - 1) / UNIT_CHUNKS; u++)
        m->vain[u] = true;
}

/* Asks the plan for what a mirror has of a unit; 0 if it is to be asked for it, else as fetch_book.
 */
static uint64_t offer(fetch *f, peer *m, booking *of, uint64_t unit, uint64_t now) {
    const run all = run_of_unit(f->total, unit);
    const unsigned groups = m->member ? groups_at(f, &m->member->has, unit) : UINT_MAX;
    struct unit *it = &f->swarm.units[unit];
    uint64_t lacking[UNIT_GROUPS];
    for (unsigned g = 0; g < UNIT_GROUPS; g++) lacking[g] = groups >> g & 1 ? 0 : UINT64_MAX;
    fetch_report(f, of, bw_plan_has, all, lacking);
    const uint64_t until = fetch_book(f, of, now);
    const run got = of->is_open ? of->chunks : (run){all.first, 0};
    fetch_report(f, of, bw_plan_lacks, run_in(all, all.first, got.first - all.first), NULL);
    fetch_report(f, of, bw_plan_lacks, run_in(all, end_of(got), all.count), NULL);
    if (until == UINT64_MAX) peers_lack(f, m, all);
    if (!of->is_open) return until;
    if (!it->asked++) it->asked_at = now;
    return 0;
}

/* Books what is wanted of a mirror, as fetch_book does. */
uint64_t peers_book(fetch *f, peer *m, booking *of, uint64_t now) {
    const bool may_get = m->member && (double)(now - f->moved_at) < f->set->patience * 1000;
    bool later = may_get;
    uint64_t unit, until = UINT64_MAX;
    if ((m->member && is_gone(m)) || fetch_has_left_out(f, m)) return UINT64_MAX;
    if (!m->member && m->busy && f->swarm.relied_on) return now + LOOK_AGAIN_MS;
    for (int i = 0; i < TRIES_MOST && pick(f, m, now, &unit, &later); i++) {
        until = offer(f, m, of, unit, now);
        if (until != UINT64_MAX) return until;
        later = true;
    }
    return later ? now + LOOK_AGAIN_MS : UINT64_MAX;
}

/* A request has ended: the plan hears that the chunks are lacking there. */
void peers_close(fetch *f, peer *m, const booking *of, bool was_cut) {
    if (!peers_choose(f, m)) return;
    struct unit *it = &f->swarm.units[of->chunks.first / UNIT_CHUNKS];
    const bool is_short = fetch_lacks(f, of->chunks, NULL);
    fetch_report(f, of, bw_plan_lacks, of->chunks, NULL);
    if (it->asked) it->asked--;
    if (!m->member || was_cut) return;
    int *trust = &m->member->trust;
    *trust += is_short ? -TRUST : 1;
    *trust = *trust < TRUST_LEAST ? TRUST_LEAST : *trust > TRUST_MOST ? TRUST_MOST : *trust;
}

/* --- While it goes on */

/* Of two that have begun to get the same unit from an origin, the one with the lower name leaves it
 * to the other, which then has its time. */
static void yield(fetch *f, const struct member *to, uint64_t unit, uint64_t now) {
    const struct unit *it = &f->swarm.units[unit];
    if (it->awaited + patience_of(f) <= now || !*shelf_self() ||
        strcmp(shelf_self(), to->name) >= 0)
        return;
    for (exchange *e = f->exchanges; e; e = e->next)
        if (!e->from->member && !e->streams && e->step == UNIT && is_of_unit(e, unit))
            exchange_end(e, BW_ENDED_CUT, 0);
}

/* A number that each who knows a name has of it and a unit. */
static uint64_t draw_of(uint64_t name, uint64_t unit) {
    uint64_t x = name ^ (unit + 1) * 0x9E3779B97F4A7C15;
    x = (x ^ x >> 30) * 0xBF58476D1CE4E5B9;
    x = (x ^ x >> 27) * 0x94D049BB133111EB;
    return x ^ x >> 31;
}

/* Counts the units that a peer has, by one more or one less, and those that are left to it since it
 * draws a higher number, so that few ask an origin for the same. */
static void add(fetch *f, const struct has *it, int by) {
    const uint64_t own = strtoull(shelf_self(), NULL, 16);
    for (uint64_t u = 0; u < f->unit_count && it->each; u++) {
        struct unit *to = &f->swarm.units[u];
        to->held_by += by * are_all(f, u, groups_at(f, it, u));
        to->left_to += by * (own && it->name && draw_of(it->name, u) > draw_of(own, u));
    }
}

/* Counts who has and who gets what, and of who has it only what has changed. */
static void count(fetch *f, uint64_t now) {
    static const struct has nothing;
    swarm *s = &f->swarm;
    s->counted_at = now;
    s->relied_on = 0;
    for (uint64_t u = 0; u < f->unit_count; u++) s->units[u].is_coming = false;
    for (peer *m = f->peers; m != f->lines; m = m->next) {
        struct member *it = m->member;
        if (!it) continue;
        const bool counts = is_relied_on(f, m, now);
        if (it->has_news) {
            f->changes++;
            peers_forget(m);
            it->has_news = false;
        }
        if (memcmp(&it->counted, counts ? &it->has : &nothing, sizeof nothing)) {
            add(f, &it->counted, -1);
            it->counted = counts ? it->has : nothing;
            add(f, &it->counted, 1);
        }
        if (!counts) continue;
        s->relied_on++;
        for (size_t i = 0; i < it->coming_count; i++) {
            if (it->coming[i] >= f->unit_count) continue;
            struct unit *u = &s->units[it->coming[i]];
            u->is_coming = true;
            if (!u->awaited) u->awaited = now;
            yield(f, it, it->coming[i], now);
        }
    }
}

/* Tells others what comes from origins. */
static void announce(const fetch *f) {
    uint64_t units[COMING_MOST] = {0};
    int count = 0;
    for (const exchange *e = f->exchanges; e && count < COMING_MOST; e = e->next)
        if (!e->is_over && e->of_from.is_open && !e->from->member)
            units[count++] = 1 + e->of_from.chunks.first / UNIT_CHUNKS;
    shelf_announce(units);
}

/* What is told of a question for the map. An ordinary server tells of none, and has all. Who was
 * away, and is back, is asked again. */
static void was_polled(leg *of, leg_end as) {
    peer *m = of->with;
    struct member *it = m->member;
    fetch *f = m->of;
    const uint64_t now = now_ms();
    if (as == LEG_MORE) return;
    if (as == LEG_ALL && !it->has.each) {
        memset(it->has.map, UINT8_MAX, MAP_LEN);
        it->has.bits = 8 * MAP_LEN;
        it->has.each = UINT32_MAX;
        it->has_news = true;
    }
    if (as == LEG_ALL && it->pause) {
        it->pause = 0;
        if (m->is_holder) fetch_must(f, bw_plan_forgive(&f->chunks, m->holder));
        f->changes++;
    }
    if (as == LEG_ALL) return;
    it->pause = least(it->pause ? 2 * it->pause : POLL_MS, POLL_MOST_MS);
    it->poll_at = now + it->pause;
    it->has.each = it->coming_count = 0;
    it->has_news = true;
}

/* Asks for the map, by the length, which each has that has anything. */
static void poll_one(fetch *f, peer *m, uint64_t now) {
    struct member *it = m->member;
    const uint64_t each = f->swarm.members * POLL_EACH_MS, pause = each > POLL_MS ? each : POLL_MS;
    if (it->leg.runs || !m->is_holder || is_gone(m)) return;
    if (it->heard_at + pause > now && it->poll_at < it->heard_at + pause)
        it->poll_at = it->heard_at + pause;
    f->wake = least(f->wake, it->poll_at > now ? it->poll_at : now + pause);
    if (it->poll_at > now) return;
    it->poll_at = now + pause;
    it->claim = (pieces){1, {{.len = BW_LENGTH_LEN, .bytes = it->bytes}}};
    it->leg.tell = was_polled;
    it->leg.with = m;
    leg_start(&it->leg, f->hub, &m->at, &it->claim);
}

void peers_turn(fetch *f, uint64_t now) {
    swarm *s = &f->swarm;
    bool has_news = now - s->counted_at >= POLL_MS;
    if (f->set->peers_file && now - s->read_at >= READ_MS) {
        s->read_at = now;
        peers_read(f, false);
    }
    if (!s->is_on || !f->is_settled || f->is_resuming || !f->chunks_open) return;
    for (peer *m = f->peers; m != f->lines; m = m->next) {
        if (!m->member) continue;
        poll_one(f, m, now);
        has_news |= m->member->has_news;
    }
    if (has_news && now - s->counted_at >= LOOK_AGAIN_MS / 2) count(f, now);
    if (f->out.served_as) announce(f);
}
