#include "http.h"

#include <stddef.h>
#include <sys/statvfs.h>

#if LIBCURL_VERSION_NUM < 0x080600
#define CURLE_TOO_LARGE 100
#endif

/* NEAR: gaps of so many bytes are asked for as well, by one range */
enum { NEAR = 65536, BUFFER_LEN = 131072, HOPS_MOST = 5, RATE_LEAST = 1024, CREDIT_MS = 1000 };
enum { DAY = 86400, POLL_MS = 200, LIMITED_MS = 20, READERS_MOST = 64, COMPUTERS_MOST = 16 };

/* --- What libcurl calls; `with` is NULL once the request is left alone */

/* Whether a limit holds up what comes. What it would have allowed is lost after a second. */
static bool is_held_up(hub *it) {
    const uint64_t rate = it->set->limit_rate, now = now_ms();
    if (!rate) return false;
    const uint64_t used = it->bytes * 1000 / rate, took = now - it->began;
    if (took > used + CREDIT_MS) it->began = now - used - CREDIT_MS;
    return used > took;
}

static size_t on_header(char *line, size_t one, size_t len, void *with) {
    leg *it = with;
    (void)one;
    if (it && it->of->hear) it->of->hear(it->of->hearer, line, len);
    return it && answer_header(&it->answer, line, len) ? len : 0;
}

static bool has_room(int fd, uint64_t len) {
    struct statvfs disk;
    return !fstatvfs(fd, &disk) && (uint64_t)disk.f_bavail * disk.f_frsize >= len;
}

/* The bytes of a file that is copied whole: an outboard encoding, while there is room for its blob,
 * which is sixteen times as long. */
static bool copy_bytes(leg *it, const char *bytes, size_t len) {
    const uint64_t end = it->answer.came;
    if (!it->copy_to || it->several || end > it->copy_most) return false;
    if (it->fd < 0) it->fd = open(it->copy_to, O_TMPFILE | O_RDWR | O_CLOEXEC, 0600);
    return it->fd >= 0 && has_room(it->fd, 16 * it->copy_most) &&
           write_at(it->fd, end - len, bytes, len) == len;
}

/* What a file that streams has behind the pieces waits until these are others. */
static size_t on_body(char *at, size_t one, size_t len, void *with) {
    const uint8_t *bytes = (const uint8_t *)at;
    leg *it = with;
    (void)one;
    if (!it) return 0;
    answer *a = &it->answer;
    const bool streams = it->streams && a->code == 200 && !a->is_coded;
    it->is_paused = is_held_up(it->hub);
    if (it->is_paused) return CURL_WRITEFUNC_PAUSE;
    it->has_news = true;
    if (streams && !answer_stream(a, bytes, len)) return CURL_WRITEFUNC_PAUSE;
    it->of->bytes += len;
    it->hub->bytes += len;
    if (streams) return len;
    if (a->code >= 300) {
        a->came += len;
        return a->came <= a->most ? len : 0;
    }
    if (!answer_body(a, bytes, len)) return 0;
    return a->state != WHOLE_FILE || copy_bytes(it, at, len) ? len : 0;
}

/* From a public address no redirect leads to a private one. */
static curl_socket_t open_socket(void *with, curlsocktype purpose, struct curl_sockaddr *to) {
    const leg *it = with;
    (void)purpose;
    if (!it || (it->is_guarded && address_is_private(&to->addr))) return CURL_SOCKET_BAD;
    return socket(to->family, to->socktype | SOCK_CLOEXEC, to->protocol);
}

/* --- A request */

#define SET(option, value) (r = r ? r : curl_easy_setopt(it->easy, option, value))

/* What stays the same for all requests of a leg. */
static bool set_options(leg *it) {
    const settings *s = it->hub->set;
    CURLcode r = CURLE_OK;
    SET(CURLOPT_NOSIGNAL, 1L);
    SET(CURLOPT_BUFFERSIZE, (long)BUFFER_LEN);
    SET(CURLOPT_IPRESOLVE, s->family);
    SET(CURLOPT_USERAGENT, s->agent);
#if LIBCURL_VERSION_NUM >= 0x075500
    SET(CURLOPT_PROTOCOLS_STR, "http,https");
    if (r == CURLE_UNSUPPORTED_PROTOCOL)
        r = curl_easy_setopt(it->easy, CURLOPT_PROTOCOLS_STR, "http");
#else
    SET(CURLOPT_PROTOCOLS, (long)(CURLPROTO_HTTP | CURLPROTO_HTTPS));
#endif
    SET(CURLOPT_WRITEFUNCTION, on_body);
    SET(CURLOPT_WRITEDATA, it);
    SET(CURLOPT_HEADERFUNCTION, on_header);
    SET(CURLOPT_HEADERDATA, it);
    SET(CURLOPT_OPENSOCKETFUNCTION, open_socket);
    SET(CURLOPT_OPENSOCKETDATA, it);
    SET(CURLOPT_ERRORBUFFER, it->why);
    SET(CURLOPT_PRIVATE, it);
    if (s->proxy) SET(CURLOPT_PROXY, s->proxy);
    SET(CURLOPT_SSL_VERIFYPEER, (long)!s->unchecked);
    SET(CURLOPT_SSL_VERIFYHOST, s->unchecked ? 0L : 2L);
    if (!s->authorities && !s->authorities_in) return !r;
    SET(CURLOPT_CAINFO, s->authorities);
    /* not the folder that libcurl was built with; one that knows no folders needn't be told */
    const CURLcode of_folder = curl_easy_setopt(it->easy, CURLOPT_CAPATH, s->authorities_in);
    return !r && (!of_folder || !s->authorities_in);
}

/* How many are one range: each is near the one before, and the first and last lack something. */
static size_t near_ones(const piece *list, size_t count) {
    size_t n = 1;
    for (size_t i = 1; i < count; i++) {
        const uint64_t end = list[i - 1].at + list[i - 1].len;
        if (list[i].at < end || list[i].at - end > NEAR) break;
        if (!piece_is_whole(&list[i])) n = i + 1;
    }
    return n;
}

/* Picks the pieces of the next request, and writes its ranges. How many bytes are asked for. */
static uint64_t write_ranges(leg *it) {
    const piece *of = it->wanted->list;
    size_t some = 0;
    uint64_t sum = 0;
    char *text = it->range;
    it->count = it->wanted->count;
    if (it->streams) return pieces_lacking(of, it->count);
    while (piece_is_whole(&of[it->first])) it->first++;
    of += it->first;
    it->count -= it->first;
    for (size_t i = 0; i < it->count; i++) some += !piece_is_whole(&of[i]);
    it->several = some > 1 && !it->of->one_range && !it->of->no_ranges;
    if (!it->several) it->count = near_ones(of, it->count);
    for (const piece *p = of, *last; p < of + it->count; p = last + 1) {
        last = it->several ? p : &of[it->count - 1];
        if (piece_is_whole(p)) continue;
        const uint64_t from = p->at + p->have, end = last->at + last->len;
        text += sprintf(text, "%s%" PRIu64 "-%" PRIu64, sum ? "," : "", from, end - 1);
        sum += end - from;
    }
    return sum;
}

/* Where it is asked, or was. */
static const char *address_of(const leg *it) {
    return it->url ? it->url : it->of->moved ? it->of->moved : it->of->url;
}

static void request(leg *it) {
    source *of = it->of;
    const settings *s = it->hub->set;
    CURLcode r = CURLE_OK;
    const char *to = address_of(it);
    const bool is_own = to == of->url || url_same_server(to, of->url);
    if (to == of->moved) it->is_guarded = of->is_guarded;
    const uint64_t asked = write_ranges(it);
    answer_begin(&it->answer, it->wanted->list + it->first, it->count, asked);
    it->answer.streams = it->streams;
    it->why[0] = 0;
    it->mark = 0;
    it->since = now_ms();
    SET(CURLOPT_URL, to);
    SET(CURLOPT_RANGE, it->streams ? NULL : it->range);
    SET(CURLOPT_FRESH_CONNECT, (long)(it->is_guarded && it->url));
    SET(CURLOPT_HTTPHEADER, is_own ? s->headers : s->plain);
    SET(CURLOPT_SSLCERT, is_own ? s->certificate : NULL);
    SET(CURLOPT_SSLKEY, is_own ? s->key : NULL);
    if (s->netrc) SET(CURLOPT_NETRC, (long)(is_own ? CURL_NETRC_OPTIONAL : CURL_NETRC_IGNORED));
    if (!r && !curl_multi_add_handle(it->hub->multi, it->easy)) return;
    source_note(of, true, "%s", r ? curl_easy_strerror(r) : "libcurl refuses the request");
    it->error = ENOMEM; /* its end is told by hub_wait */
}

static bool may_try_one(const leg *it, CURLcode r) {
    const long c = it->answer.code;
    if (!it->several) return false;
    if (it->answer.state == WHOLE_FILE || (!r && it->answer.state == ONE_BODY)) return true;
    return c >= 400 && c != 401 && c != 404 && c != 407 && c != 410 && c != 429 &&
           !(c == 503 && it->wait_ms);
}

/* Goes where an answer leads. False: it doesn't. */
static bool follow(leg *it) {
    char *at = NULL;
    curl_easy_getinfo(it->easy, CURLINFO_PRIMARY_IP, &at);
    if (!answer_moves(&it->answer) || ++it->hops > HOPS_MOST) return false;
    char *to = url_next(address_of(it), it->answer.location);
    if (!to) return false;
    if (at && *at && !text_is_private(at) && !it->hub->set->allow_private) it->is_guarded = true;
    free(it->url);
    it->url = to;
    return true;
}

/* Why it ended short, in words, and whether that may pass. */
static void note_why(leg *it, CURLcode r) {
    source *of = it->of;
    const long c = of->code = it->answer.code;
    const bool is_ours = !r || r == CURLE_WRITE_ERROR;
    const bool stays = is_ours || r == CURLE_UNSUPPORTED_PROTOCOL || r == CURLE_URL_MALFORMAT ||
                       r == CURLE_OUT_OF_MEMORY || r == CURLE_WEIRD_SERVER_REPLY ||
                       r == CURLE_PEER_FAILED_VERIFICATION || r == CURLE_TOO_LARGE ||
                       r == CURLE_SSL_CACERT_BADFILE || r == CURLE_SSL_CERTPROBLEM;
    const bool is_far = c >= 500 || c == 429 || c == 408 || !stays;
    if (answer_moves(&it->answer))
        source_note(of, is_far, "it leads elsewhere, where no redirect is followed");
    else if (c >= 400) source_note(of, is_far, "HTTP status %ld", c);
    else if (it->is_guarded && r == CURLE_COULDNT_CONNECT)
        source_note(of, false, "it leads to a private address, or can't be reached");
    else if (!is_ours) source_note(of, is_far, "%s", it->why[0] ? it->why : curl_easy_strerror(r));
    else if (it->answer.state == WHOLE_FILE) source_note(of, is_far, "it serves no ranges");
    else source_note(of, is_far, "other bytes came than were asked for");
}

/* What came whole is a local file from now on. */
static bool has_copied(leg *it, CURLcode r) {
    const bool ok = it->fd >= 0 && !r && it->of->fd < 0;
    if (ok) it->of->fd = it->fd;
    else if (it->fd >= 0) close(it->fd);
    it->of->is_local |= ok;
    it->fd = -1;
    return ok;
}

/* Nothing of it can be asked for but all, and that once. */
static void has_no_ranges(source *it) {
    it->no_ranges = true;
    if (it->kind != OUTBOARD) it->most = 1;
}

/* All that a request was for came. */
static void go_on(leg *it, CURLcode r) {
    source *of = it->of;
    if (it->answer.code == 200 && r == CURLE_WRITE_ERROR && !it->several) has_no_ranges(of);
    if (it->url) {
        free(of->moved);
        of->moved = it->url;
        of->is_guarded = it->is_guarded;
        it->url = NULL;
    }
    of->code = it->answer.code;
    it->hops = 0;
    if (it->streams) it->is_through = true;
    else if (are_whole(it->wanted)) leg_end_with(it, LEG_ALL);
    else request(it);
}

static void finish(leg *it, CURLcode r) {
    source *of = it->of;
    const bool is_whole_file = it->answer.state == WHOLE_FILE;
    curl_off_t seconds = 0;
    curl_multi_remove_handle(it->hub->multi, it->easy);
    if (follow(it)) return request(it);
    curl_easy_getinfo(it->easy, CURLINFO_RETRY_AFTER, &seconds);
    it->wait_ms = seconds < 0 ? 0 : 1000 * least((uint64_t)seconds, DAY);
    it->at_end = !r && it->answer.state == ONE_BODY;
    const bool copied = has_copied(it, r);
    if (!pieces_lacking(it->wanted->list + it->first, it->count)) return go_on(it, r);
    if (copied) return leg_read(it);
    if (may_try_one(it, r)) {
        of->one_range = true;
        return request(it);
    }
    note_why(it, r);
    free(of->moved);
    of->moved = NULL;
    if (is_whole_file) has_no_ranges(of);
    const bool is_later = (of->code == 429 || of->code == 503) && it->wait_ms;
    const leg_end as = is_whole_file && !it->copy_to ? LEG_NO_RANGES : LEG_SHORT;
    leg_end_with(it, is_later ? LEG_LATER : as);
}

/* --- Legs */

/* Begins. Its end is told later, and exactly once. */
void leg_start(leg *it, hub *on, source *of, pieces *wanted) {
    free(it->url); /* where the one before led */
    memset(&it->runs, 0, sizeof *it - offsetof(leg, runs));
    it->hub = on;
    it->of = of;
    it->wanted = wanted;
    it->fd = -1;
    it->since = now_ms();
    it->runs = true;
    it->next = on->legs;
    on->legs = it;
    of->live++;
    if (of->is_local) return leg_read(it);
    if (!it->easy && (it->easy = curl_easy_init()) && !set_options(it)) {
        curl_easy_cleanup(it->easy);
        it->easy = NULL;
    }
    if (it->easy) return request(it);
    source_note(of, true, "libcurl refuses an option, or memory");
    it->error = ENOMEM;
}

/* Of a file that streams: all pieces came, and were laid out anew, where it goes on. */
void leg_go_on(leg *it) {
    it->answer.asked = it->wanted->list;
    it->answer.count = it->count = it->wanted->count;
    it->since = now_ms();
    if (!it->is_through) {
        curl_easy_pause(it->easy, CURLPAUSE_CONT);
        return;
    }
    source_note(it->of, true, "it ends before");
    it->error = EPIPE;
}

/* To end a request before its name is known would wait for the name server: it ends by itself. */
static void stop(leg *it) {
    CURLcode r = CURLE_OK;
    double looked = 0;
    curl_easy_getinfo(it->easy, CURLINFO_NAMELOOKUP_TIME, &looked);
    if (looked > 0 || it->answer.header_bytes) {
        curl_multi_remove_handle(it->hub->multi, it->easy);
        has_copied(it, CURLE_ABORTED_BY_CALLBACK);
        return;
    }
    SET(CURLOPT_OPENSOCKETDATA, NULL);
    SET(CURLOPT_ERRORBUFFER, NULL);
    SET(CURLOPT_PRIVATE, NULL);
    SET(CURLOPT_WRITEDATA, NULL);
    SET(CURLOPT_HEADERDATA, NULL);
    it->hub->ghosts++;
    it->easy = NULL;
}

/* Nothing more is wanted, and no end is told. */
void leg_cut(leg *it) {
    if (!it->runs || it->is_cut) return;
    it->is_cut = true;
    it->of->live--;
    if (it->is_local) return; /* a read that hangs uses its pieces until it ends */
    if (it->easy && !it->error && !it->is_through) stop(it);
    leg_unlink(it);
}

void leg_free(leg *it) {
    curl_easy_cleanup(it->easy);
    free(it->url);
}

/* --- All of them */

bool hub_new(hub *it, const settings *set) {
    *it = (hub){.set = set, .began = now_ms()};
    if (curl_global_init(CURL_GLOBAL_DEFAULT) || !(it->multi = curl_multi_init())) return false;
    const long cores = sysconf(_SC_NPROCESSORS_ONLN);
    pool_new(&it->computing, cores < 1 ? 1 : (unsigned)least((uint64_t)cores, COMPUTERS_MOST),
             it->multi);
    pool_new(&it->reading, READERS_MOST, it->multi);
    return true;
}

/* Whether all is freed; else a thread or name server hangs, and the process has to end as it is. */
bool hub_free(hub *it) {
    if (!pool_end(&it->reading) || !pool_end(&it->computing) || it->ghosts) return false;
    curl_multi_cleanup(it->multi);
    curl_global_cleanup();
    return true;
}

/* Whether it gave less than the least rate for a stall's time. */
static bool stalls(leg *it, uint64_t now) {
    const settings *s = it->hub->set;
    const uint64_t came = it->answer.came, took = now - it->since;
    const bool is_quick = (double)(came - it->mark) >= s->stall * RATE_LEAST;
    if (it->streams && are_whole(it->wanted)) it->since = now;
    else if (it->is_local) it->of->hangs |= (double)took > s->stall * 500;
    else if (is_quick) {
        it->mark = came;
        it->since = now;
    }
    return (double)(now - it->since) > s->stall * 1000;
}

/* What a leg waits to be told. Whether it has ended by that. */
static bool look_at(leg *it, uint64_t now) {
    if (it->is_cut) return false;
    if (it->is_paused) it->since = now; /* a limit holds it up */
    if (it->is_paused && !is_held_up(it->hub)) {
        it->is_paused = false;
        curl_easy_pause(it->easy, CURLPAUSE_CONT);
    }
    if (it->has_news) {
        it->has_news = false;
        it->tell(it, LEG_MORE);
    }
    const bool failed =
        !it->is_local && it->error; /* a read under way writes that of a local file */
    if (it->is_cut || (!failed && !stalls(it, now))) return it->is_cut && !it->is_local;
    if (!failed)
        source_note(it->of, true, "less than 1 KiB a second for %g seconds", it->hub->set->stall);
    leg_cut(it);
    it->tell(it, LEG_SHORT);
    return true;
}

static void take_messages(hub *it) {
    int left;
    for (CURLMsg *m; (m = curl_multi_info_read(it->multi, &left));) {
        CURL *easy = m->easy_handle;
        const CURLcode r = m->data.result;
        leg *of = NULL;
        curl_easy_getinfo(easy, CURLINFO_PRIVATE, (char **)(void *)&of);
        if (of) {
            finish(of, r);
            continue;
        }
        curl_multi_remove_handle(it->multi, easy);
        curl_easy_cleanup(easy);
        it->ghosts--;
    }
}

/* Moves all on, and waits until something happens, at most up to a moment. */
void hub_wait(hub *it, uint64_t until) {
    const uint64_t now = now_ms(), most = it->set->limit_rate ? LIMITED_MS : POLL_MS;
    const uint64_t left = until > now ? until - now : 0;
    int runs = 0;
    curl_multi_poll(it->multi, NULL, 0, (int)least(left, most), NULL);
    curl_multi_perform(it->multi, &runs);
    take_messages(it);
    const uint64_t then = now_ms();
    for (leg *at = it->legs; at;) at = look_at(at, then) ? it->legs : at->next;
    pool_collect(&it->computing);
    pool_collect(&it->reading);
}
