/* What others are served of the blob while it comes, and afterwards: GET and HEAD of /ROOT, the
 * plain file, and of /ROOT.bao, the combined encoding; all of it or one range, if each of its nodes
 * is on the shelf. It runs in threads of libmicrohttpd, which wait for readers and the disk alone.
 */
#include "shelf.h"

#include <netdb.h>
#include <signal.h>
#include <sys/random.h>
#include <time.h>

#ifndef BW_SERVES

int serve_start(const char *where, const uint8_t root[BW_HASH_LEN], uint64_t rate) {
    (void)where, (void)root, (void)rate;
    return usage("--serve isn't in this build, which was made without libmicrohttpd");
}

void serve_turn(uint64_t now) { (void)now; }

void serve_end(void) {}

#else

#include <microhttpd.h>

enum {
    MAP_BITS = 16384,
    BLOCK_LEN = 65536 + 4096, /* of a group with its parents */
    CONNECTIONS_MOST = 256,
    OF_ONE_MOST = 64,     /* from one address */
    REQUEST_MOST = 32768, /* bytes, with the headers of the answer */
    IDLE_MOST = 15,       /* seconds; and until the header of a request is there */
    GRACE_MS = 30000,     /* after which a reader takes a KiB a second at least */
    THREADS = 2
};

static struct MHD_Daemon *server;

/* --- What is at a byte of a file */

typedef struct reading {
    uint64_t at, opened, began, sent;
    bool is_combined;
} reading;

/* How many parents and chunks there are in the combined encoding before the node that has a byte,
 * and whether it is a chunk. */
typedef struct counts {
    uint64_t parents, chunks;
    uint32_t kind;
} counts;

static bool count_before(uint64_t at, counts *it) {
    bw_placed node;
    *it = (counts){.kind = BW_NODE_LENGTH};
    if (bw_node_at(shelf.total, 0, UINT64_MAX, at, &node)) return false;
    if (node.kind == BW_NODE_LENGTH) return true;
    const bool is_parent = node.kind == BW_NODE_PARENT;
    const uint64_t before = node.combined_at - BW_LENGTH_LEN;
    it->kind = node.kind;
    it->chunks = node.number;
    if (is_parent) it->parents = (node.outboard_at - BW_LENGTH_LEN) / BW_PARENT_LEN;
    else it->parents = (before - node.number * BW_CHUNK_LEN) / BW_PARENT_LEN;
    if (is_parent) it->chunks = (before - it->parents * BW_PARENT_LEN) / BW_CHUNK_LEN;
    return true;
}

/* Whether all of a range that isn't empty is there. Under the lock. */
static bool is_there(bool is_combined, uint64_t from, uint64_t end) {
    counts first, last;
    if (!is_combined)
        return are_marked(shelf.chunks, from / BW_CHUNK_LEN, (end - 1) / BW_CHUNK_LEN + 1);
    if (!count_before(from, &first) || !count_before(end - 1, &last)) return false;
    const uint64_t parents = last.parents + (last.kind == BW_NODE_PARENT);
    return are_marked(shelf.chunks, first.chunks, last.chunks + (last.kind == BW_NODE_CHUNK)) &&
           (parents == first.parents ||
            (shelf.parents >= 0 && are_marked(shelf.nodes, first.parents, parents)));
}

/* Reads bytes of the combined encoding: those of the next 64 chunks, and of the parents among them.
 * How many, or 0 after a fault. Under the lock. */
static size_t read_combined(uint64_t at, uint8_t *out, size_t most) {
    static _Thread_local uint8_t chunks[GROUP_LEN], parents[GROUP_NODES * BW_PARENT_LEN];
    static _Thread_local slice nodes;
    size_t used = 0;
    counts first;
    if (!count_before(at, &first)) return 0;
    const uint64_t start = first.chunks * BW_CHUNK_LEN, room = most;
    const size_t len = least(least(shelf.total - start, GROUP_LEN), room + BW_CHUNK_LEN);
    const uint64_t parents_at = BW_LENGTH_LEN + first.parents * BW_PARENT_LEN;
    if (at < BW_LENGTH_LEN) {
        claim_length(parents, shelf.total);
        used = least(BW_LENGTH_LEN - at, most);
        memcpy(out, parents + at, used);
        return used;
    }
    if (!slice_of(&nodes, shelf.total, start, len)) return 0;
    uint64_t parents_end = parents_at;
    for (const bw_placed *it = nodes.nodes; it < nodes.nodes + nodes.count; it++)
        if (it->kind == BW_NODE_PARENT && it->outboard_at >= parents_at)
            parents_end = it->outboard_at + BW_PARENT_LEN;
    const size_t parents_len = parents_end - parents_at;
    if (read_at(shelf.blob, start, chunks, len) < len ||
        (parents_len &&
         read_at(shelf.parents, shelf.base + parents_at, parents, parents_len) < parents_len))
        return 0;
    for (const bw_placed *it = nodes.nodes; it < nodes.nodes + nodes.count && used < most; it++) {
        const uint64_t next = at + used;
        if (it->combined_at + it->size <= next) continue; /* a parent before it */
        const uint8_t *from = it->kind == BW_NODE_CHUNK ? chunks + (it->start - start)
                                                        : parents + (it->outboard_at - parents_at);
        const size_t skip = next - it->combined_at, take = least(it->size - skip, most - used);
        memcpy(out + used, from + skip, take);
        used += take;
    }
    return used;
}

/* Waits until so many bytes more are within the rate of all readers together. */
static void hold_back(uint64_t bytes) {
    static pthread_mutex_t lock = PTHREAD_MUTEX_INITIALIZER;
    static uint64_t free_at; /* nanoseconds */
    enum { BURST = 20000000, SECOND = 1000000000 };
    struct timespec now;
    if (!shelf.rate) return;
    clock_gettime(CLOCK_MONOTONIC, &now);
    const uint64_t at = (uint64_t)now.tv_sec * SECOND + (uint64_t)now.tv_nsec;
    pthread_mutex_lock(&lock);
    if (free_at + BURST < at) free_at = at - BURST;
    free_at += bytes * SECOND / shelf.rate;
    const uint64_t wait = free_at > at ? free_at - at : 0;
    pthread_mutex_unlock(&lock);
    const struct timespec pause = {(time_t)(wait / SECOND), (long)(wait % SECOND)};
    if (wait) nanosleep(&pause, NULL);
}

/* The next bytes of an answer. A reader that takes too few in its time is cut off. */
static ssize_t next_bytes(void *with, uint64_t at, char *out, size_t most) {
    reading *it = with;
    size_t len = 0;
    const uint64_t took = now_ms() - it->began;
    if (took > GRACE_MS && it->sent / 1024 < (took - GRACE_MS) / 1000)
        return MHD_CONTENT_READER_END_WITH_ERROR;
    pthread_rwlock_rdlock(&shelf.lock);
    const uint64_t from = it->at + at;
    if (it->opened == shelf.opened) {
        len = it->is_combined ? read_combined(from, (uint8_t *)out, most)
                              : read_at(shelf.blob, from, out, least(most, shelf.total - from));
    }
    pthread_rwlock_unlock(&shelf.lock);
    if (!len) return MHD_CONTENT_READER_END_WITH_ERROR;
    hold_back(len);
    it->sent += len;
    return (ssize_t)len;
}

/* --- Clients that don't end a request's header, each byte of which the library takes for progress
 */

typedef struct client {
    int fd;         /* or 0 */
    uint64_t since; /* a header is waited for, or UINT64_MAX */
} client;

static client clients[CONNECTIONS_MOST];
static pthread_mutex_t of_clients = PTHREAD_MUTEX_INITIALIZER;

static void was_connected(void *unused, struct MHD_Connection *to, void **with,
                          enum MHD_ConnectionNotificationCode what) {
    client *it = *with ? *with : clients;
    (void)unused;
    pthread_mutex_lock(&of_clients);
    while (!*with && it->fd && it < clients + CONNECTIONS_MOST - 1) it++;
    *with = it;
    it->since = now_ms();
    it->fd = what == MHD_CONNECTION_NOTIFY_CLOSED
                 ? 0
                 : MHD_get_connection_info(to, MHD_CONNECTION_INFO_CONNECTION_FD)->connect_fd;
    pthread_mutex_unlock(&of_clients);
}

/* A header is waited for since that moment. */
static void wait_for_header(struct MHD_Connection *of, uint64_t since) {
    client *it = MHD_get_connection_info(of, MHD_CONNECTION_INFO_SOCKET_CONTEXT)->socket_context;
    pthread_mutex_lock(&of_clients);
    it->since = since;
    pthread_mutex_unlock(&of_clients);
}

static void was_answered(void *unused, struct MHD_Connection *to, void **with,
                         enum MHD_RequestTerminationCode how) {
    (void)unused, (void)with, (void)how;
    wait_for_header(to, now_ms());
}

/* Ends connections whose header isn't there in time. Called now and then. */
void serve_turn(uint64_t now) {
    pthread_mutex_lock(&of_clients);
    for (client *it = clients; it < clients + CONNECTIONS_MOST; it++)
        if (it->fd && now > it->since && now - it->since > IDLE_MOST * 1000)
            shutdown(it->fd, SHUT_RDWR);
    pthread_mutex_unlock(&of_clients);
}

/* --- Requests */

typedef enum asked { ALL, SOME, NONE } asked;

/* What is asked for of a file: of several ranges the first. What isn't understood is as if it
 * weren't there (RFC 9110, 14.2). */
static asked read_range(const char *text, uint64_t size, uint64_t *from, uint64_t *end) {
    char first[20] = "", last[20] = "";
    int read = 0;
    *from = 0;
    *end = size;
    if (!text || strncasecmp(text, "bytes=", 6)) return ALL;
    text += 6 + strspn(text + 6, " \t");
    if (sscanf(text, "%19[0-9]%n", first, &read) == 1) text += read;
    if (*text++ != '-') return ALL;
    read = 0;
    if (sscanf(text, "%19[0-9]%n", last, &read) == 1) text += read;
    text += strspn(text, " \t");
    if ((*text && *text != ',') || (!*first && !*last)) return ALL;
    const uint64_t a = strtoull(first, NULL, 10), b = strtoull(last, NULL, 10);
    if (*first && *last && b < a) return ALL;
    *from = *first ? a : size - least(size, b);
    if (*first && *last) *end = least(size, b + 1);
    return *from < *end ? SOME : NONE;
}

/* What is known of a file when it is asked for. */
typedef struct found {
    uint64_t size, from, end, opened;
    asked range;
    bool is_certified, is_there;
    char map[MAP_BITS / 4 + 32], coming[COMING_MOST * 21 + SELF_LEN + 1]; /* or nothing */
} found;

/* Which groups are there, four to a digit, each bit of so many groups; and what is on its way. */
static void write_headers(found *it) {
    const uint64_t groups = groups_of(shelf.total), each = (groups - 1) / MAP_BITS + 1;
    size_t used = (size_t)sprintf(it->map, "%" PRIu64 " ", each);
    for (uint64_t first = 0; first < groups; first += 4 * each) {
        unsigned digit = 0;
        for (uint64_t i = 0, at = first; i < 4 && at < groups; i++, at += each)
            digit |= are_marked(shelf.groups, at, least(groups, at + each)) ? 1u << i : 0;
        it->map[used++] = "0123456789abcdef"[digit];
    }
    it->map[shelf.parents < 0 ? 0 : used] = 0;
    used = (size_t)sprintf(it->coming, "%s", shelf.self);
    for (int i = 0; i < COMING_MOST; i++) {
        const uint64_t unit = atomic_load_explicit(&shelf.coming[i], memory_order_relaxed);
        if (unit) used += (size_t)sprintf(it->coming + used, " %" PRIu64, unit - 1);
    }
}

static void find(found *it, bool is_combined, const char *range) {
    *it->map = *it->coming = 0;
    pthread_rwlock_rdlock(&shelf.lock);
    it->is_certified = shelf.is_certified;
    if (it->is_certified) {
        it->size = is_combined ? bw_slice_len(shelf.total, 0, UINT64_MAX) : shelf.total;
        it->opened = shelf.opened;
        it->range = read_range(range, it->size, &it->from, &it->end);
        it->is_there = it->from >= it->end || is_there(is_combined, it->from, it->end);
        write_headers(it);
    }
    pthread_rwlock_unlock(&shelf.lock);
}

/* An answer with a header more; its body is empty where `of` is NULL. */
static enum MHD_Result reply(struct MHD_Connection *to, unsigned code, struct MHD_Response *of,
                             const found *with, const char *name, const char *value) {
    static char none[1];
    if (!of) of = MHD_create_response_from_buffer(0, none, MHD_RESPMEM_PERSISTENT);
    if (!of) return MHD_NO;
    if (name) MHD_add_response_header(of, name, value);
    if (with && *with->map) MHD_add_response_header(of, HAS_HEADER, with->map);
    if (with && *with->coming) MHD_add_response_header(of, COMING_HEADER, with->coming);
    const enum MHD_Result r = MHD_queue_response(to, code, of);
    MHD_destroy_response(of);
    return r;
}

static enum MHD_Result answer_file(struct MHD_Connection *to, bool is_combined) {
    static _Thread_local found it;
    const char *range = MHD_lookup_connection_value(to, MHD_HEADER_KIND, "Range");
    const char *only = MHD_lookup_connection_value(to, MHD_HEADER_KIND, "If-Range");
    char text[80], tag[2 * BW_HASH_LEN + 3];
    snprintf(tag, sizeof tag, "\"%s\"", shelf.root);
    find(&it, is_combined, only && strcmp(only, tag) ? NULL : range);
    snprintf(text, sizeof text, "bytes */%" PRIu64, it.size);
    if (!it.is_certified || !it.is_there)
        return reply(to, MHD_HTTP_SERVICE_UNAVAILABLE, NULL, &it, "Retry-After", "1");
    if (it.range == NONE)
        return reply(to, MHD_HTTP_RANGE_NOT_SATISFIABLE, NULL, &it, "Content-Range", text);
    reading *with = malloc(sizeof *with);
    if (!with) return MHD_NO;
    *with = (reading){it.from, it.opened, now_ms(), 0, is_combined};
    struct MHD_Response *of =
        MHD_create_response_from_callback(it.end - it.from, BLOCK_LEN, next_bytes, with, free);
    if (!of) {
        free(with);
        return MHD_NO;
    }
    MHD_add_response_header(of, "ETag", tag);
    MHD_add_response_header(of, "Accept-Ranges", "bytes");
    MHD_add_response_header(of, "Content-Type", "application/octet-stream");
    snprintf(text, sizeof text, "bytes %" PRIu64 "-%" PRIu64 "/%" PRIu64, it.from, it.end - 1,
             it.size);
    return it.range == SOME ? reply(to, MHD_HTTP_PARTIAL_CONTENT, of, &it, "Content-Range", text)
                            : reply(to, MHD_HTTP_OK, of, &it, NULL, NULL);
}

/* Answers once all of a request is there, which has no body. */
static enum MHD_Result take_request(void *unused, struct MHD_Connection *to, const char *url,
                                    const char *method, const char *version, const char *body,
                                    size_t *body_len, void **with) {
    static const char seen[1];
    const size_t len = strlen(shelf.root);
    const bool is_ours = *url == '/' && !strncmp(url + 1, shelf.root, len);
    const char *tail = is_ours ? url + 1 + len : "?";
    (void)unused, (void)version, (void)body;
    if (*body_len) return MHD_NO;
    if (strcmp(method, "GET") && strcmp(method, "HEAD"))
        return reply(to, MHD_HTTP_METHOD_NOT_ALLOWED, NULL, NULL, "Allow", "GET, HEAD");
    if (!*with) {
        *with = (void *)seen;
        wait_for_header(to, UINT64_MAX);
        return MHD_YES;
    }
    if (*tail && strcmp(tail, ".bao")) return reply(to, MHD_HTTP_NOT_FOUND, NULL, NULL, NULL, NULL);
    return answer_file(to, *tail);
}

/* --- The server */

/* A socket that listens at [ADDR:]PORT, or -1; *port is its port. */
static int listen_at(const char *where, char host[64], char port[8]) {
    const char *colon = strrchr(where, ':'), *digits = colon ? colon + 1 : where;
    struct addrinfo *at = NULL, as = {.ai_flags = AI_NUMERICHOST | AI_NUMERICSERV | AI_PASSIVE,
                                      .ai_socktype = SOCK_STREAM};
    struct sockaddr_storage is;
    socklen_t len = sizeof is;
    const bool has_brackets = colon && *where == '[' && colon[-1] == ']';
    const int host_len = (int)(colon ? colon - where : 0) - 2 * has_brackets, on = 1;
    snprintf(host, 64, "%.*s", host_len, where + has_brackets);
    if (!colon) strcpy(host, "127.0.0.1");
    if (!*host || !*digits || strlen(digits) > 5 || atoi(digits) > UINT16_MAX ||
        getaddrinfo(host, digits, &as, &at)) {
        errno = EINVAL;
        return -1;
    }
    int fd = socket(at->ai_family, SOCK_STREAM | SOCK_CLOEXEC | SOCK_NONBLOCK, 0);
    if (fd >= 0) setsockopt(fd, SOL_SOCKET, SO_REUSEADDR, &on, sizeof on);
    if (fd >= 0 &&
        (bind(fd, at->ai_addr, at->ai_addrlen) || listen(fd, CONNECTIONS_MOST) ||
         getsockname(fd, (struct sockaddr *)(void *)&is, &len) ||
         getnameinfo((struct sockaddr *)(void *)&is, len, NULL, 0, port, 8, NI_NUMERICSERV))) {
        const int fault = errno;
        close(fd);
        errno = fault;
        fd = -1;
    }
    freeaddrinfo(at);
    return fd;
}

/* Serves a root at [ADDR:]PORT, at most so many bytes a second, or as many as it can where that is
 * 0. 0, or a status: then some message was written. */
int serve_start(const char *where, const uint8_t root[BW_HASH_LEN], uint64_t rate) {
    char host[64], port[8];
    uint64_t self = 0;
    sigset_t all, before;
    if (getrandom(&self, sizeof self, GRND_NONBLOCK) < 0) self = now_ms();
    for (int i = 0; i < BW_HASH_LEN; i++) sprintf(shelf.root + 2 * i, "%02x", root[i]);
    snprintf(shelf.self, sizeof shelf.self, "%016" PRIx64, self);
    shelf.rate = rate;
    const int fd = listen_at(where, host, port);
    if (fd < 0) return file_fault(where);
    sigfillset(&all);
    pthread_sigmask(SIG_SETMASK, &all, &before);
    server = MHD_start_daemon(
        MHD_USE_INTERNAL_POLLING_THREAD | MHD_USE_EPOLL, 0, NULL, NULL, take_request, NULL,
        MHD_OPTION_LISTEN_SOCKET, fd, MHD_OPTION_THREAD_POOL_SIZE, (unsigned)THREADS,
        MHD_OPTION_CONNECTION_LIMIT, (unsigned)CONNECTIONS_MOST, MHD_OPTION_PER_IP_CONNECTION_LIMIT,
        (unsigned)OF_ONE_MOST, MHD_OPTION_CONNECTION_MEMORY_LIMIT, (size_t)REQUEST_MOST,
        MHD_OPTION_CONNECTION_TIMEOUT, (unsigned)IDLE_MOST, MHD_OPTION_NOTIFY_CONNECTION,
        was_connected, NULL, MHD_OPTION_NOTIFY_COMPLETED, was_answered, NULL, MHD_OPTION_END);
    pthread_sigmask(SIG_SETMASK, &before, NULL);
    if (!server) {
        close(fd);
        return no_memory();
    }
    say(0, strchr(host, ':') ? "serves http://[%s]:%s/%s.bao" : "serves http://%s:%s/%s.bao", host,
        port, shelf.root);
    return 0;
}

void serve_end(void) {
    if (server) MHD_stop_daemon(server);
    server = NULL;
}

#endif
