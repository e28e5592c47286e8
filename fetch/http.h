/* Ranges of files, over HTTP or out of local ones: as many at once as are asked for, all in the
 * thread that decides. Functions are described where they are defined. */
#ifndef BW_FETCH_HTTP_H
#define BW_FETCH_HTTP_H

#define _GNU_SOURCE
#include <berylwool.h>
#include <curl/curl.h>
#include <errno.h>
#include <fcntl.h>
#include <inttypes.h>
#include <pthread.h>
#include <stdbool.h>
#include <stdio.h>
#include <stdlib.h>
#include <string.h>
#include <strings.h>
#include <sys/socket.h>
#include <unistd.h>

static inline uint64_t least(uint64_t a, uint64_t b) { return a < b ? a : b; }

/* --- pool.c: threads for what takes a processor or a disk */

typedef struct job {
    struct job *next;
    void (*run)(struct job *);  /* in a thread of the pool */
    void (*done)(struct job *); /* in the thread that decides */
    void *with;
} job;

typedef struct pool {
    pthread_mutex_t lock;
    pthread_cond_t wake, gone;
    job *first, **end, *done;
    unsigned threads, idle, most;
    bool quit;
    CURLM *wakes; /* what the thread that decides waits by */
} pool;

void pool_new(pool *it, unsigned most, CURLM *wakes);
void pool_post(pool *it, job *what);
void pool_collect(pool *it);
bool pool_end(pool *it);
uint64_t now_ms(void);

/* --- answer.c: an answer of HTTP, taken apart while it comes. Whatever a server says, bytes go
 * into the pieces that were asked for, and nowhere else. */

enum { PIECES_MOST = 64, LINE_MOST = 512, LOCATION_MOST = 4096 };

/* A range of a file that is asked for, and how many of its bytes came, from its first on. */
typedef struct piece {
    uint64_t at;
    size_t len, have;
    uint8_t *bytes;
} piece;

static inline bool piece_is_whole(const piece *it) { return it->have == it->len; }

typedef struct pieces {
    size_t count;
    piece list[PIECES_MOST];
} pieces;

typedef struct answer {
    piece *asked;
    size_t count;
    uint64_t came, most; /* body bytes: so far, and how many are taken at most */
    uint64_t at, left;   /* where the next byte is in the file; how many of its part follow */
    size_t header_bytes;
    enum { NOTHING_YET, ONE_BODY, PART_HEADERS, PART_BODY, WHOLE_FILE, REFUSED } state;
    long code;
    bool streams; /* the whole file is wanted, in its order */
    bool ranged, multipart, is_coded;
    size_t line_len;
    char line[LINE_MOST], location[LOCATION_MOST];
} answer;

void answer_begin(answer *it, piece *asked, size_t count, uint64_t lacking);
bool answer_header(answer *it, const char *line, size_t len);
bool answer_body(answer *it, const uint8_t *bytes, size_t len);
bool answer_stream(answer *it, const uint8_t *bytes, size_t len);
bool answer_moves(const answer *it);

/* --- url.c: what addresses name, what of them is printed, and where a redirect may lead */

bool url_is_local(const char *url);
bool url_is_combined(const char *url);
char *url_tailed(const char *url, const char *tail);
char *url_shown(const char *url);
char *url_next(const char *base, const char *location);
bool url_same_server(const char *one, const char *other);
bool address_is_private(const struct sockaddr *it);
bool text_is_private(const char *address);

/* --- http.c and file.c */

typedef enum kind { COMBINED, PLAIN, OUTBOARD } kind;

/* What the command line says of how to ask. */
typedef struct settings {
    double stall;
    uint64_t limit_rate;                /* bytes a second, or 0 */
    struct curl_slist *headers, *plain; /* for a mirror's own server; for one that it leads to */
    const char *agent, *authorities, *authorities_in, *certificate, *key, *proxy;
    long family;
    bool netrc, unchecked, allow_private;
} settings;

/* A file somewhere, and what was learned of who serves it. */
typedef struct source {
    char *url, *shown; /* or a local path; what of it may be printed */
    char *moved;       /* where it led: that is asked at once, until it fails */
    bool is_guarded;   /* no private address is asked there */
    kind kind;
    int fd;                    /* of a local file, or one that was copied whole; or -1 */
    uint64_t base;             /* where it begins there */
    bool is_local, hangs;      /* a read takes long */
    bool one_range, no_ranges; /* it serves one range at a time, or none */
    unsigned most, live;       /* connections: allowed, and in use */
    uint64_t bytes, wrong;     /* that came of it, and that were refused */
    long code;                 /* the last answer's status */
    bool is_far;               /* the last fault was the network's, or may pass */
    unsigned faults;
    void (*hear)(void *hearer, const char *line,
                 size_t len); /* each header of an answer; or NULL */
    void *hearer;
    char why[CURL_ERROR_SIZE];
} source;

typedef struct hub {
    const settings *set;
    CURLM *multi;
    pool computing, reading; /* a read may hang for ever, and keeps no processor from work */
    struct leg *legs;
    unsigned ghosts; /* requests that are left to end by themselves */
    uint64_t began, bytes;
} hub;

/* LEG_MORE: some bytes came, and it goes on. */
typedef enum leg_end { LEG_MORE, LEG_ALL, LEG_SHORT, LEG_LATER, LEG_NO_RANGES } leg_end;

/* The way of some pieces. Its owner keeps it and the pieces where they are while it `runs`, which
 * may be longer than until its end is told: a read of a file may hang. */
typedef struct leg {
    void (*tell)(struct leg *, leg_end);
    void *with;
    const char *copy_to; /* where a file that has no ranges may be copied to, or NULL */
    uint64_t copy_most;
    bool streams; /* the file comes whole: the pieces follow each other, by leg_go_on */
    CURL *easy;
    /* of its last start: */
    bool runs, is_cut, at_end; /* at_end: the file ended before the pieces did */
    source *of;
    uint64_t wait_ms; /* for so long the server asks to be left alone; of LEG_LATER it is set */
    /* the rest is its own */
    struct leg *next;
    hub *hub;
    pieces *wanted;
    answer answer;
    size_t first, count; /* the pieces of the request under way */
    bool several, is_guarded, is_local, is_paused, is_through, has_news;
    unsigned hops;
    int fd, error;
    char *url;
    uint64_t mark, since;
    job job;
    char range[PIECES_MOST * 42], why[CURL_ERROR_SIZE];
} leg;

bool hub_new(hub *it, const settings *set);
bool hub_free(hub *it);
void hub_wait(hub *it, uint64_t until);
void leg_start(leg *it, hub *on, source *of, pieces *wanted);
void leg_go_on(leg *it);
void leg_cut(leg *it);
void leg_free(leg *it);
void leg_read(leg *it);
void leg_unlink(leg *it);
void leg_end_with(leg *it, leg_end as);

uint64_t pieces_lacking(const piece *list, size_t count);
bool are_whole(const pieces *of);
size_t read_at(int fd, uint64_t at, void *bytes, size_t len);
size_t write_at(int fd, uint64_t at, const void *bytes, size_t len);
bool source_new(source *it, const char *url, kind as, unsigned most);
void source_free(source *it);
void source_note(source *it, bool is_far, const char *format, ...)
    __attribute__((format(printf, 3, 4)));

#endif
