/* One fetch of one blob. Who is asked for what, who is to blame and who is left out are the answers
 * of three plans (berylwool.h): of the length, whose one chunk is what certifies it; of the blob's
 * chunks, whose holders are mirrors; and of the parents above them, whose holders are outboard
 * encodings. What is done here is to carry that out, and to report what came.
 *
 * All is done in one thread, but for the jobs of a pool, which work on what an exchange has while
 * nothing else touches it. The blob is asked for in units of 1 MiB, and verified in groups of
 * 64 KiB, as slices put together of parents that are known to be true and of what came. The first
 * fault in such a slice tells whose it is. */
#ifndef BW_FETCH_FETCH_H
#define BW_FETCH_FETCH_H

#include "tree.h"
#include "words.h"

#include <sys/stat.h>

enum {
    MIRRORS_MOST = 1000,
    WINDOW_UNITS = 16,  /* of a pipe */
    IN_MOST = 16,       /* mirrors, and outboard encodings, that are asked at a time */
    PEERS_EACH = 4,     /* so many peers are in as one other mirror */
    OVERTAKE_MS = 1000, /* what doesn't come so long is asked of another */
    SETTLING = 12,      /* stall times that a server is left alone at most */
    HEAD_LEN = 12288,   /* of a file, asked for at first: what a server may send over a new
                         * connection before it hears anything (RFC 6928) */
    DRAIN_LEN = 262144, /* what is read back at once: in a near cache still when it is hashed */
    BYTES_MOST =
        UNIT_LEN + UNIT_PARENTS * BW_PARENT_LEN + BW_CHUNK_LEN + BW_DEPTH_MAX * BW_PARENT_LEN
};

/* Ranks of mirrors that are asked last, and of plain files without an outboard encoding. */
enum { LAST = 2, USELESS = 3 };

enum { DONE, LACKING, USAGE, FILE_FAULT, NO_MEMORY, OTHER_ROOT, UNREACHED, INTERRUPTED, GOES_ON };

/* --- options.c: what the command line says */

typedef struct mirror {
    const char *url;
    kind as;
} mirror;

typedef struct options {
    settings set;
    bw_mode mode;
    uint64_t connections, retries, most; /* a longer claim than `most` is refused */
    double patience, max_time;           /* seconds; a max_time of 0 is none */
    double serve_for;                    /* seconds after the end; less than 0: not given */
    uint64_t serve_rate;
    double origin_last; /* how long peers are waited for, in seconds */
    const char **peers;
    size_t peer_count;
    bool verbose, quiet, json, check;
    int progress; /* a descriptor, or -1 */
    const char *key_file, *context, *mirrors_file, *manifest, *serve, *peers_file;
    mirror *named; /* of --bao, --plain and --outboard */
    size_t named_count, outboards;
} options;

extern options given;

int read_options(int argc, char **argv);

/* --- serve.c: what others are served. One blob is, of one fetch. */

enum { COMING_MOST = 16 };

#define HAS_HEADER "Berylwool-Has"
#define COMING_HEADER "Berylwool-Coming"

bool shelf_open(int blob, int parents, uint64_t base, uint64_t total);
void shelf_certify(void);
void shelf_mark(uint64_t group, uint64_t mask);
void shelf_mark_parent(uint64_t outboard_at);
void shelf_mark_all(void);
void shelf_move_parents(int file);
bool shelf_has_parents(void);
void shelf_announce(const uint64_t units[COMING_MOST]);
const char *shelf_self(void);
int serve_start(const char *where, const uint8_t root[BW_HASH_LEN], uint64_t rate);
void serve_turn(uint64_t now);
void serve_end(void);
void shelf_close(void);

/* --- out.c: OUT while it comes together: OUT.part.fetch beside it, which is renamed at the end, or
 * for a pipe a window of the blob in memory. The file has the blob, with holes; after it the
 * outboard encoding, with holes, of parents that were verified; and last its length and its root.
 * After any end the next run verifies what is there, and goes on in place. */

typedef struct output {
    const char *path;    /* what is replaced */
    char *target;        /* that, if OUT is a link to it */
    char *part, *folder; /* OUT.part.fetch, and where it lies */
    bool is_there, is_pipe;
    mode_t mode;
    struct stat was; /* OUT, if it is there */
    uint8_t root[BW_HASH_LEN];
    int fd;
    atomic_bool is_full, is_over; /* there is no room for parents; a pipe is written to no more */
    const bw_mode *served_as;     /* the shelf has it; or NULL */
    uint64_t total;
    uint8_t *window;
    uint64_t window_len;
} output;

int out_new(output *it, const char *path, const uint8_t root[BW_HASH_LEN]);
void out_free(output *it);
int out_compare(const output *it, bw_hasher *hasher, uint8_t bytes[DRAIN_LEN], uint64_t *len);
bool out_has_root(const output *it, bw_hasher *hasher);
int out_resume(output *it);
int out_open(output *it, uint64_t total);
int out_certify(output *it);
uint64_t out_data(const output *it, uint64_t from);
bool out_put(output *it, uint64_t from, const struct iovec *of, int count);
bool out_get(const output *it, uint64_t from, uint8_t *bytes, size_t len);
void out_write_back(const output *it, uint64_t from, uint64_t len);
bool out_pass(output *it, const uint8_t *bytes, size_t len);
bool out_finish(output *it);
void out_learn(const output *it, known *above, const slice *of);

/* --- A fetch */

/* Chunks that a plan has a holder asked for, until it is told how that ended. */
typedef struct booking {
    bw_plan *plan;
    source *of;
    size_t holder;
    bool is_open;
    run chunks;
} booking;

/* A mirror, or an outboard encoding. */
typedef struct peer {
    struct peer *next, *line; /* line: whose parents are asked for first, beside a plain file */
    source at;
    bool is_in, is_holder; /* it is asked; a plan has it as `holder` */
    size_t holder;
    uint32_t rank;
    unsigned busy;        /* exchanges with it */
    uint64_t later, wait; /* it isn't asked before; and, by a plan, not before something changes */
    uint64_t asked, seen; /* when that was said, and how many changes there were */
    bool is_tried;        /* its file was streamed for a length of `tried` */
    uint64_t tried, claimed; /* claimed: the length that it, or an outboard encoding, claims */
    uint64_t good, bad;      /* groups that were taken, and refused */
    unsigned lost;           /* requests that others overtook */
    struct peer *beside;     /* of an outboard encoding: the next mirror to be asked beside it */
    struct member *member;   /* it is a peer; or NULL */
    struct fetch *of;        /* whose it is */
    uint8_t *vain;           /* for each unit whether nothing of it is to be had there; or NULL */
    uint8_t *spine, *head; /* the parents above its last chunk, then what it begins with, or NULL */
    size_t head_len;
} peer;

/* Who may certify the length: a combined encoding; or a plain file beside an outboard encoding,
 * which is asked at first for the parents above the last chunk. */
typedef struct opener {
    struct opener *next;
    peer *from, *by;
    booking booked;
    struct exchange *asked; /* while that is open */
} opener;

typedef struct fetch fetch;

typedef struct exchange {
    struct exchange *next;
    fetch *fetch;
    enum { HEAD, SPINE, PROOF, PARENTS, UNIT } step;
    opener *opener;          /* before the length is certified */
    peer *from, *by, *asked; /* a mirror, an outboard encoding, and which was asked last */
    bool is_over, has_ended; /* the plans were told its end; its last bytes came */
    leg_end end;
    uint64_t began, heard; /* when it began, and when something came last */
    uint64_t later_ms, claimed, unit;
    bool streams;     /* the mirror's file comes whole, by `flow`: unit after unit, */
    leg_end flow_end; /* or it came until here */
    uint64_t next_unit, wait_until;
    /* until that moment, or until a window moves: */
    enum { FOR_NOTHING, FOR_WINDOW, FOR_UNIT, FOR_PARENTS } waits;
    bool opens_unit;        /* the unit is asked for together with what certifies the length */
    size_t certifying;      /* so many of the first pieces do that */
    booking of_from, of_by; /* what is asked of these */
    uint64_t line_since;    /* when the outboard encoding was asked */
    run chunks, proving;    /* what it is about, and that of it whose parents are asked for */
    pieces parts, parents, passed; /* passed: parents as a stream had them, which has them once */
    uint8_t passed_text[BW_DEPTH_MAX][BW_PARENT_LEN];
    size_t head_len, try_at, bytes_len;
    leg leg, flow;
    /* of the job under way: */
    bool is_busy, is_whole, is_certified, is_refuted, failed_to_write, is_parent_false;
    pieces seen;
    unsigned next_group, orphaned, taken;
    uint64_t kept[UNIT_GROUPS], refused[UNIT_GROUPS], orphans[UNIT_GROUPS];
    uint64_t refuted[UNIT_GROUPS]; /* what was refused of the unit until now */
    uint64_t wrong, wrong_of_line, wrong_parent;
    uint8_t chunk[BW_CHUNK_LEN];
    size_t chunk_len;
    job job;
    /* what the file begins with; a pipe's bytes that were verified: */
    uint8_t *head, *image;
    uint8_t bytes[]; /* what comes, and room for these */
} exchange;

/* What is known of all peers together. */
typedef struct swarm {
    bool is_on;
    size_t members, relied_on;
    struct unit *units;
    uint64_t *left, left_count; /* units of which something is lacking */
    uint64_t counted_at, read_at;
    struct stat file; /* of the list of peers, when it was read */
} swarm;

struct fetch {
    hub *hub;
    const options *set;
    char *name; /* OUT, as it was given */
    output out;
    peer *peers, *lines; /* local mirrors, others, and outboard encodings; the first of these */
    peer *next_in;       /* the first mirror that isn't in yet, */
    peer *unopened;      /* and the first that has no opener of its own */
    size_t foreign;      /* undecided openers of plain files beside others' outboard encodings */
    peer own, own_line;  /* OUT.part.fetch, of an earlier run, and its parents */
    size_t mirror_count;
    bool has_own_lines, lacks_lines; /* each plain file has its own outboard encoding; none is in */
    opener *openers;
    bw_plan length, chunks, parents;
    peer *believed; /* where nobody certifies the length: it claims it, and knows no ranges */
    exchange *exchanges;
    unsigned live;
    int status, hindrance;        /* hindrance: its status where nobody has what is lacking */
    bool asks_nobody;             /* only what is there counts */
    bool is_one_of_many, is_told; /* of a manifest; how it ended was printed, */
    uint64_t ended, shown_at;     /* when it ended, and when its progress was printed last */
    bool has_begun, is_settled, is_resuming;
    bool waits; /* for a moment that a plan named */
    uint64_t total, unit_count, chunks_open, most_had, resumed, claimed_above;
    uint64_t began, wake; /* wake: when it has to be looked at again */
    uint64_t moved_at;    /* when a chunk came last */
    unsigned rounds;      /* of forgiving, without one */
    uint64_t drained;     /* units that were hashed */
    uint64_t changes;     /* ends of exchanges, and what else a plan may answer anew for */
    bw_hasher hasher;
    bool is_draining;
    int drain_status;
    job drain;
    uint8_t *drain_bytes;
    swarm swarm;
    known *known; /* of each unit but the first the parent whose right child begins there */
};

/* What is told of chunks of a group, to a plan. */
typedef bw_status report(bw_plan *, size_t, uint64_t, uint64_t);

int fetch_new(fetch **it, hub *on, const options *set, const char *root, const char *name);
peer *fetch_add(fetch *f, const char *url, kind as, struct member *with);
void fetch_free(fetch *f);
bool fetch_turn(fetch *f, uint64_t now);
void fetch_stop(fetch *f, int status);
void fetch_must(fetch *f, bw_status of);
booking booking_of(fetch *f, peer *it);
uint64_t fetch_book(fetch *f, booking *it, uint64_t now);
void fetch_close(fetch *f, booking *it, uint32_t how, uint64_t later_ms);
run all_from(const fetch *f, uint64_t unit);
void fetch_report(fetch *f, const booking *of, report *as, run it, const uint64_t *but);
bool fetch_is_quiet(fetch *f);
void fetch_wait(fetch *f, uint64_t until);
void fetch_keep(fetch *f, size_t holder, uint64_t group, uint64_t mask, const uint8_t *bytes);
void fetch_settle(fetch *f, uint64_t total);
bool fetch_lacks(fetch *f, run of, const uint64_t *but);
bool fetch_has_unit(fetch *f, uint64_t unit);
void fetch_say(const fetch *f, const peer *of, const char *what);
bool fetch_admit(fetch *f);
bool fetch_has_left_out(fetch *f, const peer *it);
bool is_doubtful(const peer *it);
bool has_failed(const peer *it);
uint32_t rank_of(const fetch *f, const peer *it);

/* --- exchange.c */

exchange *exchange_new(fetch *f, peer *from, booking *of);
void exchange_get(exchange *e, peer *of, pieces *wanted);
size_t pieces_lay_out(pieces *of, uint8_t *at, const uint8_t *head, size_t head_len);
void exchange_cut(exchange *e);
void exchange_end_by(exchange *e);
void exchange_end(exchange *e, uint32_t outcome, uint64_t later_ms);
void exchange_leave(exchange *e);
bool exchange_lags(const exchange *e, uint64_t now);
exchange *exchange_slowest(const fetch *f, uint64_t now);
void exchange_ask_all(fetch *f, uint64_t now);
void exchange_unit(exchange *e, run of);
void exchange_sweep(fetch *f);
bool exchange_all_wait(const fetch *f);
void exchange_move(exchange *e);

/* --- open.c */

void open_all(fetch *f, uint64_t now);
bool open_believe(fetch *f, uint64_t now);
void open_move(exchange *e);

/* --- peers.c */

int peers_add(fetch *f, const char *url, bool is_of_file);
int peers_read(fetch *f, bool must);
bool peers_begin(fetch *f);
bool peers_choose(const fetch *f, const peer *it);
uint64_t peers_book(fetch *f, peer *m, booking *of, uint64_t now);
void peers_close(fetch *f, peer *m, const booking *of, bool failed);
void peers_lack(fetch *f, peer *m, run of);
void peers_turn(fetch *f, uint64_t now);
void peers_stop(fetch *f);
void peers_forget(peer *it);
void peers_free(peer *it);

/* --- verify.c */

void verify(exchange *e);

/* --- report.c */

int say(int status, const char *format, ...) __attribute__((format(printf, 2, 3)));
int no_memory(void);
void report_end(fetch *f);
void report_progress(fetch *f, bool is_last);

#endif
