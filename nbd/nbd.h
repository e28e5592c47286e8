/* A blob that is read while it is fetched from mirrors that nobody trusts: the plugin without
 * nbdkit.
 *
 * A window is a unit of the blob, in which each group that is wanted has a store of its own
 * (bw_seat_new): a read at random makes one of 64 KiB, and not of 1 MiB. Who reads finds a byte
 * missing and claims its group, and perhaps the groups beside it, for a task; or another has the
 * claim. Either way it waits until some claim of the window has ended, and reads again. A task
 * carries out what a plan of its window says: who is asked, who is asked beside one that is slow,
 * who is false.
 *
 * Windows, their seats and the list of tasks are under one lock. One thread talks to the mirrors,
 * and threads of a pool verify and commit; see fetch/http.h. */
#ifndef BW_NBD_H
#define BW_NBD_H

#include "../fetch/tree.h"

enum {
    NAMES_MOST = 32,  /* mirrors, and outboard encodings */
    HOLDERS_MOST = 64 /* combined encodings, and pairs of a plain file and an outboard encoding */
};

typedef struct options {
    bw_mode mode;
    uint8_t root[BW_HASH_LEN];
    char *urls[NAMES_MOST], *outboards[NAMES_MOST];
    unsigned url_count, outboard_count, connections;
    uint64_t cache, readahead;
    settings how; /* its stall is the patience */
} options;

/* --- What the program has for this */

void core_say(const char *format, ...) __attribute__((format(printf, 1, 2)));
bool core_is_over(void); /* it ends, or who asked has gone */

/* --- store.c. A result that is an int is 0 or an errno: EIO where no mirror has the bytes. */

int core_start(const options *of); /* in the process that reads, which forks no more */
void core_stop(void);
int core_length(uint64_t *len); /* the certified one */
int core_read(uint64_t at, uint8_t *out, size_t len);
void core_ahead(uint64_t at, uint64_t len); /* these will be wanted */

/* A seat of each group's store of a window; empty where none was wanted yet. */
typedef struct seats {
    struct seats *next;
    bw_seat of[UNIT_GROUPS];
} seats;

typedef struct window {
    struct window *chained, *newer, *older; /* in its bucket; in the order of use */
    uint64_t number, ended;                 /* ended: how many times claims did */
    unsigned pins, stores;                  /* stores: how many it had when it was pinned last */
    pthread_mutex_t making;                 /* of `first`, of which all others are split off */
    seats first, *idle;
    pthread_cond_t changed;
    struct {
        unsigned times;
        int error;
    } failed[UNIT_GROUPS]; /* tasks that left some chunk of the group lacking */
} window;

extern const options *set;
extern pthread_mutex_t lock;
extern atomic_bool is_ending;

uint64_t blob_len(void);
unsigned window_chunks(uint64_t number);
void window_changed(window *w);
void window_leave(window *w, seats *it);
bw_seat *seat_at(window *w, seats *it, uint64_t group);
void length_found(uint64_t len, int error);

/* --- known.c: parents that are known to be true */

void learn(const slice *of);
bool recall(pieces *to, uint8_t texts[BW_DEPTH_MAX][BW_PARENT_LEN], kind of, uint64_t total,
            uint64_t start, uint64_t len);

/* --- gather.c: tasks, and who is asked. One thread talks to the mirrors; what isn't said to be
 * under the lock is its own. */

/* A file on a server, and what was learned of it. */
typedef struct server {
    source at;                 /* the first, so that a leg knows its server */
    uint64_t until, good, bad; /* asked after the others until then; groups */
    unsigned in_row;           /* failures */
    double pace;               /* milliseconds for a MiB, about */
} server;

/* What has slices: a combined encoding, or a plain file beside an outboard encoding. */
typedef struct holder {
    server *from, *by;
} holder;

typedef struct exchange exchange;

typedef struct task {
    struct task *next;
    window *w; /* NULL: it is about the length */
    seats *seats;
    uint64_t start, total;        /* the window's first byte; of the blob */
    uint64_t wanted[UNIT_GROUPS]; /* the chunks that it claims */
    bw_plan plan;                 /* of the window's chunks */
    bool is_verifying, is_at_end; /* is_at_end: nobody is left to be asked */
    int error;
    uint64_t seen;  /* the plan was asked after so many changes */
    uint64_t until; /* and is again at that moment, or after another change */
    exchange *exchanges;
    atomic_bool is_urgent; /* somebody waits for it; apart from what its thread reads in one word */
} task;

extern holder holders[HOLDERS_MOST];
extern size_t holder_count;
extern hub mirrors;
extern size_t task_count; /* under the lock */
extern atomic_uint_fast64_t changes;

int gather_start(void);
void gather_stop(void);
task *task_new(window *w, seats *of, const unsigned *needed, run groups, int *error);
task *task_of_length(void);
void task_post(task *t, bool is_urgent);
void task_urge(const window *w);
bool task_is_alone(const task *t);
void task_must(task *t, bw_status of);
uint64_t patience_ms(void);

/* --- exchange.c */

void exchange_new(task *t, size_t number, run chunks);
void exchange_free(exchange *e);
void exchange_overtaken(exchange *e);
void exchanges_move(task *t);
void exchanges_stop(void);

#endif
