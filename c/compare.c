/* Times of the C library on the bytes of a file, in one process: scripts/bench.py reads its lines.
 *
 *     compare FILE
 *
 * Each time is the least of several. It fails where a call fails, or where other bytes are read
 * than were stored. */
#define _POSIX_C_SOURCE 199309L
#include "tests.h"

#include <pthread.h>
#include <stdatomic.h>
#include <stdio.h>
#include <stdlib.h>
#include <time.h>

enum {
    ROUNDS = 5,
    READS = 4,
    CALLS = 100000,
    GROUP_LEN = BW_GROUP_CHUNKS * BW_CHUNK_LEN,
    MOST_THREADS = 4,
    KIB = 1 << 10,
    MIB = 1 << 20
};

/* The most bytes that a store has room for. */
static const size_t most = (size_t)64 << 20;

/* The text of a group's slice: the length, 64 chunks, and the parents below them and on the way. */
static const size_t slice_room = 8 + 2 * GROUP_LEN;

static const bw_mode plain = {0, {0}};
static volatile bw_status kept;

#define MUST(test)                                                                                 \
    do {                                                                                           \
        if (!(test)) {                                                                             \
            fprintf(stderr, "compare.c:%d: this is not so: %s\n", __LINE__, #test);                \
            exit(1);                                                                               \
        }                                                                                          \
    } while (0)

static void *room(size_t len) {
    void *at = malloc(len ? len : 1);
    MUST(at != NULL);
    /* Written once, so that no time has a wait for the system's memory in it. */
    memset(at, 1, len);
    return at;
}

static double now(void) {
    struct timespec t;
    clock_gettime(CLOCK_MONOTONIC, &t);
    return (double)t.tv_sec + 1e-9 * (double)t.tv_nsec;
}

static void note(double *least, double from) {
    double took = now() - from;
    if (took < *least) *least = took;
}

static void print(const char *name, double seconds) {
    printf("%s: %.3f ms\n", name, seconds * 1e3);
}

/* The least time of a call that can be made again and again, or, in ns, of one that has next to
 * nothing to do. */
#define TIME(name, call)                                                                           \
    do {                                                                                           \
        double least_ = 1e9;                                                                       \
        for (int k_ = 0; k_ < ROUNDS; k_++) {                                                      \
            double from_ = now();                                                                  \
            MUST((call) == BW_OK);                                                                 \
            note(&least_, from_);                                                                  \
        }                                                                                          \
        print(name, least_);                                                                       \
    } while (0)

#define TIME_CALLS(name, times, call)                                                              \
    do {                                                                                           \
        double least_ = 1e9;                                                                       \
        for (int k_ = 0; k_ < ROUNDS; k_++) {                                                      \
            double from_ = now();                                                                  \
            for (int i_ = 0; i_ < (times); i_++) kept = (bw_status)(call);                         \
            note(&least_, from_);                                                                  \
        }                                                                                          \
        printf("%s: %.2f ns\n", name, least_ / (times)*1e9);                                       \
    } while (0)

/* One thread's part of the blob, from byte `at` on: its seat, its groups' slices, one every
 * `slice_room` bytes, with their lengths, and what it read. */
typedef struct share {
    bw_seat seat;
    uint64_t at;
    size_t len;
    const uint8_t *slices;
    const size_t *slice_lens;
    uint8_t *read;
} share;

static size_t groups_of(size_t len) { return (len + GROUP_LEN - 1) / GROUP_LEN; }

static void *commit_share(void *arg) {
    share *it = arg;
    uint64_t committed = 0, at = 0;
    for (size_t k = 0; k < groups_of(it->len); k++) {
        uint64_t start = it->at + k * GROUP_LEN;
        MUST(bw_seat_commit_chunks(&it->seat, start, GROUP_LEN, it->slices + k * slice_room,
                                   it->slice_lens[k], &committed, &at) == BW_OK);
    }
    return NULL;
}

static void *read_share(void *arg) {
    share *it = arg;
    uint64_t missing = 0;
    for (int k = 0; k < READS; k++)
        MUST(bw_seat_read(&it->seat, it->at, it->read, it->len, &missing) == BW_OK);
    return NULL;
}

/* Lets each share be worked on by a thread of its own, and answers how long that takes with their
 * starts and ends. */
static double timed(void *(*work)(void *), share *shares, int count) {
    pthread_t threads[MOST_THREADS];
    double from = now();
    for (int k = 0; k < count; k++) MUST(pthread_create(&threads[k], NULL, work, &shares[k]) == 0);
    for (int k = 0; k < count; k++) MUST(pthread_join(threads[k], NULL) == 0);
    return now() - from;
}

typedef struct blob {
    const uint8_t *bytes;
    size_t len;
    uint8_t root[BW_HASH_LEN];
    uint8_t *slices;
    size_t *slice_lens;
    uint8_t *read;
} blob;

/* The blob is committed to a new store and read out of it, by so many threads with a seat each. */
static void share_times(const blob *it, int count, double *committed, double *read) {
    share shares[MOST_THREADS];
    bw_seat first = BW_EMPTY;
    size_t part = (groups_of(it->len) + (size_t)count - 1) / (size_t)count * GROUP_LEN;
    MUST(bw_seat_new(&plain, it->root, 0, 65536, &first) == BW_OK);
    for (int k = 0; k < count; k++) {
        size_t at = (size_t)k * part < it->len ? (size_t)k * part : it->len,
               len = part < it->len - at ? part : it->len - at;
        shares[k] = (share){BW_EMPTY,
                            at,
                            len,
                            it->slices + at / GROUP_LEN * slice_room,
                            it->slice_lens + at / GROUP_LEN,
                            it->read + at};
        MUST(bw_seat_split(&first, &shares[k].seat) == BW_OK);
    }
    double took = timed(commit_share, shares, count);
    if (took < *committed) *committed = took;
    memset(it->read, 0, it->len);
    took = timed(read_share, shares, count) / READS;
    if (took < *read) *read = took;
    MUST(memcmp(it->read, it->bytes, it->len) == 0);
    for (int k = 0; k < count; k++) MUST(bw_seat_join(&first, &shares[k].seat) == BW_OK);
    bw_free(&first);
}

static void shared(const uint8_t *bytes, size_t len) {
    blob it = {bytes,
               len,
               {0},
               room(groups_of(len) * slice_room),
               room(groups_of(len) * sizeof(size_t)),
               room(len)};
    size_t text_len = (size_t)bw_slice_len(len, 0, UINT64_MAX), used = 0;
    uint8_t *text = room(text_len);
    MUST(bw_encode(&plain, bytes, len, text, text_len, &used, it.root) == BW_OK);
    for (size_t k = 0; k < groups_of(len); k++)
        MUST(bw_cut_slice(text, text_len, k * GROUP_LEN, GROUP_LEN, it.slices + k * slice_room,
                          slice_room, &it.slice_lens[k]) == BW_OK);
    double committed_one = 1e9, read_one = 1e9, committed_four = 1e9, read_four = 1e9;
    for (int k = 0; k < ROUNDS; k++) {
        share_times(&it, 1, &committed_one, &read_one);
        share_times(&it, 4, &committed_four, &read_four);
    }
    print("bw_seat_commit_chunks by one thread", committed_one);
    print("bw_seat_commit_chunks by four threads", committed_four);
    print("bw_seat_read by one thread", read_one);
    print("bw_seat_read by four threads", read_four);
    free(text);
    free(it.slices);
    free(it.slice_lens);
    free(it.read);
}

/* Calls that have next to nothing to do, each many times, with a store of no bytes. */
static void calls(const uint8_t *bytes) {
    uint8_t root[BW_HASH_LEN], out[BW_HASH_LEN];
    uint64_t len = 0, mask = 0;
    size_t count = 0;
    bw_range ranges[BW_RANGES_MAX];
    static bw_placed nodes[BW_NODES_MAX(BW_GROUP_CHUNKS + 1)];
    bw_hasher hasher = BW_EMPTY;
    bw_seat seat = BW_EMPTY, other = BW_EMPTY;
    bw_feed feed = BW_EMPTY;
    MUST(bw_hash(&plain, bytes, 0, 0, root, sizeof root) == BW_OK &&
         bw_hasher_new(&plain, &hasher) == BW_OK &&
         bw_seat_new(&plain, root, 0, 65536, &seat) == BW_OK &&
         bw_feed_new(of(&plain, root, 0, UINT64_MAX), &feed) == BW_OK);
    TIME_CALLS("bw_hasher_update of no bytes", CALLS, bw_hasher_update(&hasher, bytes, 0));
    TIME_CALLS("bw_seat_length", CALLS, bw_seat_length(&seat, &len));
    TIME_CALLS("bw_seat_take and bw_seat_give", CALLS,
               bw_seat_take(&seat, 3, UINT64_MAX, &mask) |
                   bw_seat_give(&seat, 3, UINT64_MAX, &mask));
    TIME_CALLS("bw_seat_held", CALLS / 10, bw_seat_held(&seat, 3, &mask));
    TIME_CALLS("bw_seat_split and bw_seat_join", CALLS / 10,
               bw_seat_split(&seat, &other) | bw_seat_join(&seat, &other));
    TIME_CALLS("bw_hasher_new", CALLS, bw_hasher_new(&plain, &hasher));
    TIME_CALLS("bw_hasher_finish of no bytes", CALLS / 10,
               bw_hasher_finish(&hasher, 0, out, BW_HASH_LEN));
    TIME_CALLS("bw_feed_new", CALLS, bw_feed_new(of(&plain, root, 0, 1), &feed));
    TIME_CALLS("bw_slice_len of 64 KiB", CALLS, bw_slice_len(most, most / 3, GROUP_LEN));
    TIME_CALLS("bw_slice_ranges of 64 KiB", CALLS,
               bw_slice_ranges(most, most / 3, GROUP_LEN, ranges, BW_RANGES_MAX, &count));
    TIME_CALLS("bw_outboard_ranges of 64 KiB", CALLS,
               bw_outboard_ranges(most, most / 3, GROUP_LEN, ranges, BW_RANGES_MAX, &count));
    TIME_CALLS("bw_slice_nodes of 64 KiB", CALLS,
               bw_slice_nodes(most, most / 3, GROUP_LEN, nodes, BW_NODES_MAX(BW_GROUP_CHUNKS + 1),
                              &count));
    TIME_CALLS("bw_node_at of 64 KiB", CALLS,
               bw_node_at(most, most / 3, GROUP_LEN, GROUP_LEN, nodes));
    TIME_CALLS("bw_hash of no bytes", CALLS, bw_hash(&plain, bytes, 0, 0, out, sizeof out));
    bw_free(&hasher);
    bw_free(&seat);
    bw_free(&other);
    bw_free(&feed);
}

/* An encoding is given in pieces of so many bytes. */
static bw_status pour(const uint8_t *root, const uint8_t *text, size_t len, size_t piece,
                      uint8_t *out) {
    bw_feed feed = BW_EMPTY;
    uint64_t at = 0;
    size_t had = 0, filled = 0;
    bw_status status = bw_feed_new(of(&plain, root, 0, UINT64_MAX), &feed);
    for (size_t done = 0; status == BW_OK && done < len; done += had) {
        size_t some = len - done < piece ? len - done : piece;
        status = bw_feed_take(&feed, text + done, some, out, some, &had, &filled, &at);
    }
    if (status == BW_OK) status = bw_feed_finish(&feed, text, 0, &at);
    bw_free(&feed);
    return status;
}

/* A plain copy beside an outline, 64 KiB at a time: checked, made slices of, or stored. */
static bw_status beside(bw_outline *outline, bw_seat *seat, const uint8_t *bytes, size_t len,
                        uint8_t *out) {
    bw_status status = BW_OK;
    uint64_t at = 0, committed = 0, parents = 0;
    size_t used = 0;
    for (size_t from = 0; status == BW_OK && from < len; from += GROUP_LEN) {
        size_t some = len - from < GROUP_LEN ? len - from : GROUP_LEN;
        uint64_t first = from / BW_CHUNK_LEN, count = (some + BW_CHUNK_LEN - 1) / BW_CHUNK_LEN;
        if (seat)
            status = bw_outline_commit(outline, seat, CHUNKS(first, count), bytes + from, some,
                                       &committed, &parents, &at);
        else if (out)
            status = bw_outline_slice(outline, CHUNKS(first, count), bytes + from, some, out,
                                      slice_room, &used, &at);
        else status = bw_outline_check(outline, CHUNKS(first, count), bytes + from, some, &at);
    }
    return status;
}

/* A hasher that takes in so many bytes at a time. */
static bw_status update(const uint8_t *bytes, size_t len, size_t piece) {
    uint8_t out[BW_HASH_LEN];
    bw_hasher hasher = BW_EMPTY;
    bw_status status = bw_hasher_new(&plain, &hasher);
    for (size_t from = 0; status == BW_OK && from < len; from += piece)
        status = bw_hasher_update(&hasher, bytes + from, len - from < piece ? len - from : piece);
    if (status == BW_OK) status = bw_hasher_finish(&hasher, 0, out, BW_HASH_LEN);
    bw_free(&hasher);
    return status;
}

/* Every call over the first bytes of the file, which are at most as many as a store has room for.
 */
static void first_bytes(const uint8_t *bytes, size_t len) {
    uint8_t root[BW_HASH_LEN], again[BW_HASH_LEN];
    size_t text_len = (size_t)bw_slice_len(len, 0, UINT64_MAX),
           bare_len = (size_t)bw_outboard_len(len), used = 0;
    uint8_t *text = room(text_len), *bare = room(bare_len), *out = room(text_len);
    uint64_t at = 0, total = 0;
    bw_input ours, theirs;
    bw_outline outline = BW_EMPTY;
    MUST(len >= 2 * MIB);
    TIME("bw_hash of the first 64 MiB", bw_hash(&plain, bytes, len, 0, again, sizeof again));
    TIME("bw_hasher_update in pieces of 64 KiB", update(bytes, len, GROUP_LEN));
    TIME("bw_hasher_update in pieces of 1 MiB", update(bytes, len, MIB));
    TIME("bw_hash with 1 MiB of output", bw_hash(&plain, bytes, 0, 0, out, MIB));
    TIME("bw_encode", bw_encode(&plain, bytes, len, text, text_len, &used, root));
    TIME("bw_outboard", bw_outboard(&plain, bytes, len, bare, bare_len, &used, root));
    TIME("bw_cut_slice of 1 MiB", bw_cut_slice(text, text_len, MIB, MIB, out, text_len, &used));
    TIME("bw_check of 1 MiB", bw_check(of(&plain, root, MIB, MIB), out, used, &at));
    TIME("bw_audit", bw_audit(of(&plain, root, 0, UINT64_MAX), text, text_len, bytes, len, &at,
                              &ours, &theirs));
    TIME("bw_decode", bw_decode(of(&plain, root, 0, UINT64_MAX), text, text_len, out, text_len,
                                &used, &total, &at));
    TIME("bw_feed_take in pieces of 64 KiB", pour(root, text, text_len, GROUP_LEN, out));
    TIME("bw_feed_take in pieces of 256 KiB", pour(root, text, text_len, 4 * GROUP_LEN, out));
    TIME("bw_outline_new", bw_outline_new(&plain, root, bare, bare_len, &outline, &at));
    TIME("bw_outline_check", beside(&outline, NULL, bytes, len, NULL));
    TIME("bw_outline_slice", beside(&outline, NULL, bytes, len, out));
    bw_free(&outline);
    free(text);
    free(bare);
    free(out);
}

/* A store of these bytes, by one thread, made anew each time, and filled in one way; then what is
 * asked of a full one. */
static void stores(const uint8_t *bytes, size_t len) {
    uint8_t root[BW_HASH_LEN];
    size_t text_len = (size_t)bw_slice_len(len, 0, UINT64_MAX),
           bare_len = (size_t)bw_outboard_len(len), used = 0;
    uint8_t *text = room(text_len), *bare = room(bare_len), *slice = room(slice_room),
            *out = room(len);
    uint64_t at = 0, committed = 0, parents = 0;
    bw_seat seat = BW_EMPTY;
    bw_outline outline = BW_EMPTY;
    bw_node lacking;
    double made = 1e9, parted = 1e9, all = 1e9, chunks = 1e9, bare_ones = 1e9, gathered = 1e9,
           salvaged = 1e9, settled = 1e9;
    MUST(bw_encode(&plain, bytes, len, text, text_len, &used, root) == BW_OK &&
         bw_outboard(&plain, bytes, len, bare, bare_len, &used, root) == BW_OK);
    MUST(bw_outline_new(&plain, root, bare, bare_len, &outline, &at) == BW_OK);
    for (int k = 0; k < ROUNDS; k++) {
        bw_report report = {0, 0, 0, 0, 0, 0, 0};
        bw_free(&seat);
        double from = now();
        MUST(bw_seat_new(&plain, root, 4096, 4096, &seat) == BW_OK);
        note(&parted, from);
        bw_free(&seat);
        from = now();
        MUST(bw_seat_new(&plain, root, 0, 65536, &seat) == BW_OK);
        note(&made, from);
        from = now();
        MUST(bw_seat_commit_chunks(&seat, 0, UINT64_MAX, text, text_len, &committed, &at) == BW_OK);
        note(&chunks, from);
        MUST(bw_cut_slice(text, text_len, UINT64_MAX, 1, slice, slice_room, &used) == BW_OK);
        from = now();
        MUST(bw_seat_settle(&seat, slice, used, &at) == BW_OK);
        note(&settled, from);
        from = now();
        MUST(bw_seat_salvage(&seat, text, text_len, &report) == BW_OK);
        note(&salvaged, from);
        MUST(bw_seat_new(&plain, root, 0, 65536, &seat) == BW_OK);
        from = now();
        MUST(bw_seat_gather(&seat, 0, 1, text, text_len, &report) == BW_OK && report.refused == 0);
        note(&gathered, from);
        for (int bare_too = 0; bare_too < 2; bare_too++) {
            MUST(bw_seat_new(&plain, root, 0, 65536, &seat) == BW_OK &&
                 bw_cut_slice(text, text_len, UINT64_MAX, 1, slice, slice_room, &used) == BW_OK);
            MUST(bw_seat_settle(&seat, slice, used, &at) == BW_OK);
            from = now();
            if (bare_too) MUST(beside(&outline, &seat, bytes, len, NULL) == BW_OK);
            else
                MUST(bw_seat_commit(&seat, 0, UINT64_MAX, text, text_len, &committed, &parents,
                                    &at) == BW_OK);
            note(bare_too ? &bare_ones : &all, from);
        }
    }
    print("bw_seat_new", made);
    print("bw_seat_new of 4 MiB", parted);
    print("bw_seat_commit_chunks", chunks);
    print("bw_seat_commit", all);
    print("bw_seat_settle", settled);
    print("bw_outline_commit", bare_ones);
    print("bw_seat_gather", gathered);
    print("bw_seat_salvage of a full store", salvaged);
    TIME("bw_seat_slice of 1 MiB", bw_seat_slice(&seat, MIB, MIB, out, len, &used, &lacking));
    TIME("bw_seat_finish", bw_seat_finish(&seat, out, len, &used));
    MUST(used == len && memcmp(out, bytes, len) == 0);
    bw_free(&seat);
    bw_free(&outline);
    free(text);
    free(bare);
    free(slice);
    free(out);
}

/* What a store with room for 64 MiB keeps, and the most that it takes while it is made, in a
 * process that had less memory until now. */
static size_t kib_of(const char *name) {
    char line[128];
    size_t kib = 0;
    FILE *file = fopen("/proc/self/status", "r");
    MUST(file != NULL);
    while (fgets(line, sizeof line, file))
        if (strncmp(line, name, strlen(name)) == 0) kib = strtoul(line + strlen(name), NULL, 10);
    fclose(file);
    MUST(kib);
    return kib;
}

static void store_memory(void) {
    static const uint8_t root[BW_HASH_LEN];
    bw_seat seat = BW_EMPTY;
    size_t before = kib_of("VmRSS:");
    MUST(bw_seat_new(&plain, root, 0, 65536, &seat) == BW_OK);
    printf("a shared store keeps: %zu KiB\na shared store takes at most: %zu KiB\n",
           kib_of("VmRSS:") - before, kib_of("VmHWM:") - before);
    bw_free(&seat);
}

/* The first MiB in pieces, each hashed by itself as a small file is. The lengths take turns. */
static void small(const uint8_t *bytes) {
    enum { LENS = 6, TURNS = 100 };
    static const size_t kib[LENS] = {1, 2, 4, 8, 16, 64};
    double least[LENS] = {1, 1, 1, 1, 1, 1};
    uint8_t out[BW_HASH_LEN];
    for (int turn = 0; turn < TURNS; turn++)
        for (int i = 0; i < LENS; i++) {
            double from = now();
            for (size_t at = 0; at < MIB; at += kib[i] * KIB)
                MUST(bw_hash(&plain, bytes + at, kib[i] * KIB, 0, out, sizeof out) == BW_OK);
            note(&least[i], from);
        }
    for (int i = 0; i < LENS; i++) {
        char name[32];
        snprintf(name, sizeof name, "hashes of %zu KiB each", kib[i]);
        print(name, least[i]);
    }
}

/* Threads that share a count of the pieces of 16 KiB that are left, and nothing else: what they are
 * worth on this machine. */
typedef struct pieces {
    const uint8_t *bytes;
    atomic_long left;
} pieces;

static void *hash_pieces(void *arg) {
    pieces *it = arg;
    uint8_t out[BW_HASH_LEN];
    while (atomic_fetch_sub(&it->left, 16) > 0)
        for (int k = 0; k < 16; k++)
            MUST(bw_hash(&plain, it->bytes, 16 * KIB, 0, out, sizeof out) == BW_OK);
    return NULL;
}

static void threads(const uint8_t *bytes, size_t len) {
    double least[2] = {1e9, 1e9};
    for (int k = 0; k < 2 * ROUNDS; k++) {
        pthread_t all[MOST_THREADS];
        pieces it = {bytes, (long)(len / (16 * KIB))};
        double from = now();
        for (int i = 0; i < (k % 2 ? MOST_THREADS : 1); i++)
            MUST(pthread_create(&all[i], NULL, hash_pieces, &it) == 0);
        for (int i = 0; i < (k % 2 ? MOST_THREADS : 1); i++) MUST(pthread_join(all[i], NULL) == 0);
        note(&least[k % 2], from);
    }
    print("hashes of 16 KiB by one thread", least[0]);
    print("hashes of 16 KiB by four threads", least[1]);
}

/* Slices, cut out of the encoding of all bytes and of one a sixteenth as long. */
static void slices(const uint8_t *bytes, size_t len) {
    uint8_t root[BW_HASH_LEN];
    size_t text_len = (size_t)bw_slice_len(len, 0, UINT64_MAX),
           short_len = (size_t)bw_slice_len(len / 16, 0, UINT64_MAX), used = 0, out_len = 10 * MIB;
    uint8_t *text = room(text_len), *less = room(short_len), *out = room(out_len);
    MUST(bw_encode(&plain, bytes, len, text, text_len, &used, root) == BW_OK &&
         bw_encode(&plain, bytes, len / 16, less, short_len, &used, root) == BW_OK);
    TIME("bw_cut_slice of 1 MiB out of all",
         bw_cut_slice(text, text_len, 0, MIB, out, out_len, &used));
    TIME("bw_cut_slice of 1 MiB out of a sixteenth",
         bw_cut_slice(less, short_len, 0, MIB, out, out_len, &used));
    TIME("bw_cut_slice of 8 MiB out of all",
         bw_cut_slice(text, text_len, 0, 8 * MIB, out, out_len, &used));
    free(text);
    free(less);
    free(out);
}

/* A group that is taken, committed and read, in a store that has no other group and in one that has
 * all others. */
static void groups(const uint8_t *bytes, size_t len) {
    enum { TAKES = 1000 };
    uint8_t root[BW_HASH_LEN], out[GROUP_LEN];
    size_t text_len = (size_t)bw_slice_len(len, 0, UINT64_MAX), used = 0, slice_len = 0,
           rest_len = 0;
    uint8_t *text = room(text_len), *slice = room(slice_room), *rest = room(text_len);
    uint64_t mask = 0, at = 0;
    double into[2] = {1e9, 1e9}, out_of[2] = {1e9, 1e9}, taken[2] = {1e9, 1e9};
    MUST(bw_encode(&plain, bytes, len, text, text_len, &used, root) == BW_OK &&
         bw_cut_slice(text, text_len, 0, GROUP_LEN, slice, slice_room, &slice_len) == BW_OK);
    MUST(bw_cut_slice(text, text_len, GROUP_LEN, UINT64_MAX, rest, text_len, &rest_len) == BW_OK);
    for (int k = 0; k < 2 * ROUNDS; k++) {
        int is_full = k % 2;
        bw_seat seat = BW_EMPTY;
        MUST(bw_seat_new(&plain, root, 0, is_full ? 65536 : 64, &seat) == BW_OK);
        double from = now();
        for (int i = 0; i < TAKES; i++)
            kept = bw_seat_take(&seat, 0, UINT64_MAX, &mask) |
                   bw_seat_give(&seat, 0, UINT64_MAX, &mask);
        note(&taken[is_full], from);
        MUST(bw_seat_new(&plain, root, 0, 65536, &seat) == BW_OK);
        if (is_full)
            MUST(bw_seat_commit_chunks(&seat, GROUP_LEN, UINT64_MAX, rest, rest_len, &mask, &at) ==
                 BW_OK);
        from = now();
        MUST(bw_seat_take(&seat, 0, UINT64_MAX, &mask) == BW_OK &&
             bw_seat_commit_chunks(&seat, 0, GROUP_LEN, slice, slice_len, &mask, &at) == BW_OK &&
             mask);
        note(&into[is_full], from);
        MUST(bw_seat_read(&seat, 0, out, GROUP_LEN, &at) == BW_OK);
        from = now();
        MUST(bw_seat_read(&seat, 0, out, GROUP_LEN, &at) == BW_OK);
        note(&out_of[is_full], from);
        MUST(memcmp(out, bytes, GROUP_LEN) == 0);
        bw_free(&seat);
    }
    print("a group into an empty store", into[0]);
    print("a group into a full store", into[1]);
    print("a group out of a store of one", out_of[0]);
    print("a group out of a full store", out_of[1]);
    print("a group taken 1,000 times, of one", taken[0]);
    print("a group taken 1,000 times, of 1,024", taken[1]);
    free(text);
    free(slice);
    free(rest);
}

/* One of several threads that gather. */
typedef struct worker {
    bw_seat seat;
    uint32_t number;
    const uint8_t *text;
    size_t text_len;
} worker;

static void *gather(void *arg) {
    worker *it = arg;
    bw_report report = {0, 0, 0, 0, 0, 0, 0};
    MUST(bw_seat_gather(&it->seat, it->number, MOST_THREADS, it->text, it->text_len, &report) ==
             BW_OK &&
         report.refused == 0);
    return NULL;
}

/* A blob gathered from its encoding: by four threads, and by one that then reads all of it out and
 * hashes it; beside it a plain copy and a short read. */
static void gatherings(const uint8_t *bytes, size_t len) {
    uint8_t root[BW_HASH_LEN];
    size_t text_len = (size_t)bw_slice_len(len, 0, UINT64_MAX), used = 0;
    uint8_t *text = room(text_len), *out = room(len);
    uint64_t at = 0;
    double by_four = 1e9, whole = 1e9, copied = 1e9, read = 1e9;
    MUST(bw_encode(&plain, bytes, len, text, text_len, &used, root) == BW_OK);
    for (int k = 0; k < ROUNDS; k++) {
        bw_report report = {0, 0, 0, 0, 0, 0, 0};
        bw_seat seat = BW_EMPTY;
        worker all[MOST_THREADS];
        pthread_t ids[MOST_THREADS];
        double from = now();
        MUST(bw_seat_new(&plain, root, 0, 65536, &seat) == BW_OK &&
             bw_seat_gather(&seat, 0, 1, text, text_len, &report) == BW_OK);
        MUST(bw_seat_finish(&seat, out, len, &used) == BW_OK);
        note(&whole, from);
        MUST(used == len && memcmp(out, bytes, len) == 0);
        from = now();
        MUST(bw_seat_read(&seat, MIB, out, MIB, &at) == BW_OK);
        note(&read, from);
        from = now();
        memcpy(out, bytes, len);
        note(&copied, from);
        MUST(bw_seat_new(&plain, root, 0, 65536, &seat) == BW_OK);
        for (uint32_t i = 0; i < MOST_THREADS; i++) {
            all[i] = (worker){BW_EMPTY, i, text, text_len};
            MUST(bw_seat_split(&seat, &all[i].seat) == BW_OK);
        }
        from = now();
        for (int i = 0; i < MOST_THREADS; i++)
            MUST(pthread_create(&ids[i], NULL, gather, &all[i]) == 0);
        for (int i = 0; i < MOST_THREADS; i++) MUST(pthread_join(ids[i], NULL) == 0);
        note(&by_four, from);
        for (int i = 0; i < MOST_THREADS; i++) MUST(bw_seat_join(&seat, &all[i].seat) == BW_OK);
        MUST(bw_seat_finish(&seat, out, len, &used) == BW_OK && memcmp(out, bytes, len) == 0);
        bw_free(&seat);
    }
    print("bw_seat_gather by four threads", by_four);
    print("bw_seat_gather and bw_seat_finish", whole);
    print("a plain copy", copied);
    print("bw_seat_read of 1 MiB", read);
    free(text);
    free(out);
}

static void texts(const uint8_t *bytes, size_t len) {
    uint8_t root[BW_HASH_LEN], again[BW_HASH_LEN];
    size_t text_len = (size_t)bw_slice_len(len, 0, UINT64_MAX), used = 0;
    uint8_t *text = room(text_len);
    uint64_t at = 0;
    double hashed = 1e9, checked = 1e9, refused = 1e9;
    MUST(bw_encode(&plain, bytes, len, text, text_len, &used, root) == BW_OK);
    for (int k = 0; k < ROUNDS; k++) {
        double from = now();
        MUST(bw_hash(&plain, bytes, len, 0, again, sizeof again) == BW_OK);
        note(&hashed, from);
        MUST(memcmp(again, root, sizeof root) == 0);
        from = now();
        bw_status status = bw_check(of(&plain, root, 0, UINT64_MAX), text, used, &at);
        note(&checked, from);
        MUST(status == BW_OK);
        text[used - 1] ^= 1;
        from = now();
        status = bw_check(of(&plain, root, 0, UINT64_MAX), text, used, &at);
        note(&refused, from);
        text[used - 1] ^= 1;
        MUST(status == BW_MISMATCH);
    }
    print("bw_hash", hashed);
    print("bw_check", checked);
    print("bw_check, damaged in its last byte", refused);
    free(text);
}

int main(int count, char **words) {
    if (count != 2) {
        fputs("usage: compare FILE\n", stderr);
        return 2;
    }
    FILE *file = fopen(words[1], "rb");
    long end;
    MUST(file && fseek(file, 0, SEEK_END) == 0 && (end = ftell(file)) >= 0 &&
         fseek(file, 0, SEEK_SET) == 0);
    store_memory();
    size_t len = (size_t)end;
    MUST(len >= 16 * MIB);
    uint8_t *bytes = room(len);
    MUST(fread(bytes, 1, len, file) == len);
    fclose(file);
    calls(bytes);
    small(bytes);
    threads(bytes, len);
    texts(bytes, len);
    slices(bytes, len);
    first_bytes(bytes, len < most ? len : most);
    stores(bytes, len < most ? len : most);
    shared(bytes, len < most ? len : most);
    groups(bytes, len < most ? len : most);
    gatherings(bytes, len < most ? len : most);
    free(bytes);
    return 0;
}
