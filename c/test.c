/* Calls each function that berylwool.h declares, and gathers a blob by four threads out of three
 * buffers, two of which are damaged, while the unfinished store serves slices. vectors.h has the
 * rows of scripts/b3sum.tsv, which are from outside. It prints nothing and exits with 0, or says
 * which line failed. */
#include "tests.h"
#include "vectors.h"

#include <pthread.h>
#include <stdio.h>
#include <stdlib.h>
#include <string.h>

#define WANT(test)                                                                                 \
    do {                                                                                           \
        if (!(test)) {                                                                             \
            fprintf(stderr, "test.c:%d: this is not so: %s\n", __LINE__, #test);                   \
            exit(1);                                                                               \
        }                                                                                          \
    } while (0)

/* A handle passed as another kind than its own, which a compiler refuses without this. */
#define AS(kind, handle) ((kind *)(void *)&(handle))

enum { BLOB_LEN = 1000003, HOLDERS = 3, THREADS = 4, GROUP_LEN = BW_GROUP_CHUNKS * BW_CHUNK_LEN };

static const bw_mode plain = {0, {0}};

typedef struct holder {
    uint8_t *text;
    size_t len;
} holder;

typedef struct worker {
    bw_seat seat;
    const uint8_t *root;
    const holder *holders;
    uint32_t number;
    uint32_t groups;
    uint64_t stored;
    uint64_t parents;
    uint64_t refused;
    uint64_t served;
} worker;

static uint8_t *room(size_t len) {
    uint8_t *at = malloc(len ? len : 1);
    WANT(at != NULL);
    return at;
}

static void ask_group(worker *it, uint32_t group, uint8_t *slice, size_t slice_len) {
    uint64_t left = 0, start = (uint64_t)group * GROUP_LEN;
    uint64_t chunks =
        (BLOB_LEN + BW_CHUNK_LEN - 1) / BW_CHUNK_LEN - (uint64_t)group * BW_GROUP_CHUNKS;
    uint64_t want = chunks >= 64 ? UINT64_MAX : (UINT64_C(1) << chunks) - 1;
    WANT(bw_seat_take(&it->seat, group, want, &left) == BW_OK);
    for (int k = 0; k < HOLDERS && left != 0; k++) {
        const holder *from = &it->holders[(it->number + (uint32_t)k) % HOLDERS];
        size_t used = 0;
        uint64_t committed = 0, at = 0;
        WANT(bw_cut_slice(from->text, from->len, start, GROUP_LEN, slice, slice_len, &used) ==
             BW_OK);
        uint64_t parents = 0;
        bw_status status =
            bw_seat_commit(&it->seat, start, GROUP_LEN, slice, used, &committed, &parents, &at);
        WANT(status == BW_OK || status == BW_MISMATCH);
        it->stored += committed;
        it->parents += parents;
        if (status == BW_OK) left = 0;
        else it->refused++;
    }
    uint64_t given = 0;
    WANT(bw_seat_give(&it->seat, group, left, &given) == BW_OK && given == left);
    /* What the store serves is a true slice, finished or not. */
    bw_node lacking = {7, 7};
    size_t used = 0;
    uint64_t at = 0;
    bw_status status = bw_seat_slice(&it->seat, start, 1, slice, slice_len, &used, &lacking);
    if (status == BW_OK) {
        WANT(bw_check(of(&plain, it->root, start, 1), slice, used, &at) == BW_OK);
        it->served++;
    } else {
        WANT(status == BW_LACKING && lacking.kind < 2 && lacking.number < 1024);
    }
}

static void *work(void *arg) {
    worker *it = arg;
    size_t slice_len = (size_t)bw_slice_len(GROUP_LEN, 0, UINT64_MAX) + 64 * 64;
    uint8_t *slice = room(slice_len);
    for (uint32_t step = 0; step < it->groups; step++)
        ask_group(it, (it->number * it->groups / THREADS + step) % it->groups, slice, slice_len);
    free(slice);
    return NULL;
}

/* A worker that bw_seat_gather makes of a thread: it goes over its texts in its own order. */
typedef struct gatherer {
    bw_seat seat;
    const holder *holders;
    uint32_t number;
    bw_report report;
} gatherer;

static void *gather(void *arg) {
    gatherer *it = arg;
    for (uint32_t k = 0; k < HOLDERS; k++) {
        const holder *from = &it->holders[(it->number + k) % HOLDERS];
        WANT(bw_seat_gather(&it->seat, it->number, THREADS, from->text, from->len, &it->report) ==
             BW_OK);
    }
    return NULL;
}

/* Four threads fill a store by bw_seat_gather, and then each chunk and each parent was stored once.
 */
static void gathering(const uint8_t *blob, const uint8_t *root, const holder *holders) {
    bw_seat first = BW_EMPTY;
    bw_report report = {1, 2, 3, 4, 5, 6, 0};
    WANT(bw_seat_gather(&first, 0, 1, holders[0].text, holders[0].len, &report) == BW_NO_HANDLE &&
         report.committed == 1 && report.memory == 6);
    /* A length that is too large is told, and another seat's later round still ends well. */
    WANT(bw_seat_new(&plain, root, 0, 10, &first) == BW_OK);
    WANT(bw_seat_gather(&first, 7, 0, holders[0].text, holders[0].len, &report) == BW_OK &&
         report.too_large == 1 && report.committed == 1);
    WANT(bw_seat_new(&plain, root, 0, 1024, &first) == BW_OK);
    report = (bw_report){0, 0, 0, 0, 0, 0, 0};
    WANT(bw_seat_gather(&first, 0, 1, blob, BLOB_LEN, &report) == BW_OK && report.committed == 0 &&
         report.asked == 1 && report.refused == 1);
    pthread_t threads[THREADS];
    gatherer workers[THREADS];
    for (uint32_t k = 0; k < THREADS; k++) {
        workers[k] = (gatherer){BW_EMPTY, holders, k, {0, 0, 0, 0, 0, 0, 0}};
        WANT(bw_seat_split(&first, &workers[k].seat) == BW_OK);
        WANT(pthread_create(&threads[k], NULL, gather, &workers[k]) == 0);
    }
    uint64_t committed = 0, parents = 0;
    for (int k = 0; k < THREADS; k++) {
        WANT(pthread_join(threads[k], NULL) == 0);
        committed += workers[k].report.committed;
        parents += workers[k].report.parents;
        WANT(workers[k].report.failed == 0 && workers[k].report.memory == 0 &&
             workers[k].report.too_large == 0);
        WANT(bw_seat_join(&first, &workers[k].seat) == BW_OK && workers[k].seat.at == NULL);
    }
    uint64_t chunks = (BLOB_LEN + BW_CHUNK_LEN - 1) / BW_CHUNK_LEN;
    uint8_t *found = room(BLOB_LEN);
    size_t used = 0;
    WANT(committed <= chunks && parents <= chunks - 1);
    /* A chunk that one thread held while the others passed it, and whose text was damaged, may be
     * left for a closing round. */
    WANT(bw_seat_gather(&first, 0, 1, holders[0].text, holders[0].len, &report) == BW_OK);
    WANT(bw_seat_gather(&first, 0, 1, holders[1].text, holders[1].len, &report) == BW_OK);
    WANT(committed + report.committed == chunks && parents + report.parents == chunks - 1);
    WANT(bw_seat_finish(&first, found, BLOB_LEN, &used) == BW_OK && used == BLOB_LEN &&
         memcmp(found, blob, BLOB_LEN) == 0);
    free(found);
    bw_free(&first);
}

/* A holder that lies about the length keeps no full store from serving. Its chunks are right and
 * are committed, but for those of the last group, and none of its parents is stored: those of
 * groups whose chunks are all held come from the next encoding. Then nobody is asked any more. */
static void lied_to(const uint8_t *root, const holder *good) {
    const uint64_t chunks = (BLOB_LEN + BW_CHUNK_LEN - 1) / BW_CHUNK_LEN,
                   groups = (chunks + 63) / 64;
    uint8_t tail[8 + 64 * 64 + BW_CHUNK_LEN], *liar = room(good->len), *served = room(good->len);
    uint64_t claimed = BLOB_LEN + 300, at = 0;
    size_t used = 0;
    bw_seat seat = BW_EMPTY;
    bw_node lacking = {7, 7};
    bw_report report = {0, 0, 0, 0, 0, 0, 0};
    memcpy(liar, good->text, good->len);
    for (int i = 0; i < 8; i++) liar[i] = (uint8_t)(claimed >> 8 * i);
    WANT(bw_seat_new(&plain, root, 0, (uint32_t)chunks, &seat) == BW_OK);
    WANT(bw_cut_slice(good->text, good->len, UINT64_MAX, 1, tail, sizeof tail, &used) == BW_OK);
    WANT(bw_seat_settle(&seat, tail, used, &at) == BW_OK);
    WANT(bw_seat_gather(&seat, 0, 1, liar, good->len, &report) == BW_OK);
    WANT(report.committed == 64 * (groups - 1) && report.parents == 0 &&
         report.asked == 2 * groups && report.refused == 2);
    WANT(bw_seat_slice(&seat, 0, 1, served, good->len, &used, &lacking) == BW_LACKING &&
         lacking.kind == 0);
    WANT(bw_seat_gather(&seat, 0, 1, good->text, good->len, &report) == BW_OK);
    WANT(report.committed == chunks && report.parents == chunks - 1 && report.asked == 3 * groups &&
         report.refused == 2);
    WANT(bw_seat_slice(&seat, 0, UINT64_MAX, served, good->len, &used, &lacking) == BW_OK);
    WANT(used == good->len && memcmp(served, good->text, used) == 0);
    WANT(bw_seat_gather(&seat, 0, 1, liar, good->len, &report) == BW_OK &&
         report.asked == 3 * groups);
    bw_free(&seat);
    free(liar);
    free(served);
}

/* Two seats are joined to one with the claims of both; seats of stores that can be told apart are
 * refused, and stay as they were. */
static void joining(const uint8_t *root, const holder *good) {
    static uint8_t slice[2 * GROUP_LEN];
    bw_seat first = BW_EMPTY, second = BW_EMPTY, alien = BW_EMPTY;
    bw_hasher hasher = BW_EMPTY;
    uint8_t another_root[BW_HASH_LEN], out[BW_HASH_LEN];
    uint64_t mask = 0, at = 0;
    size_t used = 0;
    memcpy(another_root, root, sizeof another_root);
    another_root[31] ^= 1;
    WANT(bw_seat_join(&first, &second) == BW_NO_HANDLE);
    WANT(bw_hasher_new(&plain, &hasher) == BW_OK &&
         bw_seat_new(&plain, root, 0, 1024, &first) == BW_OK);
    WANT(bw_seat_join(&first, &second) == BW_NO_HANDLE && second.at == NULL);
    WANT(bw_seat_join(&second, &first) == BW_NO_HANDLE && second.at == NULL);
    WANT(bw_seat_join(&first, AS(bw_seat, hasher)) == BW_NO_HANDLE);
    WANT(bw_seat_join(AS(bw_seat, hasher), &first) == BW_NO_HANDLE);
    WANT(bw_hasher_finish(&hasher, 0, out, BW_HASH_LEN) == BW_OK);
    WANT(bw_seat_take(&first, 0, 5, &mask) == BW_OK && mask == 5);
    const bw_mode keyed = {1, {7}};
    for (int k = 0; k < 3; k++) {
        WANT(bw_seat_new(k == 0 ? &keyed : &plain, k == 1 ? another_root : root, 0,
                         k == 2 ? 1023 : 1024, &alien) == BW_OK);
        WANT(bw_seat_take(&alien, 1, 9, &mask) == BW_OK && mask == 9);
        WANT(bw_seat_join(&first, &alien) == BW_OTHER_STORE);
        WANT(bw_seat_join(&alien, &first) == BW_OTHER_STORE);
        WANT(bw_seat_give(&alien, 1, UINT64_MAX, &mask) == BW_OK && mask == 9);
    }
    WANT(bw_seat_split(&first, &second) == BW_OK);
    WANT(bw_seat_take(&second, 0, UINT64_MAX, &mask) == BW_OK && mask == UINT64_MAX - 5);
    WANT(bw_seat_give(&second, 0, 4, &mask) == BW_OK && mask == 0);
    WANT(bw_seat_join(&first, &second) == BW_OK && second.at == NULL);
    WANT(bw_cut_slice(good->text, good->len, 0, GROUP_LEN, slice, sizeof slice, &used) == BW_OK);
    WANT(bw_seat_commit_chunks(&first, 0, GROUP_LEN, slice, used, &mask, &at) == BW_OK &&
         mask == 64);
    /* The store is there until its last seat is freed, which may be one that was joined to the
     * other way round. */
    WANT(bw_seat_split(&first, &second) == BW_OK && bw_seat_join(&second, &first) == BW_OK &&
         first.at == NULL);
    WANT(bw_seat_read(&second, GROUP_LEN - 1, out, 1, &at) == BW_OK);
    WANT(strcmp(bw_strerror(BW_OTHER_STORE), bw_strerror(1)) != 0);
    bw_free(&first);
    bw_free(&second);
    bw_free(&alien);
    bw_free(&hasher);
}

/* A blob comes in order, group by group, and after each the store serves the slice of each group
 * that it has, and of a byte of it: the bytes that are cut out of the whole encoding. */
static void in_order(const uint8_t *root, const holder *good) {
    static uint8_t slice[2 * GROUP_LEN], served[2 * GROUP_LEN];
    uint64_t chunks = (BLOB_LEN + BW_CHUNK_LEN - 1) / BW_CHUNK_LEN, groups = (chunks + 63) / 64;
    uint64_t committed = 7, parents = 7, at = 7, all = 0, all_parents = 0;
    size_t used = 0, len = 0;
    bw_node lacking;
    bw_seat seat = BW_EMPTY;
    WANT(bw_seat_new(&plain, root, 0, (uint32_t)chunks, &seat) == BW_OK);
    WANT(bw_cut_slice(good->text, good->len, UINT64_MAX, 1, slice, sizeof slice, &used) == BW_OK);
    WANT(bw_seat_settle(&seat, slice, used, &at) == BW_OK);
    for (uint64_t group = 0; group < groups; group++) {
        WANT(bw_cut_slice(good->text, good->len, group * GROUP_LEN, GROUP_LEN, slice, sizeof slice,
                          &used) == BW_OK);
        WANT(bw_seat_commit(&seat, group * GROUP_LEN, GROUP_LEN, slice, used, &committed, &parents,
                            &at) == BW_OK);
        WANT(committed == (group + 1 < groups ? 64 : chunks - 64 * group) &&
             parents >= committed - 1);
        all += committed;
        all_parents += parents;
        WANT(bw_seat_commit(&seat, group * GROUP_LEN, GROUP_LEN, slice, used, &committed, &parents,
                            &at) == BW_OK &&
             committed == 0 && parents == 0);
        for (uint64_t k = 0; k < groups; k++)
            for (uint64_t n = 1; n <= GROUP_LEN; n += GROUP_LEN - 1) {
                bw_status status =
                    bw_seat_slice(&seat, k * GROUP_LEN, n, served, sizeof served, &len, &lacking);
                WANT(status == (k <= group ? BW_OK : BW_LACKING));
                if (k > group) continue;
                WANT(bw_cut_slice(good->text, good->len, k * GROUP_LEN, n, slice, sizeof slice,
                                  &used) == BW_OK);
                WANT(len == used && memcmp(served, slice, len) == 0);
            }
    }
    WANT(all == chunks && all_parents == chunks - 1);
    bw_free(&seat);
}

/* What bw_seat_commit stores where others claim, where the slice is of several groups, and what it
 * refuses. */
static void storing(const uint8_t *blob, const uint8_t *root, const holder *good) {
    static uint8_t slice[8 * GROUP_LEN], out[8 * GROUP_LEN];
    uint64_t committed = 7, parents = 7, at = 7, mask = 0, len = 0;
    size_t used = 0;
    bw_node lacking;
    bw_seat seat = BW_EMPTY, other = BW_EMPTY;
    WANT(bw_seat_commit(&seat, 0, 1, good->text, good->len, &committed, &parents, &at) ==
         BW_NO_HANDLE);
    WANT(bw_hasher_new(&plain, AS(bw_hasher, seat)) == BW_OK);
    WANT(bw_seat_commit(&seat, 0, 1, good->text, good->len, &committed, &parents, &at) ==
         BW_NO_HANDLE);
    WANT(bw_hasher_finish(AS(bw_hasher, seat), 0, out, BW_HASH_LEN) == BW_OK && committed == 7 &&
         parents == 7 && at == 7);
    WANT(bw_seat_new(&plain, root, 0, 1024, &seat) == BW_OK &&
         bw_seat_split(&seat, &other) == BW_OK);
    WANT(bw_cut_slice(good->text, good->len, 0, GROUP_LEN, slice, sizeof slice, &used) == BW_OK);
    /* No length is recorded yet, or it is another one: nothing is stored. */
    WANT(bw_seat_commit(&seat, 0, GROUP_LEN, slice, used, &committed, &parents, &at) ==
             BW_OTHER_LENGTH &&
         committed == 7 && parents == 7 && at == 7);
    WANT(bw_seat_read(&seat, 0, out, 1, &at) == BW_MISSING);
    WANT(bw_cut_slice(good->text, good->len, UINT64_MAX, 1, out, sizeof out, &used) == BW_OK &&
         bw_seat_settle(&seat, out, used, &at) == BW_OK);
    WANT(bw_cut_slice(good->text, good->len, 0, GROUP_LEN, slice, sizeof slice, &used) == BW_OK);
    slice[0] ^= 1;
    WANT(bw_check(of(&plain, root, 0, GROUP_LEN), slice, used, &at) == BW_OK);
    WANT(bw_seat_commit(&seat, 0, GROUP_LEN, slice, used, &committed, &parents, &at) ==
             BW_OTHER_LENGTH &&
         committed == 7 && parents == 7);
    slice[0] ^= 1;
    slice[used - 1] ^= 1;
    WANT(bw_seat_commit(&seat, 0, GROUP_LEN, slice, used, &committed, &parents, &at) ==
             BW_MISMATCH &&
         at == used - 1024);
    slice[used - 1] ^= 1;
    WANT(bw_seat_commit(&seat, 0, GROUP_LEN, slice, used - 1, &committed, &parents, &at) ==
             BW_SHORT &&
         at == used - 1024);
    WANT(bw_seat_commit(&seat, 0, GROUP_LEN - 1024, slice, used, &committed, &parents, &at) ==
             BW_TRAILING &&
         at == used - 1024);
    WANT(committed == 7 && parents == 7 && bw_seat_read(&seat, 0, out, 1, &at) == BW_MISSING);
    WANT(bw_seat_take(&seat, 0, UINT64_MAX, &mask) == BW_OK && mask == UINT64_MAX &&
         bw_seat_give(&seat, 0, UINT64_MAX, &mask) == BW_OK);
    /* What another seat claims stays its own; what the seat itself claims is stored. */
    WANT(bw_seat_take(&other, 0, 32, &mask) == BW_OK && mask == 32 &&
         bw_seat_take(&seat, 0, 8, &mask) == BW_OK && mask == 8);
    WANT(bw_seat_commit(&seat, 0, GROUP_LEN, slice, used, &committed, &parents, &at) == BW_OK &&
         committed == 63 && parents == 67);
    WANT(bw_seat_slice(&seat, 0, GROUP_LEN, out, sizeof out, &used, &lacking) == BW_LACKING &&
         lacking.kind == 1 && lacking.number == 5);
    WANT(bw_seat_give(&seat, 0, UINT64_MAX, &mask) == BW_OK && mask == 0);
    WANT(bw_cut_slice(good->text, good->len, 5 * 1024, 1, slice, sizeof slice, &used) == BW_OK);
    WANT(bw_seat_commit(&other, 5 * 1024, 1, slice, used, &committed, &parents, &at) == BW_OK &&
         committed == 1 && parents == 0);
    WANT(bw_seat_give(&other, 0, UINT64_MAX, &mask) == BW_OK && mask == 0);
    WANT(bw_seat_slice(&seat, 0, GROUP_LEN, out, sizeof out, &used, &lacking) == BW_OK);
    /* A slice that begins and ends within groups, then all that is left, and an encoding in which
     * nothing is new. */
    WANT(bw_cut_slice(good->text, good->len, 100000, 300000, slice, sizeof slice, &used) == BW_OK);
    WANT(bw_seat_commit(&seat, 100000, 300000, slice, used, &committed, &parents, &at) == BW_OK &&
         committed == 390 - 97 + 1);
    WANT(bw_seat_slice(&other, 100000, 300000, out, sizeof out, &used, &lacking) == BW_OK &&
         memcmp(out, slice, used) == 0);
    WANT(bw_seat_commit(&other, 0, UINT64_MAX, good->text, good->len, &committed, &parents, &at) ==
             BW_OK &&
         committed == 977 - 64 - 294);
    WANT(bw_seat_commit(&other, 0, UINT64_MAX, good->text, good->len, &committed, &parents, &at) ==
             BW_OK &&
         committed == 0 && parents == 0);
    uint8_t *found = room(BLOB_LEN);
    WANT(bw_seat_finish(&seat, found, BLOB_LEN, &used) == BW_OK && used == BLOB_LEN &&
         memcmp(found, blob, BLOB_LEN) == 0);
    WANT(bw_seat_length(&seat, &len) == BW_OK && len == BLOB_LEN);
    free(found);
    bw_free(&seat);
    bw_free(&other);
}

/* A store of a part of a blob counts chunks, groups and positions from its first chunk. No length
 * is recorded in it, and what needs one says so. */
static void parts(const uint8_t *blob, const uint8_t *root, const holder *good) {
    static uint8_t slice[8 * GROUP_LEN], out[8 * GROUP_LEN];
    const bw_mode unknown = {7, {0}};
    const uint64_t first = 200, chunks = 100, most = UINT64_C(1) << 54;
    bw_seat seat = BW_EMPTY, other = BW_EMPTY, bare = BW_EMPTY;
    bw_outline outline = BW_EMPTY;
    bw_report report = {0, 0, 0, 0, 0, 0, 0};
    bw_node lacking = {7, 7};
    uint64_t mask = 7, committed = 7, parents = 7, at = 7, len = 7;
    uint8_t hash[BW_HASH_LEN];
    size_t used = 0, count = 7, outboard_len = 0;
    uint8_t *found = room(BLOB_LEN), *outboard = room((size_t)bw_outboard_len(BLOB_LEN));
    WANT(bw_seat_new(&unknown, root, most + 1, 0, &seat) == BW_NO_MODE && seat.at == NULL);
    WANT(bw_seat_new(&plain, root, first, 0, &seat) == BW_CAPACITY &&
         bw_seat_new(&plain, root, first, 65537, &seat) == BW_CAPACITY);
    WANT(bw_seat_new(&plain, root, most + 1, 1, &seat) == BW_CAPACITY &&
         bw_seat_new(&plain, root, UINT64_MAX, 1, &seat) == BW_CAPACITY && seat.at == NULL);
    WANT(bw_seat_new(&plain, root, most, 65536, &seat) == BW_OK && seat.at != NULL);
    WANT(bw_seat_new(&plain, root, first, 0, &seat) == BW_CAPACITY && seat.at == NULL);
    WANT(bw_seat_commit_chunks(&seat, 0, UINT64_MAX, good->text, good->len, &committed, &at) ==
         BW_NO_HANDLE);
    WANT(bw_hasher_new(&plain, AS(bw_hasher, seat)) == BW_OK);
    WANT(bw_seat_commit_chunks(&seat, 0, UINT64_MAX, good->text, good->len, &committed, &at) ==
         BW_NO_HANDLE);
    WANT(bw_hasher_finish(AS(bw_hasher, seat), 0, hash, BW_HASH_LEN) == BW_OK && committed == 7 &&
         at == 7);
    WANT(bw_seat_new(&plain, root, first, (uint32_t)chunks, &seat) == BW_OK);
    WANT(bw_seat_take(&seat, 0, UINT64_MAX, &mask) == BW_OK && mask == UINT64_MAX &&
         bw_seat_take(&seat, 2, 1, &mask) == BW_NO_GROUP);
    WANT(bw_seat_take(&seat, 1, UINT64_MAX, &mask) == BW_OK && mask == (UINT64_C(1) << 36) - 1);
    /* The store's group 0 are chunks 200 to 263 of the blob: their slice is asked by the blob's
     * bytes. */
    uint64_t start = first * BW_CHUNK_LEN;
    WANT(bw_cut_slice(good->text, good->len, start, GROUP_LEN, slice, sizeof slice, &used) ==
         BW_OK);
    slice[used - 1] ^= 1;
    WANT(bw_seat_commit_chunks(&seat, start, GROUP_LEN, slice, used, &committed, &at) ==
             BW_MISMATCH &&
         at == used - 1024);
    slice[used - 1] ^= 1;
    WANT(bw_seat_commit_chunks(&seat, start, GROUP_LEN, slice, used - 1, &committed, &at) ==
             BW_SHORT &&
         at == used - 1024);
    WANT(bw_seat_commit_chunks(&seat, start, GROUP_LEN - 1024, slice, used, &committed, &at) ==
             BW_TRAILING &&
         at == used - 1024);
    WANT(bw_seat_commit_chunks(&seat, start, GROUP_LEN, NULL, 0, &committed, &at) == BW_SHORT &&
         at == 0 && committed == 7);
    WANT(bw_seat_read(&seat, 0, out, 1, &at) == BW_MISSING && at == 0);
    /* Of a damaged slice, or of one that ends early, the chunks before the fault are stored. */
    WANT(bw_seat_commit_some(&bare, start, GROUP_LEN, slice, used, &committed, &at) ==
         BW_NO_HANDLE);
    WANT(bw_seat_new(&plain, root, first, (uint32_t)chunks, &bare) == BW_OK);
    WANT(bw_seat_commit_some(&bare, start, GROUP_LEN, slice, 70, &committed, &at) == BW_SHORT &&
         at == 8 && committed == 0);
    WANT(bw_seat_commit_some(&bare, start, GROUP_LEN, slice, used - 1024 * 60, &committed, &at) ==
             BW_SHORT &&
         committed > 0 && committed < 10);
    mask = committed;
    WANT(bw_seat_read(&bare, 0, out, mask * 1024, &at) == BW_OK &&
         memcmp(out, blob + start, mask * 1024) == 0);
    WANT(bw_seat_read(&bare, 0, out, mask * 1024 + 1, &at) == BW_MISSING && at == mask * 1024);
    slice[used - 1] ^= 1;
    WANT(bw_seat_commit_some(&bare, start, GROUP_LEN, slice, used, &committed, &at) ==
             BW_MISMATCH &&
         at == used - 1024 && committed == 63 - mask);
    slice[used - 1] ^= 1;
    WANT(bw_seat_commit_some(&bare, start, GROUP_LEN - 1024, slice, used, &committed, &at) ==
             BW_TRAILING &&
         at == used - 1024 && committed == 0);
    WANT(bw_seat_commit_some(&bare, start, GROUP_LEN, slice, used, &committed, &at) == BW_OK &&
         committed == 1);
    WANT(bw_seat_read(&bare, 0, out, GROUP_LEN, &at) == BW_OK &&
         memcmp(out, blob + start, GROUP_LEN) == 0);
    committed = 7;
    WANT(bw_seat_commit_chunks(&seat, start, GROUP_LEN, slice, used, &committed, &at) == BW_OK &&
         committed == 64);
    WANT(bw_seat_held(&seat, 0, &mask) == BW_OK && mask == UINT64_MAX &&
         bw_seat_held(&seat, 1, &mask) == BW_OK && mask == 0);
    WANT(bw_seat_held(&seat, 2, &mask) == BW_NO_GROUP);
    WANT(bw_seat_read(&seat, 5, out, GROUP_LEN - 5, &at) == BW_OK &&
         memcmp(out, blob + start + 5, GROUP_LEN - 5) == 0);
    WANT(bw_seat_read(&seat, 5, out, GROUP_LEN, &at) == BW_MISSING && at == GROUP_LEN);
    /* By offsets of the blob: what the part has is read, and nothing before it or after it. */
    memset(out, 7, GROUP_LEN);
    WANT(bw_seat_read_at(&seat, start + 5, out, GROUP_LEN - 5, &at) == BW_OK &&
         memcmp(out, blob + start + 5, GROUP_LEN - 5) == 0);
    WANT(bw_seat_read_at(&seat, start + 5, out, GROUP_LEN, &at) == BW_MISSING &&
         at == start + GROUP_LEN && out[GROUP_LEN - 5] == 7);
    const uint64_t end = start + chunks * 1024;
    out[0] = 7;
    WANT(bw_seat_read_at(&seat, start - 1, out, 2, &at) == BW_MISSING && at == start - 1 &&
         bw_seat_read_at(&seat, end, out, 1, &at) == BW_MISSING && at == end && out[0] == 7);
    WANT(bw_seat_read_at(&seat, UINT64_MAX, out, 1, &at) == BW_MISSING && at == UINT64_MAX &&
         bw_seat_read_at(&seat, 0, NULL, 0, &at) == BW_MISSING && at == 0 &&
         bw_seat_read_at(&seat, start, NULL, 0, &at) == BW_OK);
    /* What another seat claims stays its own, and of a slice that goes beyond the part on both
     * sides the rest is left out. */
    WANT(bw_seat_split(&seat, &other) == BW_OK && bw_seat_give(&seat, 1, 6, &mask) == BW_OK &&
         mask == 6);
    WANT(bw_seat_take(&other, 1, 2, &mask) == BW_OK && mask == 2);
    WANT(bw_cut_slice(good->text, good->len, 150 * 1024, 200 * 1024, slice, sizeof slice, &used) ==
         BW_OK);
    WANT(bw_seat_commit_chunks(&seat, 150 * 1024, 200 * 1024, slice, used, &committed, &at) ==
             BW_OK &&
         committed == 35);
    WANT(bw_seat_give(&seat, 1, UINT64_MAX, &mask) == BW_OK && mask == 0);
    WANT(bw_seat_commit_chunks(&seat, 150 * 1024, 200 * 1024, slice, used, &committed, &at) ==
             BW_OK &&
         committed == 0);
    WANT(bw_seat_commit_chunks(&other, 150 * 1024, 200 * 1024, slice, used, &committed, &at) ==
             BW_OK &&
         committed == 1);
    WANT(bw_seat_read(&seat, 0, out, chunks * 1024, &at) == BW_OK &&
         memcmp(out, blob + start, chunks * 1024) == 0);
    WANT(bw_seat_read(&seat, 0, out, chunks * 1024 + 1, &at) == BW_MISSING && at == chunks * 1024);
    /* All that a length is asked for. */
    WANT(bw_outboard(&plain, blob, BLOB_LEN, outboard, (size_t)bw_outboard_len(BLOB_LEN),
                     &outboard_len, hash) == BW_OK);
    WANT(bw_outline_new(&plain, root, outboard, outboard_len, &outline, &at) == BW_OK);
    committed = parents = 7;
    WANT(bw_seat_commit(&seat, 150 * 1024, 200 * 1024, slice, used, &committed, &parents, &at) ==
         BW_OTHER_LENGTH);
    WANT(bw_outline_commit(&outline, &seat, CHUNKS(first, 1), blob + start, 1024, &committed,
                           &parents, &at) == BW_OTHER_LENGTH);
    WANT(committed == 7 && parents == 7);
    /* Chunks alone are stored beside an outline too: of those that begin before the part and end
     * after it, the part's. */
    WANT(bw_seat_new(&plain, root, first, (uint32_t)chunks, &bare) == BW_OK);
    memcpy(found, blob + 150 * 1024, 200 * 1024);
    found[7] ^= 1;
    WANT(bw_outline_commit_chunks(&outline, &bare, CHUNKS(150, 200), found, 200 * 1024, &committed,
                                  &at) == BW_MISMATCH &&
         at == 0 && committed == 7);
    WANT(bw_outline_commit_chunks(&outline, &bare, CHUNKS(150, 200), blob + 150 * 1024, 200 * 1024,
                                  &committed, &at) == BW_OK &&
         committed == chunks);
    WANT(bw_seat_read(&bare, 0, out, chunks * 1024, &at) == BW_OK &&
         memcmp(out, blob + start, chunks * 1024) == 0);
    WANT(bw_outline_commit_chunks(&outline, &bare, CHUNKS(first, 1), blob + start, 1024, &committed,
                                  &at) == BW_OK &&
         committed == 0);
    WANT(bw_cut_slice(good->text, good->len, UINT64_MAX, 1, slice, sizeof slice, &used) == BW_OK &&
         bw_seat_settle(&seat, slice, used, &at) == BW_TOO_LARGE);
    WANT(bw_decode(of(&plain, root, UINT64_MAX, 1), slice, used, NULL, 0, &count, &len, &at) ==
             BW_OK &&
         count == 0 && len == BLOB_LEN);
    count = len = 7;
    WANT(bw_seat_length(&seat, &len) == BW_UNFINISHED && len == 7);
    WANT(bw_seat_finish(&seat, out, sizeof out, &count) == BW_UNFINISHED && count == 7);
    WANT(bw_seat_slice(&seat, 0, 1, out, sizeof out, &count, &lacking) == BW_NO_LENGTH &&
         count == 7 && lacking.kind == 7);
    WANT(bw_seat_gather(&seat, 0, 1, good->text, good->len, &report) == BW_OK &&
         report.committed == 0 && report.too_large == 1);
    WANT(bw_seat_salvage(&seat, good->text, good->len, &report) == BW_OK && report.committed == 0 &&
         report.parents == 0);
    /* Seats of parts from other chunks on can be told apart. */
    WANT(bw_seat_join(&seat, &other) == BW_OK && other.at == NULL);
    WANT(bw_seat_new(&plain, root, first + 1, (uint32_t)chunks, &other) == BW_OK);
    WANT(bw_seat_join(&seat, &other) == BW_OTHER_STORE && other.at != NULL);
    /* Parts in which the blob ends, and behind its end. */
    WANT(bw_seat_new(&plain, root, 970, 64, &seat) == BW_OK);
    WANT(bw_cut_slice(good->text, good->len, 970 * 1024, GROUP_LEN, slice, sizeof slice, &used) ==
         BW_OK);
    WANT(bw_seat_commit_chunks(&seat, 970 * 1024, GROUP_LEN, slice, used, &committed, &at) ==
             BW_OK &&
         committed == 7);
    WANT(bw_seat_read(&seat, 0, out, GROUP_LEN, &at) == BW_MISSING && at == BLOB_LEN - 970 * 1024 &&
         memcmp(out, blob + 970 * 1024, (size_t)at) == 0);
    WANT(bw_seat_new(&plain, root, 977, 64, &seat) == BW_OK);
    WANT(bw_seat_commit_chunks(&seat, 970 * 1024, GROUP_LEN, slice, used, &committed, &at) ==
             BW_OK &&
         committed == 0);
    /* Parts one after another are the blob. */
    for (uint64_t from = 0; from < 977; from += 150) {
        uint64_t n = from + 150 < 977 ? 150 : 977 - from;
        size_t bytes = (size_t)((from + n) * 1024 < BLOB_LEN ? n * 1024 : BLOB_LEN - from * 1024);
        WANT(bw_seat_new(&plain, root, from, (uint32_t)n, &seat) == BW_OK);
        WANT(bw_cut_slice(good->text, good->len, from * 1024, n * 1024, slice, sizeof slice,
                          &used) == BW_OK);
        WANT(bw_seat_commit_chunks(&seat, from * 1024, n * 1024, slice, used, &committed, &at) ==
                 BW_OK &&
             committed == n);
        WANT(bw_seat_read(&seat, 0, found + from * 1024, bytes, &at) == BW_OK);
    }
    WANT(memcmp(found, blob, BLOB_LEN) == 0);
    /* Where the blob has no room there, no length is recorded either. */
    WANT(bw_cut_slice(good->text, good->len, UINT64_MAX, 1, slice, sizeof slice, &used) == BW_OK);
    WANT(bw_seat_new(&plain, root, 0, 976, &seat) == BW_OK &&
         bw_seat_settle(&seat, slice, used, &at) == BW_TOO_LARGE);
    WANT(bw_seat_commit_chunks(&seat, 0, UINT64_MAX, good->text, good->len, &committed, &at) ==
             BW_OK &&
         committed == 976);
    WANT(bw_seat_new(&plain, root, 0, 977, &seat) == BW_OK &&
         bw_seat_settle(&seat, slice, used, &at) == BW_OK);
    WANT(bw_seat_commit_chunks(&seat, 0, UINT64_MAX, good->text, good->len, &committed, &at) ==
             BW_OK &&
         committed == 977);
    WANT(bw_seat_slice(&seat, 0, 1, out, sizeof out, &count, &lacking) == BW_LACKING &&
         lacking.kind == 0 && lacking.number == 512);
    WANT(bw_seat_commit(&seat, 0, UINT64_MAX, good->text, good->len, &committed, &parents, &at) ==
             BW_OK &&
         committed == 0 && parents == 976);
    WANT(bw_seat_finish(&seat, found, BLOB_LEN, &count) == BW_OK && count == BLOB_LEN &&
         memcmp(found, blob, BLOB_LEN) == 0);
    bw_free(&seat);
    bw_free(&other);
    bw_free(&bare);
    bw_free(&outline);
    free(found);
    free(outboard);
}

static bw_mode mode_of(const row *it) {
    bw_mode mode = {it->kind, {0}};
    memcpy(mode.key, ROW_KEY, sizeof mode.key);
    if (it->kind == 2)
        WANT(bw_mode_derive((const uint8_t *)ROW_CONTEXT, sizeof ROW_CONTEXT - 1, &mode) == BW_OK &&
             mode.kind == BW_MODE_DERIVE_KEY);
    return mode;
}

/* Each row in one piece and in two, as hash and as output. */
static void rows(void) {
    static uint8_t bytes[ROWS_MAX_LEN];
    for (size_t i = 0; i < sizeof bytes; i++) bytes[i] = (uint8_t)(i % 251);
    for (size_t k = 0; k < sizeof rows_of_b3sum / sizeof *rows_of_b3sum; k++) {
        const row *it = &rows_of_b3sum[k];
        uint8_t out[ROW_OUT_LEN], part[7];
        bw_mode mode = mode_of(it);
        WANT(bw_hash(&mode, bytes, it->len, 0, out, sizeof out) == BW_OK);
        WANT(memcmp(out, it->out, sizeof out) == 0);
        WANT(bw_hash(&mode, bytes, it->len, 61, part, sizeof part) == BW_OK &&
             memcmp(part, it->out + 61, sizeof part) == 0);
        bw_hasher hasher = BW_EMPTY;
        WANT(bw_hasher_new(&mode, &hasher) == BW_OK);
        WANT(bw_hasher_update(&hasher, bytes, it->len / 3) == BW_OK);
        WANT(bw_hasher_update(&hasher, bytes + it->len / 3, it->len - it->len / 3) == BW_OK);
        WANT(bw_hasher_finish(&hasher, 61, part, sizeof part) == BW_OK &&
             memcmp(part, it->out + 61, sizeof part) == 0);
        WANT(bw_hasher_finish(&hasher, 0, out, BW_HASH_LEN) == BW_OK &&
             memcmp(out, it->out, BW_HASH_LEN) == 0);
        bw_free(&hasher);
    }
}

/* A hasher and its copy go on apart: to one row's length, and to that of the next row of the same
 * mode. */
static void copies(const uint8_t *root) {
    static uint8_t bytes[ROWS_MAX_LEN];
    bw_hasher hasher = BW_EMPTY, copy = BW_EMPTY;
    for (size_t i = 0; i < sizeof bytes; i++) bytes[i] = (uint8_t)(i % 251);
    WANT(bw_hasher_copy(&hasher, &copy) == BW_NO_HANDLE && copy.at == NULL);
    for (size_t k = 0; k + 3 < sizeof rows_of_b3sum / sizeof *rows_of_b3sum; k++) {
        const row *near = &rows_of_b3sum[k], *far = near + 3;
        size_t both = near->len - near->len / 9;
        uint8_t out[ROW_OUT_LEN];
        bw_mode mode = mode_of(near);
        WANT(far->kind == near->kind && far->len > near->len);
        WANT(bw_hasher_new(&mode, &hasher) == BW_OK &&
             bw_hasher_update(&hasher, bytes, both) == BW_OK);
        WANT(bw_hasher_copy(&hasher, &copy) == BW_OK && copy.at != NULL && copy.at != hasher.at);
        WANT(bw_hasher_update(&copy, bytes + both, far->len - both) == BW_OK);
        WANT(bw_hasher_update(&hasher, bytes + both, near->len - both) == BW_OK);
        WANT(bw_hasher_finish(&hasher, 0, out, sizeof out) == BW_OK &&
             memcmp(out, near->out, sizeof out) == 0);
        bw_free(&hasher);
        WANT(bw_hasher_finish(&copy, 0, out, sizeof out) == BW_OK &&
             memcmp(out, far->out, sizeof out) == 0);
    }
    /* What isn't a hasher has no copy and stays, and what the copy's handle owned is freed. */
    bw_seat seat = BW_EMPTY;
    uint64_t mask = 7;
    WANT(bw_seat_new(&plain, root, 0, 1, &seat) == BW_OK &&
         bw_hasher_copy(AS(bw_hasher, seat), &copy) == BW_NO_HANDLE && copy.at == NULL);
    WANT(bw_seat_held(&seat, 0, &mask) == BW_OK && mask == 0);
    WANT(bw_hasher_new(&plain, &hasher) == BW_OK &&
         bw_hasher_copy(&hasher, AS(bw_hasher, seat)) == BW_OK &&
         bw_seat_held(&seat, 0, &mask) == BW_NO_HANDLE);
    bw_free(&hasher);
    bw_free(&seat);
}

static void hashes(const uint8_t *blob, size_t len, const uint8_t *root) {
    uint8_t out[BW_HASH_LEN];
    static const uint8_t of_nothing[BW_HASH_LEN] = {0xaf, 0x13, 0x49, 0xb9, 0xf5, 0xf9, 0xa1, 0xa6,
                                                    0xa0, 0x40, 0x4d, 0xea, 0x36, 0xdc, 0xc9, 0x49,
                                                    0x9b, 0xcb, 0x25, 0xc9, 0xad, 0xc1, 0x12, 0xb7,
                                                    0xcc, 0x9a, 0x93, 0xca, 0xe4, 0x1f, 0x32, 0x62};
    WANT(bw_hash(&plain, blob, 0, 0, out, sizeof out) == BW_OK &&
         memcmp(out, of_nothing, sizeof out) == 0);
    WANT(bw_hash(&plain, blob, len, 0, out, sizeof out) == BW_OK &&
         memcmp(out, root, sizeof out) == 0);

    bw_hasher hasher = BW_EMPTY;
    WANT(bw_hasher_update(&hasher, blob, 1) == BW_NO_HANDLE);
    WANT(bw_hasher_finish(&hasher, 0, out, BW_HASH_LEN) == BW_NO_HANDLE);
    WANT(bw_hasher_new(&plain, &hasher) == BW_OK);
    for (size_t at = 0, step = 1; at < len; at += step, step = step * 3 % 8191 + 1) {
        if (step > len - at) step = len - at;
        WANT(bw_hasher_update(&hasher, blob + at, step) == BW_OK);
    }
    memset(out, 0, sizeof out);
    WANT(bw_hasher_finish(&hasher, 0, out, BW_HASH_LEN) == BW_OK);
    WANT(memcmp(out, root, sizeof out) == 0);
    uint64_t mask = 0;
    WANT(bw_seat_take(AS(bw_seat, hasher), 0, 1, &mask) == BW_NO_HANDLE);
    WANT(bw_hash(&plain, blob, 1, UINT64_MAX, out, 1) == BW_PAST_OUTPUT);
    WANT(bw_hasher_finish(&hasher, UINT64_MAX, out, 1) == BW_PAST_OUTPUT);
    WANT(bw_hash(&plain, blob, 1, UINT64_MAX, out, 0) == BW_OK);
    WANT(strcmp(bw_strerror(BW_OK), "success") == 0 && strcmp(bw_strerror(1), bw_strerror(2)) == 0);
    WANT(bw_hasher_new(&plain, &hasher) == BW_OK);
    WANT(bw_hasher_finish(&hasher, 0, out, BW_HASH_LEN) == BW_OK);
    WANT(memcmp(out, of_nothing, sizeof out) == 0);
    bw_free(&hasher);
    bw_free(&hasher);
    WANT(hasher.at == NULL && bw_hasher_new(&plain, &hasher) == BW_OK && hasher.at != NULL);
    bw_free(&hasher);
    WANT(hasher.at == NULL);
    bw_free(NULL);
}

/* NULL beside a length of 0 is as good as any address: here each call that takes bytes or a buffer
 * has none, of a blob of no bytes. */
static void nothings(void) {
    const uint8_t claim[8] = {0};
    uint8_t hash[BW_HASH_LEN], also[BW_HASH_LEN], one[8] = {0};
    bw_hasher hasher = BW_EMPTY;
    bw_feed feed = BW_EMPTY;
    bw_seat seat = BW_EMPTY;
    bw_outline outline = BW_EMPTY;
    bw_input ours, theirs;
    bw_node lacking;
    bw_mode mode;
    bw_report report = {0, 0, 0, 0, 0, 0, 0};
    uint64_t at = 7, total = 7, committed = 7, parents = 7;
    size_t used = 7, other = 8, taken = 7, filled = 7;
    WANT(bw_hash(&plain, NULL, 0, 0, NULL, 0) == BW_OK &&
         bw_hash(&plain, NULL, 0, 0, hash, 32) == BW_OK &&
         bw_hash(&plain, one, 0, 0, also, 32) == BW_OK);
    WANT(memcmp(hash, also, sizeof hash) == 0);
    WANT(bw_mode_derive(NULL, 0, &mode) == BW_OK && bw_hash(&mode, NULL, 0, 0, also, 32) == BW_OK &&
         bw_hasher_new(&mode, &hasher) == BW_OK && bw_hasher_update(&hasher, NULL, 0) == BW_OK);
    WANT(bw_hasher_finish(&hasher, 0, NULL, 0) == BW_OK &&
         bw_hasher_finish(&hasher, 0, hash, BW_HASH_LEN) == BW_OK &&
         memcmp(hash, also, sizeof hash) == 0);
    WANT(bw_hash(&plain, NULL, 0, 0, hash, 32) == BW_OK);
    WANT(bw_encode(&plain, NULL, 0, NULL, 0, &used, also) == BW_ROOM && used == 8 &&
         bw_encode(&plain, NULL, 0, one, 8, &used, also) == BW_OK);
    WANT(bw_outboard(&plain, NULL, 0, NULL, 0, &used, also) == BW_ROOM && used == 8 &&
         bw_outboard(&plain, NULL, 0, one, 8, &used, also) == BW_OK);
    WANT(memcmp(hash, also, sizeof hash) == 0 && memcmp(one, claim, sizeof claim) == 0);
    WANT(bw_cut_slice(NULL, 0, 0, 1, NULL, 0, &used) ==
             bw_cut_slice(one, 0, 0, 1, also, 0, &other) &&
         used == other);
    WANT(bw_slice_ranges(5000, 0, 1, NULL, 0, &used) == BW_ROOM &&
         bw_outboard_ranges(5000, 0, 1, NULL, 0, &used) == BW_ROOM);
    WANT(bw_check(of(&plain, hash, 0, 1), NULL, 0, &at) == BW_SHORT && at == 0);
    WANT(bw_audit(of(&plain, hash, 0, 1), claim, 8, NULL, 0, &at, &ours, &theirs) == BW_OK);
    WANT(bw_decode(of(&plain, hash, 0, 1), claim, 8, NULL, 0, &used, &total, &at) == BW_OK &&
         used == 0 && total == 0);
    WANT(bw_feed_new(of(&plain, hash, 0, UINT64_MAX), &feed) == BW_OK &&
         bw_feed_finish(&feed, NULL, 0, &at) == BW_SHORT);
    WANT(bw_feed_take(&feed, NULL, 0, NULL, 0, &taken, &filled, &at) == BW_OK && taken == 0 &&
         filled == 0);
    WANT(bw_feed_take(&feed, claim, 8, also, 8, &taken, &filled, &at) == BW_OK &&
         bw_feed_finish(&feed, NULL, 0, &at) == BW_OK);
    WANT(bw_seat_new(&plain, hash, 0, 1, &seat) == BW_OK &&
         bw_seat_commit_chunks(&seat, 0, 1, NULL, 0, &committed, &at) == BW_SHORT);
    WANT(bw_seat_settle(&seat, NULL, 0, &at) == BW_SHORT &&
         bw_seat_settle(&seat, claim, 8, &at) == BW_OK);
    WANT(bw_seat_commit(&seat, 0, 1, NULL, 0, &committed, &parents, &at) == BW_SHORT);
    WANT(bw_seat_gather(&seat, 0, 1, NULL, 0, &report) == BW_OK &&
         bw_seat_salvage(&seat, NULL, 0, &report) == BW_OK);
    WANT(bw_outline_new(&plain, hash, NULL, 0, &outline, &at) == BW_SHORT &&
         bw_outline_new(&plain, hash, claim, 8, &outline, &at) == BW_OK);
    WANT(bw_outline_check(&outline, CHUNKS(0, 1), NULL, 0, &at) == BW_OK &&
         bw_outline_slice(&outline, CHUNKS(0, 1), NULL, 0, NULL, 0, &used, &at) == BW_ROOM &&
         used == 8);
    WANT(bw_outline_slice(&outline, CHUNKS(0, 1), NULL, 0, one, 8, &used, &at) == BW_OK &&
         used == 8 && memcmp(one, claim, sizeof claim) == 0);
    WANT(bw_outline_commit(&outline, &seat, CHUNKS(0, 1), NULL, 0, &committed, &parents, &at) ==
             BW_OK &&
         committed == 1 && parents == 0);
    WANT(bw_seat_commit(&seat, 0, 1, claim, 8, &committed, &parents, &at) == BW_OK &&
         bw_seat_read(&seat, 0, NULL, 0, &at) == BW_OK);
    WANT(bw_seat_slice(&seat, 0, 1, NULL, 0, &used, &lacking) == BW_ROOM && used == 8 &&
         bw_seat_finish(&seat, NULL, 0, &used) == BW_OK && used == 0);
    bw_free(&hasher);
    bw_free(&feed);
    bw_free(&seat);
    bw_free(&outline);
}

/* A mode with a derived key is as good as any other, and one of an unknown kind is refused by each
 * call that can. */
static void modes(const uint8_t *blob) {
    static uint8_t text[9000], out[9000];
    bw_mode mode = {7, {5}}, derived = plain;
    bw_feed feed = BW_EMPTY;
    bw_seat seat = BW_EMPTY;
    bw_hasher hasher = BW_EMPTY;
    bw_input ours, theirs;
    uint8_t root[BW_HASH_LEN], hash[BW_HASH_LEN];
    uint64_t at = 7, total = 7, committed = 7, parents = 7;
    size_t used = 7, len = 7, taken = 7, filled = 7;
    WANT(bw_mode_derive((const uint8_t *)"\xc0\x80", 2, &mode) == BW_NOT_UTF8 && mode.kind == 7 &&
         mode.key[0] == 5);
    WANT(bw_mode_derive((const uint8_t *)"a use", 5, &derived) == BW_OK && derived.kind == 2);
    /* The key is the hash of the context, and no secret: without it the same mode isn't made of
     * another context. */
    WANT(bw_mode_derive((const uint8_t *)"a use", 4, &mode) == BW_OK &&
         memcmp(mode.key, derived.key, sizeof mode.key) != 0);
    WANT(bw_encode(&derived, blob, 5000, text, sizeof text, &used, root) == BW_OK);
    WANT(bw_hash(&derived, blob, 5000, 0, hash, sizeof hash) == BW_OK &&
         memcmp(hash, root, sizeof hash) == 0);
    WANT(bw_check(of(&derived, root, 0, UINT64_MAX), text, used, &at) == BW_OK &&
         bw_check(of(&mode, root, 0, UINT64_MAX), text, used, &at) == BW_MISMATCH && at == 8);
    WANT(bw_decode(of(&derived, root, 0, UINT64_MAX), text, used, out, sizeof out, &len, &total,
                   &at) == BW_OK &&
         len == 5000 && memcmp(out, blob, len) == 0);
    WANT(bw_feed_new(of(&derived, root, 0, UINT64_MAX), &feed) == BW_OK &&
         bw_seat_new(&derived, root, 0, 5, &seat) == BW_OK);
    WANT(bw_feed_take(&feed, text, 72, out, 72, &taken, &filled, &at) == BW_OK && taken == 72 &&
         filled == 0);
    WANT(bw_seat_settle(&seat, text, used, &at) == BW_MISMATCH);
    WANT(bw_cut_slice(text, used, UINT64_MAX, 1, out, sizeof out, &len) == BW_OK &&
         bw_seat_settle(&seat, out, len, &at) == BW_OK);
    WANT(bw_seat_commit(&seat, 0, UINT64_MAX, text, used, &committed, &parents, &at) == BW_OK &&
         committed == 5 && parents == 4);
    WANT(bw_seat_finish(&seat, out, sizeof out, &len) == BW_OK && len == 5000 &&
         memcmp(out, blob, len) == 0);
    WANT(bw_hasher_new(&derived, &hasher) == BW_OK);

    static const uint32_t kinds[] = {3, 7, UINT32_MAX};
    for (size_t k = 0; k < sizeof kinds / sizeof *kinds; k++) {
        const bw_mode unknown = {kinds[k], {0}};
        WANT(bw_encode(&plain, blob, 5000, text, sizeof text, &used, root) == BW_OK);
        at = 7;
        total = 7;
        len = 7;
        out[0] = 9;
        hash[0] = 9;
        WANT(bw_hash(&unknown, blob, 5000, 0, out, 1) == BW_NO_MODE &&
             bw_hash(&unknown, blob, 5000, UINT64_MAX, out, 1) == BW_NO_MODE);
        WANT(bw_encode(&unknown, blob, 5000, out, sizeof out, &len, hash) == BW_NO_MODE &&
             bw_encode(&unknown, blob, 5000, out, 1, &len, hash) == BW_NO_MODE);
        WANT(bw_outboard(&unknown, blob, 5000, out, sizeof out, &len, hash) == BW_NO_MODE &&
             bw_outboard(&unknown, blob, 5000, out, 1, &len, hash) == BW_NO_MODE);
        WANT(bw_parents(&unknown, 1, blob, 5000, out, sizeof out, &len) == BW_NO_MODE);
        WANT(bw_check(of(&unknown, root, 0, UINT64_MAX), text, used, &at) == BW_NO_MODE &&
             bw_check(of(&unknown, root, 0, 1), text, 7, &at) == BW_NO_MODE);
        WANT(bw_decode(of(&unknown, root, 0, UINT64_MAX), text, used, out, 1, &len, &total, &at) ==
             BW_NO_MODE);
        WANT(bw_audit(of(&unknown, root, 0, UINT64_MAX), text, used, blob, 5000, &at, &ours,
                      &theirs) == BW_NO_MODE);
        WANT(at == 7 && total == 7 && len == 7 && out[0] == 9 && hash[0] == 9);
        /* A handle that was to be filled is empty. */
        WANT(bw_hasher_new(&plain, &hasher) == BW_OK &&
             bw_hasher_new(&unknown, &hasher) == BW_NO_MODE && hasher.at == NULL);
        WANT(bw_feed_new(of(&plain, root, 0, 1), &feed) == BW_OK &&
             bw_feed_new(of(&unknown, root, 0, 1), &feed) == BW_NO_MODE && feed.at == NULL);
        WANT(bw_seat_new(&plain, root, 0, 5, &seat) == BW_OK &&
             bw_seat_new(&unknown, root, 0, 0, &seat) == BW_NO_MODE && seat.at == NULL);
    }
    WANT(strcmp(bw_strerror(BW_NO_MODE), bw_strerror(1)) != 0);
    bw_free(&feed);
    bw_free(&seat);
    bw_free(&hasher);
}

static void texts(const uint8_t *blob, const uint8_t *root, holder *good) {
    uint8_t again[BW_HASH_LEN];
    uint64_t at = 7;
    size_t used = 0, outboard_len = (size_t)bw_outboard_len(BLOB_LEN);
    uint8_t *outboard = room(outboard_len);
    WANT(bw_encode(&plain, blob, BLOB_LEN, outboard, outboard_len, &used, again) == BW_ROOM);
    WANT(bw_outboard(&plain, blob, BLOB_LEN, outboard, outboard_len, &used, again) == BW_OK);
    WANT(used == outboard_len && memcmp(again, root, sizeof again) == 0);
    /* The parents of a subtree, as the outboard encoding has them, are made of its plain bytes. */
    static bw_placed nodes[BW_NODES_MAX(400)];
    uint8_t *below = room(outboard_len);
    size_t count = 0;
    WANT(bw_slice_nodes(BLOB_LEN, 700 * 1024, UINT64_MAX, nodes, BW_NODES_MAX(400), &count) ==
         BW_OK);
    for (size_t k = 0; k < count; k++) {
        const bw_placed *it = &nodes[k];
        if (it->kind != BW_NODE_PARENT) continue;
        const size_t len = 64 * (size_t)((it->len + 1023) / 1024 - 1);
        WANT(bw_parents(&plain, it->start / 1024, blob + it->start, (size_t)it->len, below,
                        outboard_len, &used) == BW_OK &&
             used == len && memcmp(below, outboard + it->outboard_at, len) == 0);
        WANT(bw_parents(&plain, it->start / 1024, blob + it->start, (size_t)it->len, below, len - 1,
                        &used) == BW_ROOM &&
             used == len);
        WANT(bw_parents(&plain, it->start / 1024 + 1, blob, (size_t)it->len, below, 0, &used) ==
             BW_NO_SUBTREE);
    }
    used = 7;
    WANT(bw_parents(&plain, UINT64_MAX >> 10, blob, 1024, below, 0, &used) == BW_TOO_LONG &&
         bw_parents(&plain, UINT64_MAX >> 10, blob, 1025, below, 0, &used) == BW_TOO_LONG &&
         used == 7);
    WANT(bw_parents(&plain, UINT64_MAX >> 10, blob, 1023, NULL, 0, &used) == BW_OK && used == 0);
    free(below);
    free(outboard);

    WANT(bw_check(of(&plain, root, 0, UINT64_MAX), good->text, good->len, &at) == BW_OK);
    WANT(bw_check(of(&plain, root, 0, UINT64_MAX), good->text, good->len - 1, &at) == BW_SHORT);
    uint8_t *longer = room(good->len + 1);
    memcpy(longer, good->text, good->len);
    longer[good->len] = 0;
    WANT(bw_check(of(&plain, root, 0, UINT64_MAX), longer, good->len + 1, &at) == BW_TRAILING &&
         at == good->len);
    free(longer);

    bw_input ours, theirs;
    size_t cut_len = (size_t)bw_slice_len(4096, 0, UINT64_MAX) + 64 * 64;
    uint8_t *cut = room(cut_len);
    WANT(bw_cut_slice(good->text, good->len, 5000, 3000, cut, cut_len, &used) == BW_OK);
    WANT(bw_check(of(&plain, root, 5000, 3000), cut, used, &at) == BW_OK);
    WANT(bw_audit(of(&plain, root, 5000, 3000), cut, used, blob, BLOB_LEN, &at, &ours, &theirs) ==
         BW_OK);
    WANT(bw_audit(of(&plain, root, 5000, 3000), cut, used, blob, BLOB_LEN - 1, &at, &ours,
                  &theirs) == BW_OTHER_BLOB);
    cut[used - 1] ^= 128;
    WANT(bw_check(of(&plain, root, 5000, 3000), cut, used, &at) == BW_MISMATCH && at < used);
    WANT(bw_audit(of(&plain, root, 5000, 3000), cut, used, blob, BLOB_LEN, &at, &ours, &theirs) ==
         BW_MISMATCH);
    free(cut);
}

/* Hands a check in pieces a text, `step` bytes at a time and more where the next node has more, and
 * then its rest. Answers what the check says, and puts what it hands out to `out`, and how many
 * bytes that is to *filled. */
static bw_status poured(bw_feed *feed, const uint8_t *text, size_t len, size_t step, uint8_t *out,
                        size_t *filled, uint64_t *at) {
    uint8_t *part = room(len + 9);
    size_t done = 0, window = step, taken = 7, gained = 7;
    *filled = 0;
    for (;;) {
        size_t count = window < len - done ? window : len - done;
        memset(part, 9, count + 9);
        bw_status status =
            bw_feed_take(feed, text + done, count, part, count + 5, &taken, &gained, at);
        for (size_t i = status == BW_OK ? gained : 0; i < count + 9; i++)
            WANT(part[i] == (i < count ? 0 : 9));
        if (status != BW_OK) {
            WANT(status == BW_MISMATCH);
            free(part);
            return status;
        }
        WANT(taken <= count && gained <= taken);
        memcpy(out + *filled, part, gained);
        *filled += gained;
        done += taken;
        if (taken != 0) window = step;
        else if (count == len - done) break;
        else window *= 2;
    }
    free(part);
    return bw_feed_finish(feed, text + done, len - done, at);
}

/* A slice that is poured in has the status and the place that it has at once, in steps of several
 * sizes: as it is, cut short, with something after it, and with a byte changed. What is handed out
 * is the blob's. */
static void pours(const bw_mode *mode, const uint8_t *root, uint64_t start, uint64_t slice_len,
                  uint8_t *text, size_t len, const uint8_t *blob, size_t count) {
    static const size_t steps[] = {1, 64, 1000, 1088, 8704, 70000};
    bw_feed feed = BW_EMPTY;
    uint8_t *out = room(len), *longer = room(len + 1);
    size_t filled = 0;
    uint64_t at, wanted;
    for (size_t k = 0; k < sizeof steps / sizeof *steps; k++) {
        at = 7;
        WANT(bw_feed_new(of(mode, root, start, slice_len), &feed) == BW_OK);
        WANT(poured(&feed, text, len, steps[k], out, &filled, &at) == BW_OK && at == 7);
        WANT(filled == count && memcmp(out, blob, count) == 0);
        for (size_t cut = 0; cut < len; cut += cut < 9 ? 1 : len / 16 + 1) {
            WANT(bw_check(of(mode, root, start, slice_len), text, cut, &wanted) == BW_SHORT);
            WANT(bw_feed_new(of(mode, root, start, slice_len), &feed) == BW_OK);
            WANT(poured(&feed, text, cut, steps[k], out, &filled, &at) == BW_SHORT && at == wanted);
            WANT(filled <= count && memcmp(out, blob, filled) == 0);
            if (cut < 8) continue; /* another length may have another first node */
            text[cut] ^= 32;
            WANT(bw_check(of(mode, root, start, slice_len), text, len, &wanted) == BW_MISMATCH);
            WANT(bw_feed_new(of(mode, root, start, slice_len), &feed) == BW_OK);
            WANT(poured(&feed, text, len, steps[k], out, &filled, &at) == BW_MISMATCH &&
                 at == wanted);
            WANT(filled <= count && memcmp(out, blob, filled) == 0);
            text[cut] ^= 32;
        }
        memcpy(longer, text, len);
        longer[len] = 0;
        WANT(bw_feed_new(of(mode, root, start, slice_len), &feed) == BW_OK);
        WANT(poured(&feed, longer, len + 1, steps[k], out, &filled, &at) == BW_TRAILING &&
             at == len);
        WANT(filled == count && memcmp(out, blob, count) == 0);
    }
    bw_free(&feed);
    free(out);
    free(longer);
}

static void pouring(const uint8_t *blob, const uint8_t *root, const holder *good) {
    static uint8_t text[90000], out[90000];
    bw_feed feed = BW_EMPTY;
    uint8_t hash[BW_HASH_LEN];
    size_t used = 0, taken = 7, filled = 7;
    uint64_t at = 7;
    WANT(bw_feed_finish(&feed, text, 0, &at) == BW_NO_HANDLE &&
         bw_feed_take(&feed, text, 8, out, 8, &taken, &filled, &at) == BW_NO_HANDLE);
    WANT(bw_feed_take(&feed, text, 8, out, 7, &taken, &filled, &at) == BW_ROOM);
    WANT(bw_hasher_new(&plain, AS(bw_hasher, feed)) == BW_OK);
    WANT(bw_feed_take(&feed, text, 8, out, 8, &taken, &filled, &at) == BW_NO_HANDLE);
    WANT(bw_feed_finish(&feed, text, 0, &at) == BW_NO_HANDLE);
    WANT(bw_hasher_finish(AS(bw_hasher, feed), 0, hash, BW_HASH_LEN) == BW_OK && taken == 7 &&
         filled == 7 && at == 7);
    /* A new check frees the hasher, and is none. */
    WANT(bw_feed_new(of(&plain, root, 0, UINT64_MAX), &feed) == BW_OK &&
         bw_hasher_finish(AS(bw_hasher, feed), 0, hash, BW_HASH_LEN) == BW_NO_HANDLE);
    WANT(bw_hasher_update(AS(bw_hasher, feed), blob, 1) == BW_NO_HANDLE &&
         bw_seat_length(AS(bw_seat, feed), &at) == BW_NO_HANDLE && at == 7);
    static const struct {
        uint64_t start, len, from, to;
    } slices[] = {
        {5000, 3000, 4096, 8192},
        {0, 1, 0, 1024},
        {70000, 70000, 69632, 140288},
        {UINT64_MAX, 1, 976 * 1024, BLOB_LEN},
        {999000, UINT64_MAX, 975 * 1024, BLOB_LEN},
    };
    for (size_t k = 0; k < sizeof slices / sizeof *slices; k++) {
        WANT(bw_cut_slice(good->text, good->len, slices[k].start, slices[k].len, text, sizeof text,
                          &used) == BW_OK);
        pours(&plain, root, slices[k].start, slices[k].len, text, used, blob + slices[k].from,
              (size_t)(slices[k].to - slices[k].from));
    }
    const bw_mode keyed = {1, {3}};
    static const size_t lens[] = {0, 1, 64, 1024, 1025, 3136, 8192, 9000, 40000};
    for (size_t k = 0; k < sizeof lens / sizeof *lens; k++) {
        WANT(bw_encode(&keyed, blob, lens[k], text, sizeof text, &used, hash) == BW_OK);
        if (lens[k] < 9000) pours(&keyed, hash, 0, UINT64_MAX, text, used, blob, lens[k]);
        WANT(bw_feed_new(of(&keyed, hash, 0, UINT64_MAX), &feed) == BW_OK);
        WANT(poured(&feed, text, used, sizeof text, out, &filled, &at) == BW_OK &&
             filled == lens[k] && memcmp(out, blob, filled) == 0);
        WANT(bw_feed_take(&feed, text, 8, out, 8, &taken, &filled, &at) == BW_OK && taken == 0 &&
             filled == 0);
        WANT(bw_feed_finish(&feed, text, 0, &at) == BW_OK &&
             bw_feed_finish(&feed, text, 1, &at) == BW_TRAILING && at == used);
        WANT(bw_feed_new(of(&plain, hash, 0, UINT64_MAX), &feed) == BW_OK);
        if (lens[k] > 1024)
            WANT(poured(&feed, text, used, sizeof text, out, &filled, &at) == BW_MISMATCH &&
                 at == 8);
    }
    /* Node by node, it tells the chunks apart from the parents: also a last chunk of 64 bytes, as
     * many as a parent has. */
    WANT(bw_encode(&plain, blob, 3136, text, sizeof text, &used, hash) == BW_OK &&
         bw_feed_new(of(&plain, hash, 0, UINT64_MAX), &feed) == BW_OK);
    static const size_t sizes[] = {8, 64, 64, 1024, 1024, 64, 1024, 64},
                        chunks[] = {0, 0, 0, 1, 1, 0, 1, 1};
    for (size_t k = 0, done = 0; k < 8; done += sizes[k], k++) {
        size_t size = sizes[k];
        WANT(bw_feed_take(&feed, text + done, size - 1, out, size, &taken, &filled, &at) == BW_OK &&
             taken == 0 && filled == 0);
        WANT(bw_feed_finish(&feed, text + done, size - 1, &at) == BW_SHORT && at == done &&
             bw_feed_finish(&feed, text + done, size, &at) == BW_OTHER_SIZE);
        WANT(bw_feed_take(&feed, text + done, size, out, size, &taken, &filled, &at) == BW_OK &&
             taken == size && filled == (chunks[k] ? size : 0));
    }
    /* Whole groups of eight chunks, and a fault among them. */
    uint8_t *big = room(BLOB_LEN + 1), *many = room(good->len);
    WANT(bw_feed_new(of(&plain, root, 0, UINT64_MAX), &feed) == BW_OK);
    WANT(poured(&feed, good->text, good->len, 65536, many, &filled, &at) == BW_OK &&
         filled == BLOB_LEN && memcmp(many, blob, filled) == 0);
    memcpy(many, good->text, good->len);
    many[good->len / 2] ^= 1;
    uint64_t wanted = 0;
    WANT(bw_check(of(&plain, root, 0, UINT64_MAX), many, good->len, &wanted) == BW_MISMATCH);
    WANT(bw_feed_new(of(&plain, root, 0, UINT64_MAX), &feed) == BW_OK);
    WANT(poured(&feed, many, good->len, 65536, big, &filled, &at) == BW_MISMATCH && at == wanted &&
         memcmp(big, blob, filled) == 0);
    free(big);
    free(many);
    bw_free(&feed);
}

/* What an accepted encoding is decoded to: the range's bytes, and the length where it is certified.
 * Nothing is written for any other. */
static void decoding(const uint8_t *blob, const uint8_t *root, const holder *good) {
    static uint8_t text[90000], out[90000], hash[BW_HASH_LEN];
    static const struct {
        uint64_t start, len, count;
        int has_last;
    } slices[] = {
        {5000, 3000, 3000, 0},
        {0, 1, 1, 0},
        {1023, 2, 2, 0},
        {70000, 70000, 70000, 0},
        {0, 0, 0, 0},
        {UINT64_MAX, 1, 0, 1},
        {BLOB_LEN, 5, 0, 1},
        {BLOB_LEN - 5, UINT64_MAX, 5, 1},
        {BLOB_LEN - 3000, 2999, 2999, 1},
        {BLOB_LEN - 3000, 100, 100, 0},
        {999000, 1003, 1003, 1},
    };
    size_t used = 7, need = 0, len = 0;
    uint64_t total = 7, at = 7;
    for (size_t k = 0; k < sizeof slices / sizeof *slices; k++) {
        uint64_t start = slices[k].start;
        size_t count = (size_t)slices[k].count;
        WANT(bw_cut_slice(good->text, good->len, start, slices[k].len, text, sizeof text, &len) ==
             BW_OK);
        WANT(bw_slice_len(BLOB_LEN, start, slices[k].len) == len);
        memset(out, 9, sizeof out);
        if (count != 0) {
            used = total = 7;
            WANT(bw_decode(of(&plain, root, start, slices[k].len), text, len, out, count - 1, &need,
                           &total, &at) == BW_ROOM &&
                 need == count && total == 7 && out[0] == 9);
        }
        WANT(bw_decode(of(&plain, root, start, slices[k].len), text, len, out, count, &used, &total,
                       &at) == BW_OK &&
             used == count && at == 7);
        WANT(total == (slices[k].has_last ? BLOB_LEN : UINT64_MAX) &&
             memcmp(out, blob + (count ? start : 0), count) == 0 && out[count] == 9);
        WANT(bw_decode(of(&plain, root, start, slices[k].len), text, len, out, sizeof out, &used,
                       &total, &at) == BW_OK &&
             used == count && out[count] == 9);
        /* Another root, a byte changed, bytes cut off or appended: nothing is written. */
        for (size_t cut = 0; cut < len; cut += cut < 9 ? 1 : len / 16 + 1) {
            memset(out, 9, 100);
            used = total = 7;
            uint64_t wanted = 7;
            bw_status status = bw_check(of(&plain, root, start, slices[k].len), text, cut, &wanted);
            WANT(bw_decode(of(&plain, root, start, slices[k].len), text, cut, out, sizeof out,
                           &used, &total, &at) == status &&
                 status == BW_SHORT && at == wanted);
            if (cut >= 8) {
                text[cut] ^= 1;
                status = bw_check(of(&plain, root, start, slices[k].len), text, len, &wanted);
                WANT(bw_decode(of(&plain, root, start, slices[k].len), text, len, out, sizeof out,
                               &used, &total, &at) == status &&
                     status == BW_MISMATCH && at == wanted);
                text[cut] ^= 1;
            }
            WANT(used == 7 && total == 7);
            for (size_t i = 0; i < 100; i++) WANT(out[i] == 9);
            at = 7;
        }
        text[len] = 0;
        WANT(bw_decode(of(&plain, root, start, slices[k].len), text, len + 1, out, sizeof out,
                       &used, &total, &at) == BW_TRAILING &&
             at == len);
        at = 7;
    }
    const bw_mode keyed = {1, {5}};
    for (size_t n = 0; n < 12000; n += n < 2 ? 1 : 1023) {
        WANT(bw_encode(&keyed, blob, n, text, sizeof text, &len, hash) == BW_OK &&
             bw_slice_len(n, 0, UINT64_MAX) == len);
        WANT(bw_decode(of(&keyed, hash, 0, UINT64_MAX), text, len, out, n, &used, &total, &at) ==
                 BW_OK &&
             used == n && total == n && memcmp(out, blob, n) == 0);
        WANT(bw_decode(of(&plain, hash, 0, UINT64_MAX), text, len, out, n, &used, &total, &at) ==
                 BW_MISMATCH &&
             at == 8);
    }
    /* A length that is claimed and can't be: the room that it asks for is told, and where it is
     * there the check says what is wrong. */
    memset(text, 255, 8);
    WANT(bw_decode(of(&plain, root, 0, UINT64_MAX), text, 8, out, sizeof out, &used, &total, &at) ==
             BW_ROOM &&
         used == SIZE_MAX);
    WANT(bw_decode(of(&plain, root, 0, 10), text, 8, out, sizeof out, &used, &total, &at) ==
             BW_SHORT &&
         at == 8);
    WANT(bw_slice_len(UINT64_MAX, 0, UINT64_MAX) == 0 &&
         bw_slice_len(UINT64_MAX, 5, 1) == 8 + 54 * 64 + 1024);
}

/* The ranges of a slice, one after another, are the slice that is cut out of the encoding; no two
 * touch, and there are as few as that lets be. */
static void ranges(const holder *good) {
    static uint8_t slice[8 * GROUP_LEN];
    bw_range out[BW_RANGES_MAX];
    size_t used = 0, count = 7, again = 7;
    static const uint64_t places[] = {0,      1,      1023,         1024,     65535,
                                      65536,  100000, 499999,       524288,   524289,
                                      999423, 999424, BLOB_LEN - 1, BLOB_LEN, UINT64_MAX};
    static const uint64_t lens[] = {0, 1, 1024, 65536, 300000, UINT64_MAX};
    for (size_t i = 0; i < sizeof places / sizeof *places; i++)
        for (size_t k = 0; k < sizeof lens / sizeof *lens; k++) {
            bw_status status =
                bw_cut_slice(good->text, good->len, places[i], lens[k], slice, sizeof slice, &used);
            WANT(bw_slice_ranges(BLOB_LEN, places[i], lens[k], out, BW_RANGES_MAX, &count) ==
                     BW_OK &&
                 count >= 1 && out[0].at == 0 && out[0].len >= 8);
            size_t done = 0;
            for (size_t j = 0; j < count; j++) {
                WANT(out[j].at <= good->len && out[j].len <= good->len - out[j].at &&
                     (j == 0 || out[j].at > out[j - 1].at + out[j - 1].len));
                WANT(status != BW_OK ||
                     (out[j].len <= used - done &&
                      memcmp(slice + done, good->text + out[j].at, out[j].len) == 0));
                done += (size_t)out[j].len;
            }
            WANT(done == used); /* also where it didn't fit */
            WANT(bw_slice_ranges(BLOB_LEN, places[i], lens[k], out, count - 1, &again) == BW_ROOM &&
                 again == 7);
        }
    WANT(bw_slice_ranges(0, 5, 5, out, 1, &count) == BW_OK && count == 1 && out[0].at == 0 &&
         out[0].len == 8);
    WANT(bw_slice_ranges(BLOB_LEN, 0, UINT64_MAX, out, 1, &count) == BW_OK && count == 1 &&
         out[0].len == good->len);
    /* 2^53 chunks: on the way to the last one a left part is passed by below each of 53 parents. */
    WANT(bw_slice_ranges(UINT64_C(1) << 63, UINT64_MAX, 1, out, BW_RANGES_MAX, &count) == BW_OK &&
         count == 54 && out[53].len == 1024);
    WANT(bw_slice_ranges(UINT64_MAX, 0, 1, out, BW_RANGES_MAX, &again) == BW_TOO_LONG &&
         again == 7);
}

/* Two encodings that are damaged in the same group, at other chunks: group by group the blob isn't
 * gathered, chunk by chunk it is. */
static void salvaging(const uint8_t *blob, const uint8_t *root, holder *good) {
    bw_seat seat = BW_EMPTY;
    bw_report report = {1, 2, 3, 4, 5, 6, 0};
    size_t used = 0;
    uint8_t *found = room(BLOB_LEN), *other = room(good->len);
    WANT(bw_seat_salvage(&seat, good->text, good->len, &report) == BW_NO_HANDLE &&
         report.committed == 1 && report.memory == 6);
    WANT(bw_hasher_new(&plain, AS(bw_hasher, seat)) == BW_OK &&
         bw_seat_salvage(&seat, good->text, good->len, &report) == BW_NO_HANDLE);
    memcpy(other, good->text, good->len);
    good->text[300000] ^= 1;
    other[310000] ^= 1;
    report = (bw_report){0, 0, 0, 0, 0, 0, 0};
    WANT(bw_seat_new(&plain, root, 0, 977, &seat) == BW_OK);
    WANT(bw_seat_gather(&seat, 0, 1, good->text, good->len, &report) == BW_OK &&
         bw_seat_gather(&seat, 0, 1, other, good->len, &report) == BW_OK);
    /* Each call asks for the damaged group once, and once more for its parents. */
    WANT(report.committed == 977 - 64 && report.refused == 4 &&
         bw_seat_finish(&seat, found, BLOB_LEN, &used) == BW_UNFINISHED);
    WANT(bw_seat_salvage(&seat, good->text, good->len, &report) == BW_OK &&
         report.committed == 976 && report.refused == 5);
    WANT(bw_seat_salvage(&seat, other, good->len, &report) == BW_OK && report.committed == 977 &&
         report.refused == 5 && report.parents == 976);
    WANT(bw_seat_finish(&seat, found, BLOB_LEN, &used) == BW_OK &&
         memcmp(found, blob, BLOB_LEN) == 0);
    good->text[300000] ^= 1;
    bw_free(&seat);
    free(found);
    free(other);
}

/* A file with a combined encoding, of which byte ranges alone are read: the slice, put together out
 * of them. */
static size_t read_ranges(const holder *file, uint64_t total, uint64_t start, uint64_t len,
                          uint8_t *slice) {
    bw_range ranges[BW_RANGES_MAX];
    size_t count = 0, done = 0;
    WANT(bw_slice_ranges(total, start, len, ranges, BW_RANGES_MAX, &count) == BW_OK);
    for (size_t k = 0; k < count; done += (size_t)ranges[k].len, k++) {
        WANT(ranges[k].at + ranges[k].len <= file->len);
        memcpy(slice + done, file->text + ranges[k].at, (size_t)ranges[k].len);
    }
    return done;
}

/* A blob is gathered from such a file by a program that knows nothing of the tree: the length that
 * its first bytes claim, the slice of the last byte, which certifies it, and then slices of any
 * size. */
static void by_ranges(const uint8_t *blob, const uint8_t *root, const holder *file) {
    static uint8_t slice[8 * GROUP_LEN], served[8 * GROUP_LEN];
    uint64_t total = 0, at = 0, committed = 0, parents = 0, chunks = 0;
    size_t used = 0;
    bw_node lacking;
    bw_seat seat = BW_EMPTY;
    uint8_t *found = room(BLOB_LEN);
    for (int i = 7; i >= 0; i--) total = total << 8 | file->text[i];
    WANT(bw_seat_new(&plain, root, 0, (uint32_t)(total / BW_CHUNK_LEN + 1), &seat) == BW_OK);
    WANT(bw_seat_settle(&seat, slice, read_ranges(file, total, UINT64_MAX, 1, slice), &at) ==
         BW_OK);
    for (uint64_t start = 0; start < total; start += 77777) {
        size_t len = read_ranges(file, total, start, 77777, slice);
        WANT(len == bw_slice_len(total, start, 77777));
        WANT(bw_seat_commit(&seat, start, 77777, slice, len, &committed, &parents, &at) == BW_OK);
        chunks += committed;
        WANT(bw_seat_slice(&seat, start, 77777, served, sizeof served, &used, &lacking) == BW_OK &&
             used == len && memcmp(served, slice, len) == 0);
    }
    WANT(chunks == 977 && bw_seat_finish(&seat, found, BLOB_LEN, &used) == BW_OK && used == total &&
         memcmp(found, blob, used) == 0);
    bw_free(&seat);
    free(found);
}

/* The ranges of an outboard encoding that have a slice's parents, one after another, are the slice
 * without its chunks, none of which has 64 bytes. */
static void outboard_ranges(const uint8_t *blob, const holder *good) {
    static uint8_t slice[4 * GROUP_LEN], parents[4 * GROUP_LEN];
    static bw_placed nodes[BW_NODES_MAX(130)];
    bw_range ranges[BW_RANGES_MAX];
    uint8_t hash[BW_HASH_LEN];
    uint64_t all = (BLOB_LEN + BW_CHUNK_LEN - 1) / BW_CHUNK_LEN;
    size_t used = 7, count = 7, text_len = (size_t)bw_outboard_len(BLOB_LEN);
    uint8_t *text = room(text_len);
    WANT(bw_outboard(&plain, blob, BLOB_LEN, text, text_len, &used, hash) == BW_OK);
    for (uint64_t first = 0; first < all; first += 61)
        for (uint64_t n = 1; n <= 128; n *= 2) {
            uint64_t from = first * BW_CHUNK_LEN + first % 7, len = n * BW_CHUNK_LEN;
            size_t cut_len = 0, taken = 8, kept = 8, sum = 0, number = 0;
            WANT(bw_cut_slice(good->text, good->len, from, len, slice, sizeof slice, &cut_len) ==
                 BW_OK);
            WANT(bw_slice_nodes(BLOB_LEN, from, len, nodes, BW_NODES_MAX(130), &number) == BW_OK);
            memcpy(parents, slice, 8);
            for (size_t k = 0; k < number; taken += nodes[k].size, k++)
                if (nodes[k].kind == BW_NODE_PARENT) {
                    memcpy(parents + kept, slice + taken, 64);
                    kept += 64;
                }
            WANT(taken == cut_len);
            WANT(bw_outboard_ranges(BLOB_LEN, from, len, ranges, BW_RANGES_MAX, &count) == BW_OK &&
                 count >= 1 && ranges[0].at == 0);
            for (size_t k = 0; k < count; sum += (size_t)ranges[k].len, k++) {
                WANT(ranges[k].at + ranges[k].len <= text_len &&
                     (k == 0 || ranges[k].at > ranges[k - 1].at + ranges[k - 1].len));
                WANT(ranges[k].len <= kept - sum &&
                     memcmp(parents + sum, text + ranges[k].at, (size_t)ranges[k].len) == 0);
            }
            WANT(sum == kept);
            size_t again = 7;
            WANT(bw_outboard_ranges(BLOB_LEN, from, len, ranges, count - 1, &again) == BW_ROOM &&
                 again == 7);
        }
    WANT(bw_outboard_ranges(0, 5, 5, ranges, 1, &count) == BW_OK && count == 1 &&
         ranges[0].at == 0 && ranges[0].len == 8);
    WANT(bw_outboard_ranges(BLOB_LEN, 0, UINT64_MAX, ranges, 1, &count) == BW_OK && count == 1 &&
         ranges[0].len == text_len);
    /* On the way to the first chunk of 2^54 no parent is passed by, and on that to the last one a
     * left part below each. */
    WANT(bw_outboard_ranges(UINT64_MAX, 0, 1, ranges, BW_RANGES_MAX, &count) == BW_OK &&
         count == 1 && ranges[0].len == 8 + 54 * 64);
    WANT(bw_outboard_ranges(UINT64_MAX, UINT64_MAX, 1, ranges, BW_RANGES_MAX, &count) == BW_OK &&
         count == 54 && ranges[53].len == 64);
    WANT(bw_outboard_ranges(UINT64_C(1) << 63, UINT64_MAX, 1, ranges, BW_RANGES_MAX, &count) ==
             BW_OK &&
         count == 53 && ranges[52].len == 64);
    free(text);
}

/* The nodes of a slice by a walk of its own, from the definition of the tree: a left part has the
 * most chunks that are a power of two and leave something. */
typedef struct walk {
    bw_placed *out;
    size_t count;
    uint64_t start, end;
} walk;

static uint64_t parents_over(uint64_t len) { return len == 0 ? 0 : (len - 1) / BW_CHUNK_LEN; }

static void walk_tree(walk *to, uint64_t from, uint64_t len, uint64_t combined_at,
                      uint64_t outboard_at) {
    if (from >= to->end || to->start >= from + (len == 0 ? 1 : len)) return;
    if (len <= BW_CHUNK_LEN) {
        to->out[to->count++] = (bw_placed){
            BW_NODE_CHUNK, (uint32_t)len, from / BW_CHUNK_LEN, from, len, combined_at, 0};
        return;
    }
    uint64_t left = BW_CHUNK_LEN;
    while (left < len - left) left *= 2;
    to->out[to->count++] = (bw_placed){
        BW_NODE_PARENT, 64, (from + left) / BW_CHUNK_LEN, from, len, combined_at, outboard_at};
    walk_tree(to, from, left, combined_at + 64, outboard_at + 64);
    walk_tree(to, from + left, len - left, combined_at + 64 + left + 64 * parents_over(left),
              outboard_at + 64 + 64 * parents_over(left));
}

/* Whose the byte is, wherever it is asked for. */
static void node_is(uint64_t total, uint64_t start, uint64_t len, uint64_t at,
                    const bw_placed *wanted) {
    bw_placed it = {7, 7, 7, 7, 7, 7, 7};
    WANT(bw_node_at(total, start, len, at, &it) == BW_OK && memcmp(&it, wanted, sizeof it) == 0);
}

/* The first and the last byte of some nodes, the last one among them, and what is before and after
 * all. */
static void each_byte_is(uint64_t total, uint64_t start, uint64_t len, const bw_placed *nodes,
                         size_t count) {
    const bw_placed claim = {BW_NODE_LENGTH, 8, 0, 0, 0, 0, 0},
                    none = {BW_NODE_NONE, 0, 0, 0, 0, 0, 0};
    uint64_t at = 8;
    node_is(total, start, len, 0, &claim);
    node_is(total, start, len, 7, &claim);
    for (size_t i = 0; i < count; at += nodes[i].size, i++) {
        if (i % (count / 8 + 1) != 0 && i + 1 != count) continue;
        node_is(total, start, len, at, &nodes[i]);
        if (nodes[i].size != 0) node_is(total, start, len, at + nodes[i].size - 1, &nodes[i]);
    }
    if (total != 0) node_is(total, start, len, at, &none);
    node_is(total, start, len, at + 1, &none);
    node_is(total, start, len, UINT64_MAX, &none);
}

static void nodes_are(uint64_t total, uint64_t start, uint64_t len) {
    static bw_placed own[BW_NODES_MAX(1024)], out[BW_NODES_MAX(1024) + 1];
    const bw_placed none = {7, 7, 7, 7, 7, 7, 7};
    uint64_t last = total == 0 ? 0 : total - 1, from = start < last ? start : last,
             to = start + (len == 0 ? 1 : len);
    if (to < start || to > total) to = total;
    if (to <= from) to = from + 1;
    walk by = {own, 0, from, to};
    size_t count = 7, chunks = (size_t)((to - 1) / BW_CHUNK_LEN - from / BW_CHUNK_LEN + 1);
    WANT(chunks <= 1024);
    walk_tree(&by, 0, total, 8, 8);
    WANT(by.count <= (size_t)BW_NODES_MAX(chunks) &&
         by.count - chunks <= (chunks == 1 ? BW_DEPTH_MAX : SIZE_MAX));
    out[by.count - 1] = out[by.count] = none;
    WANT(bw_slice_nodes(total, start, len, out, by.count - 1, &count) == BW_ROOM && count == 7 &&
         memcmp(&out[by.count - 1], &none, sizeof none) == 0);
    WANT(bw_slice_nodes(total, start, len, out, by.count, &count) == BW_OK && count == by.count &&
         memcmp(out, own, count * sizeof *out) == 0);
    WANT(memcmp(&out[count], &none, sizeof none) == 0);
    each_byte_is(total, start, len, own, by.count);
}

/* Those of slices of short blobs, and of long ones up to the longest. */
static void slice_nodes(void) {
    bw_placed nodes[BW_NODES_MAX(2)];
    size_t count = 7;
    for (uint64_t total = 0; total <= 17 * BW_CHUNK_LEN;
         total += total % BW_CHUNK_LEN <= 1 || total % BW_CHUNK_LEN == 1023 ? 1 : 1021)
        for (uint64_t start = 0; start <= total + BW_CHUNK_LEN; start += 512)
            for (uint64_t len = 0; len < total + 2 * BW_CHUNK_LEN; len = 3 * len + 1) {
                nodes_are(total, start, len);
                nodes_are(total, start, UINT64_MAX);
            }
    uint64_t longest = 0;
    for (uint64_t step = UINT64_C(1) << 63; step > 0; step /= 2)
        if (bw_slice_len(longest + step, 0, UINT64_MAX) != 0) longest += step;
    for (int bits = 15; bits <= 64; bits++)
        for (uint64_t less = 0; less < 5000; less = 8 * less + 1) {
            uint64_t total = bits == 64 ? longest - less : (UINT64_C(1) << bits) + 2500 - less;
            static const uint64_t lens[] = {0, 1, 1025, 2048, 65536, 200000};
            for (size_t i = 0; i < sizeof lens / sizeof *lens; i++)
                for (uint64_t part = 0; part <= 8; part++) {
                    uint64_t start = part == 8 ? UINT64_MAX : total / 8 * part / 65536 * 65536;
                    nodes_are(total, start, lens[i]);
                    nodes_are(total, start - BW_CHUNK_LEN, lens[i]);
                }
        }
    /* The deepest: down to the first chunk, and down both sides of the root. */
    WANT(bw_slice_nodes(longest, 0, 1, nodes, BW_NODES_MAX(1), &count) == BW_OK &&
         count == BW_DEPTH_MAX + 1);
    WANT(bw_slice_nodes(longest, (UINT64_C(1) << 63) - 1, 2, nodes, BW_NODES_MAX(2), &count) ==
             BW_OK &&
         count == BW_NODES_MAX(2));
    count = 7;
    WANT(bw_slice_nodes(longest + 1, 0, 1, nodes, BW_NODES_MAX(1), &count) == BW_TOO_LONG &&
         count == 7);
    nodes[0] = nodes[1];
    WANT(bw_node_at(longest + 1, 0, 1, 0, &nodes[0]) == BW_TOO_LONG &&
         bw_node_at(UINT64_MAX, 5, 1, UINT64_MAX, &nodes[0]) == BW_TOO_LONG);
    WANT(memcmp(&nodes[0], &nodes[1], sizeof nodes[0]) == 0);
    WANT(bw_slice_nodes(UINT64_MAX, 0, 1, NULL, 0, &count) == BW_TOO_LONG &&
         bw_slice_nodes(5000, 0, 1, NULL, 0, &count) == BW_ROOM && count == 7);
}

static void by_nodes(const uint8_t *blob, const holder *good) {
    static uint8_t slice[4 * GROUP_LEN], ours[4 * GROUP_LEN];
    static bw_placed nodes[BW_NODES_MAX(256)];
    uint8_t hash[BW_HASH_LEN];
    size_t used = 0, count = 7, outboard_len = (size_t)bw_outboard_len(BLOB_LEN);
    uint8_t *outboard = room(outboard_len);
    WANT(bw_outboard(&plain, blob, BLOB_LEN, outboard, outboard_len, &used, hash) == BW_OK);
    for (uint64_t start = 0; start < BLOB_LEN; start += 12345)
        for (uint64_t len = 1; len <= 130000; len = 3 * len + 5) {
            size_t done = 8;
            WANT(bw_cut_slice(good->text, good->len, start, len, slice, sizeof slice, &used) ==
                 BW_OK);
            WANT(bw_slice_nodes(BLOB_LEN, start, len, nodes, BW_NODES_MAX(256), &count) == BW_OK);
            memcpy(ours, slice, 8);
            for (size_t i = 0; i < count; done += nodes[i].size, i++) {
                const bw_placed *it = &nodes[i];
                WANT(done + it->size <= used && it->combined_at + it->size <= good->len);
                WANT(memcmp(slice + done, good->text + it->combined_at, it->size) == 0);
                if (it->kind == BW_NODE_CHUNK) memcpy(ours + done, blob + it->start, it->size);
                else memcpy(ours + done, outboard + it->outboard_at, it->size);
            }
            WANT(done == used && memcmp(slice, ours, used) == 0);
        }
    free(outboard);
}

/* An outline: its bytes are copied, plain chunks are checked beside it, and made the slices that
 * the blob has. */
static void outlining(const uint8_t *blob, const uint8_t *root, const holder *good) {
    static uint8_t slice[4 * GROUP_LEN], cut[4 * GROUP_LEN];
    const bw_mode keyed = {1, {7}};
    bw_outline outline = BW_EMPTY, other = BW_EMPTY;
    uint8_t hash[BW_HASH_LEN];
    uint64_t at = 7, len = 7, wanted = 7;
    size_t used = 7, cut_len = 0, text_len = (size_t)bw_outboard_len(BLOB_LEN),
           all = (BLOB_LEN + BW_CHUNK_LEN - 1) / BW_CHUNK_LEN;
    uint8_t *text = room(text_len + 1);
    WANT(bw_outboard(&plain, blob, BLOB_LEN, text, text_len, &used, hash) == BW_OK &&
         used == text_len);
    text[text_len] = 0;
    /* Handles that have none. */
    for (int k = 0; k < 2; k++) {
        used = 7;
        WANT(bw_outline_length(&outline, &len) == BW_NO_HANDLE && len == 7);
        WANT(bw_outline_check(&outline, CHUNKS(0, 1), blob, 1024, &at) == BW_NO_HANDLE &&
             bw_outline_check(&outline, CHUNKS(0, 0), blob, 0, &at) == BW_NO_HANDLE && at == 7);
        WANT(bw_outline_slice(&outline, CHUNKS(0, 1), blob, 1024, slice, sizeof slice, &used,
                              &at) == BW_NO_HANDLE &&
             used == 7);
        WANT(bw_outline_share(&outline, &other) == BW_NO_HANDLE && other.at == NULL);
        if (k == 0) WANT(bw_hasher_new(&plain, AS(bw_hasher, outline)) == BW_OK);
    }
    WANT(bw_hasher_finish(AS(bw_hasher, outline), 0, hash, BW_HASH_LEN) == BW_OK);
    /* What isn't accepted leaves an empty handle, and so does a mode of an unknown kind. */
    const bw_mode unknown = {3, {0}};
    WANT(bw_outline_new(&unknown, root, text, text_len, &outline, &at) == BW_NO_MODE &&
         outline.at == NULL && at == 7);
    WANT(bw_outline_new(&plain, root, text, text_len - 1, &outline, &at) == BW_SHORT &&
         at == text_len - 64 && outline.at == NULL);
    WANT(bw_outline_new(&plain, root, text, text_len + 1, &outline, &at) == BW_TRAILING &&
         at == text_len && outline.at == NULL);
    WANT(bw_outline_new(&keyed, root, text, text_len, &outline, &at) == BW_MISMATCH && at == 8);
    text[500] ^= 1;
    WANT(bw_outline_new(&plain, root, text, text_len, &outline, &at) == BW_MISMATCH && at == 456 &&
         outline.at == NULL);
    text[500] ^= 1;
    at = 7;
    WANT(bw_outline_new(&plain, root, text, text_len, &outline, &at) == BW_OK && at == 7);
    /* It keeps a copy. */
    memset(text, 0, text_len);
    WANT(bw_outline_length(&outline, &len) == BW_OK && len == BLOB_LEN);
    WANT(bw_outline_share(&outline, &other) == BW_OK && bw_outline_length(&other, &len) == BW_OK &&
         len == BLOB_LEN);
    WANT(bw_outboard(&plain, blob, BLOB_LEN, text, text_len, &used, hash) == BW_OK);
    static const uint64_t firsts[] = {0, 1, 5, 63, 64, 500, 960, 975, 976};
    static const uint64_t counts[] = {1, 2, 7, 64, 100};
    for (size_t i = 0; i < sizeof firsts / sizeof *firsts; i++)
        for (size_t k = 0; k < sizeof counts / sizeof *counts; k++) {
            uint64_t first = firsts[i], n = counts[k], from = first * BW_CHUNK_LEN,
                     end = from + n * BW_CHUNK_LEN;
            if (first + n > all) {
                WANT(bw_outline_check(&outline, CHUNKS(first, n), blob, 0, &at) == BW_NO_CHUNKS &&
                     at == 7);
                WANT(bw_outline_slice(&outline, CHUNKS(first, n), blob, 0, slice, sizeof slice,
                                      &used, &at) == BW_NO_CHUNKS);
                continue;
            }
            size_t bytes = (size_t)((end < BLOB_LEN ? end : BLOB_LEN) - from);
            uint8_t *part = room(bytes + 1);
            memcpy(part, blob + from, bytes);
            part[bytes] = 0;
            WANT(bw_outline_check(&outline, CHUNKS(first, n), part, bytes, &at) == BW_OK &&
                 bw_outline_check(&other, CHUNKS(first, n), part, bytes, &at) == BW_OK && at == 7);
            WANT(bw_cut_slice(good->text, good->len, from, n * BW_CHUNK_LEN, cut, sizeof cut,
                              &cut_len) == BW_OK);
            memset(slice, 9, sizeof slice);
            WANT(bw_outline_slice(&outline, CHUNKS(first, n), part, bytes, slice, cut_len - 1,
                                  &used, &at) == BW_ROOM &&
                 used == cut_len && slice[0] == 9);
            WANT(bw_outline_slice(&outline, CHUNKS(first, n), part, bytes, slice, cut_len, &used,
                                  &at) == BW_OK &&
                 used == cut_len);
            WANT(memcmp(slice, cut, cut_len) == 0 && slice[cut_len] == 9 &&
                 used == bw_slice_len(BLOB_LEN, from, n * BW_CHUNK_LEN));
            /* One byte fewer or more, or a false one. */
            for (int way = 0; way < 3; way++) {
                size_t given = way == 0 ? bytes - 1 : way == 1 ? bytes + 1 : bytes;
                if (way == 2) part[bytes / 2] ^= 1;
                bw_status status = way == 0 ? BW_SHORT : way == 1 ? BW_TRAILING : BW_MISMATCH;
                wanted = way == 0   ? (bytes - 1) / 1024 * 1024
                         : way == 1 ? bytes
                                    : bytes / 2 / 1024 * 1024;
                WANT(bw_outline_check(&outline, CHUNKS(first, n), part, given, &at) == status &&
                     at == wanted);
                used = 7;
                WANT(bw_outline_slice(&other, CHUNKS(first, n), part, given, slice, 0, &used,
                                      &at) == status &&
                     at == wanted && used == 7);
            }
            at = 7;
            free(part);
        }
    WANT(bw_outline_check(&outline, CHUNKS(0, 0), blob, 0, &at) == BW_NO_CHUNKS &&
         bw_outline_check(&outline, CHUNKS(UINT64_MAX, UINT64_MAX), blob, 0, &at) == BW_NO_CHUNKS);
    /* The last handle frees it. */
    bw_free(&outline);
    WANT(bw_outline_check(&other, CHUNKS(0, all), blob, BLOB_LEN, &at) == BW_OK);
    bw_free(&other);
    /* A blob of at most one chunk has no parent: any such outboard encoding is accepted, and the
     * chunk decides. */
    for (size_t n = 0; n < 2; n++) {
        WANT(bw_outboard(&keyed, blob, n, text, text_len, &used, hash) == BW_OK && used == 8);
        WANT(bw_outline_new(&keyed, hash, text, 8, &outline, &at) == BW_OK &&
             bw_outline_length(&outline, &len) == BW_OK && len == n);
        WANT(bw_outline_check(&outline, CHUNKS(0, 1), blob, n, &at) == BW_OK &&
             bw_outline_check(&outline, CHUNKS(0, 1), blob, n + 1, &at) == BW_TRAILING);
        WANT(bw_outline_slice(&outline, CHUNKS(0, 1), blob, n, slice, 100, &used, &at) == BW_OK &&
             used == 8 + n && memcmp(slice, text, 8) == 0);
        WANT(bw_outline_new(&plain, hash, text, 8, &outline, &at) == BW_OK &&
             bw_outline_check(&outline, CHUNKS(0, 1), blob, n, &at) == BW_MISMATCH);
        at = 7;
    }
    bw_free(&outline);
    free(text);
}

/* A blob is gathered from a plain file beside its outboard encoding, in any order. The store tells
 * which chunks it holds, and serves slices on the way. */
static void beside(const uint8_t *blob, const uint8_t *root) {
    static uint8_t slice[4 * GROUP_LEN], served[4 * GROUP_LEN];
    const bw_mode keyed = {1, {7}};
    bw_seat seat = BW_EMPTY;
    bw_outline outline = BW_EMPTY, alien = BW_EMPTY;
    bw_node lacking;
    uint8_t hash[BW_HASH_LEN];
    uint64_t at = 7, committed = 7, parents = 7, mask = 7,
             all = (BLOB_LEN + BW_CHUNK_LEN - 1) / BW_CHUNK_LEN, stored = 0, stored_parents = 0;
    size_t used = 0, text_len = (size_t)bw_outboard_len(BLOB_LEN);
    uint8_t *text = room(text_len), *found = room(BLOB_LEN), *shorter = room(text_len);
    WANT(bw_outboard(&plain, blob, BLOB_LEN, text, text_len, &used, hash) == BW_OK);
    WANT(bw_seat_new(&plain, root, 0, (uint32_t)all, &seat) == BW_OK);
    WANT(bw_outline_commit(&outline, &seat, CHUNKS(0, 1), blob, 1024, &committed, &parents, &at) ==
         BW_NO_HANDLE);
    WANT(bw_outline_commit(AS(bw_outline, seat), AS(bw_seat, outline), CHUNKS(0, 1), blob, 1024,
                           &committed, &parents, &at) == BW_NO_HANDLE);
    WANT(bw_hasher_new(&plain, AS(bw_hasher, alien)) == BW_OK &&
         bw_outline_commit(&alien, &seat, CHUNKS(0, 1), blob, 1024, &committed, &parents, &at) ==
             BW_NO_HANDLE);
    WANT(bw_outline_new(&plain, root, text, text_len, &outline, &at) == BW_OK);
    WANT(bw_outline_commit(&outline, AS(bw_seat, alien), CHUNKS(0, 1), blob, 1024, &committed,
                           &parents, &at) == BW_NO_HANDLE &&
         bw_hasher_finish(AS(bw_hasher, alien), 0, hash, BW_HASH_LEN) == BW_OK);
    WANT(bw_seat_held(AS(bw_seat, alien), 0, &mask) == BW_NO_HANDLE &&
         bw_seat_held(AS(bw_seat, outline), 0, &mask) == BW_NO_HANDLE && mask == 7);
    WANT(bw_seat_held(&seat, 16, &mask) == BW_NO_GROUP &&
         bw_seat_held(&seat, UINT32_MAX, &mask) == BW_NO_GROUP && mask == 7);
    WANT(bw_seat_held(&seat, 15, &mask) == BW_OK && mask == 0);
    WANT(committed == 7 && parents == 7 && at == 7);
    /* An outline of another mode or root, and of another length. */
    WANT(bw_outboard(&keyed, blob, BLOB_LEN, shorter, text_len, &used, hash) == BW_OK &&
         bw_outline_new(&keyed, hash, shorter, used, &alien, &at) == BW_OK);
    WANT(bw_outline_commit(&alien, &seat, CHUNKS(0, 0), blob, 0, &committed, &parents, &at) ==
         BW_OTHER_ROOT);
    WANT(bw_outboard(&plain, blob, 5000, shorter, text_len, &used, hash) == BW_OK &&
         bw_outline_new(&plain, hash, shorter, used, &alien, &at) == BW_OK);
    WANT(bw_outline_commit(&alien, &seat, CHUNKS(0, 1), blob, 1024, &committed, &parents, &at) ==
         BW_OTHER_ROOT);
    WANT(bw_outline_commit_chunks(&alien, &seat, CHUNKS(0, 0), blob, 0, &committed, &at) ==
         BW_OTHER_ROOT);
    WANT(bw_outline_commit_chunks(&outline, &seat, CHUNKS(all, 1), blob, 0, &committed, &at) ==
         BW_NO_CHUNKS);
    WANT(bw_outline_commit_chunks(&outline, AS(bw_seat, alien), CHUNKS(0, 1), blob, 1024,
                                  &committed, &at) == BW_NO_HANDLE);
    WANT(bw_outline_commit(&outline, &seat, CHUNKS(0, 1), blob, 1024, &committed, &parents, &at) ==
         BW_OTHER_LENGTH);
    WANT(committed == 7 && parents == 7 && bw_seat_held(&seat, 0, &mask) == BW_OK && mask == 0);
    /* The last chunk beside the outline settles the length. */
    uint64_t last = all - 1;
    WANT(bw_outline_slice(&outline, CHUNKS(last, 1), blob + last * BW_CHUNK_LEN,
                          BLOB_LEN - last * BW_CHUNK_LEN, slice, sizeof slice, &used,
                          &at) == BW_OK);
    WANT(bw_seat_settle(&seat, slice, used, &at) == BW_OK);
    WANT(bw_outline_commit(&outline, &seat, CHUNKS(0, 0), blob, 0, &committed, &parents, &at) ==
         BW_NO_CHUNKS);
    WANT(bw_outline_commit(&outline, &seat, CHUNKS(0, 2), blob, 2047, &committed, &parents, &at) ==
             BW_SHORT &&
         at == 1024);
    WANT(bw_outline_commit(&outline, &seat, CHUNKS(0, 2), blob, 2049, &committed, &parents, &at) ==
             BW_TRAILING &&
         at == 2048);
    WANT(bw_outline_commit(&outline, &seat, CHUNKS(1, 2), blob, 2048, &committed, &parents, &at) ==
             BW_MISMATCH &&
         at == 0);
    WANT(committed == 7 && parents == 7);
    WANT(bw_outline_commit(&outline, &seat, CHUNKS(3, 2), blob + 3072, 2048, &committed, &parents,
                           &at) == BW_OK &&
         committed == 2);
    WANT(64 * parents == bw_slice_len(BLOB_LEN, 3072, 2048) - 8 - 2048);
    WANT(bw_seat_held(&seat, 0, &mask) == BW_OK && mask == 24);
    WANT(bw_seat_take(&seat, 0, UINT64_MAX, &mask) == BW_OK && mask == ~UINT64_C(24) &&
         bw_seat_held(&seat, 0, &mask) == BW_OK && mask == 24);
    WANT(bw_seat_give(&seat, 0, UINT64_MAX, &mask) == BW_OK && mask == ~UINT64_C(24));
    stored = committed;
    stored_parents = parents;
    for (uint64_t k = 0, first = 0; k < all; k += 50, first = k * 7 % all) {
        uint64_t n = first + 57 < all ? 57 : all - first, from = first * BW_CHUNK_LEN,
                 end = (first + n) * BW_CHUNK_LEN;
        size_t bytes = (size_t)((end < BLOB_LEN ? end : BLOB_LEN) - from);
        WANT(bw_outline_commit(&outline, &seat, CHUNKS(first, n), blob + from, bytes, &committed,
                               &parents, &at) == BW_OK &&
             committed <= n);
        stored += committed;
        stored_parents += parents;
        WANT(bw_outline_slice(&outline, CHUNKS(first, n), blob + from, bytes, slice, sizeof slice,
                              &used, &at) == BW_OK);
        size_t len = 0;
        WANT(bw_seat_slice(&seat, from, n * BW_CHUNK_LEN, served, sizeof served, &len, &lacking) ==
                 BW_OK &&
             len == used && memcmp(served, slice, len) == 0);
    }
    WANT(bw_outline_commit(&outline, &seat, CHUNKS(0, all), blob, BLOB_LEN, &committed, &parents,
                           &at) == BW_OK);
    WANT(stored + committed == all && stored_parents + parents == all - 1);
    for (uint32_t group = 0; group < 16; group++)
        WANT(bw_seat_held(&seat, group, &mask) == BW_OK &&
             mask == (group < 15 ? UINT64_MAX : (UINT64_C(1) << (all - 960)) - 1));
    WANT(bw_seat_finish(&seat, found, BLOB_LEN, &used) == BW_OK && used == BLOB_LEN &&
         memcmp(found, blob, BLOB_LEN) == 0);
    WANT(strcmp(bw_strerror(BW_OTHER_ROOT), bw_strerror(1)) != 0);
    bw_free(&seat);
    bw_free(&outline);
    bw_free(&alien);
    free(text);
    free(found);
    free(shorter);
}

/* Which chunks a group holds is told without a claim, whoever claims the others. */
static void holding(const uint8_t *blob, const uint8_t *root, const holder *good) {
    static uint8_t slice[4 * GROUP_LEN];
    bw_seat seat = BW_EMPTY, other = BW_EMPTY;
    uint8_t out[BW_HASH_LEN];
    uint64_t at = 7, mask = 7, committed = 0, parents = 0;
    size_t used = 0;
    WANT(bw_seat_held(&seat, 0, &mask) == BW_NO_HANDLE &&
         bw_hasher_new(&plain, AS(bw_hasher, seat)) == BW_OK &&
         bw_seat_held(&seat, 0, &mask) == BW_NO_HANDLE);
    WANT(bw_hasher_finish(AS(bw_hasher, seat), 0, out, BW_HASH_LEN) == BW_OK && mask == 7);
    WANT(bw_seat_new(&plain, root, 0, 977, &seat) == BW_OK &&
         bw_seat_split(&seat, &other) == BW_OK);
    WANT(bw_seat_held(&seat, 16, &mask) == BW_NO_GROUP &&
         bw_seat_held(&seat, UINT32_MAX, &mask) == BW_NO_GROUP && mask == 7);
    WANT(bw_seat_held(&seat, 15, &mask) == BW_OK && mask == 0 &&
         bw_seat_held(&seat, 0, &mask) == BW_OK && mask == 0);
    WANT(bw_cut_slice(good->text, good->len, UINT64_MAX, 1, slice, sizeof slice, &used) == BW_OK &&
         bw_seat_settle(&seat, slice, used, &at) == BW_OK);
    WANT(bw_seat_commit(&seat, UINT64_MAX, 1, slice, used, &committed, &parents, &at) == BW_OK &&
         committed == 1);
    WANT(bw_seat_held(&seat, 15, &mask) == BW_OK && mask == UINT64_C(1) << 16);
    WANT(bw_cut_slice(good->text, good->len, 3 * 1024, 2 * 1024, slice, sizeof slice, &used) ==
         BW_OK);
    WANT(bw_seat_commit(&seat, 3 * 1024, 2 * 1024, slice, used, &committed, &parents, &at) ==
             BW_OK &&
         committed == 2);
    WANT(bw_seat_take(&other, 0, 255, &mask) == BW_OK && mask == 255 - 24 &&
         bw_seat_held(&seat, 0, &mask) == BW_OK && mask == 24);
    /* Nothing was claimed: all others are still free, or the other seat's. */
    WANT(bw_seat_take(&seat, 0, UINT64_MAX, &mask) == BW_OK && mask == ~UINT64_C(255) &&
         bw_seat_held(&other, 0, &mask) == BW_OK && mask == 24);
    WANT(bw_seat_give(&seat, 0, UINT64_MAX, &mask) == BW_OK &&
         bw_seat_give(&other, 0, UINT64_MAX, &mask) == BW_OK && mask == 255 - 24);
    WANT(bw_seat_commit(&seat, 0, UINT64_MAX, good->text, good->len, &committed, &parents, &at) ==
             BW_OK &&
         committed == 974);
    for (uint32_t group = 0; group < 16; group++)
        WANT(bw_seat_held(&other, group, &mask) == BW_OK &&
             mask == (group < 15 ? UINT64_MAX : (UINT64_C(1) << 17) - 1));
    /* A chunk of no bytes has no first byte. */
    WANT(bw_encode(&plain, blob, 0, slice, sizeof slice, &used, out) == BW_OK &&
         bw_seat_new(&plain, out, 0, 1, &seat) == BW_OK);
    WANT(bw_seat_settle(&seat, slice, used, &at) == BW_OK &&
         bw_seat_commit(&seat, 0, 1, slice, used, &committed, &parents, &at) == BW_OK &&
         committed == 1);
    WANT(bw_seat_held(&seat, 0, &mask) == BW_OK && mask == 0);
    bw_free(&seat);
    bw_free(&other);
}

/* With no room, each call that writes tells how long what it would write is. */
static void sizes(const uint8_t *blob, const uint8_t *root, const holder *good) {
    static uint8_t out[90000];
    uint8_t hash[BW_HASH_LEN];
    size_t used = 7;
    uint64_t committed = 0, parents = 0, at = 0;
    bw_node lacking;
    bw_seat seat = BW_EMPTY;
    WANT(bw_encode(&plain, blob, BLOB_LEN, out, 0, &used, hash) == BW_ROOM &&
         used == bw_slice_len(BLOB_LEN, 0, UINT64_MAX));
    WANT(bw_outboard(&plain, blob, BLOB_LEN, out, 100, &used, hash) == BW_ROOM &&
         used == bw_outboard_len(BLOB_LEN));
    WANT(bw_cut_slice(good->text, good->len, 5000, 3000, out, 100, &used) == BW_ROOM &&
         used == bw_slice_len(BLOB_LEN, 5000, 3000));
    WANT(bw_seat_new(&plain, root, 0, 1024, &seat) == BW_OK);
    WANT(bw_cut_slice(good->text, good->len, UINT64_MAX, 1, out, sizeof out, &used) == BW_OK &&
         bw_seat_settle(&seat, out, used, &at) == BW_OK);
    WANT(bw_seat_commit(&seat, 0, UINT64_MAX, good->text, good->len, &committed, &parents, &at) ==
             BW_OK &&
         committed == 977 && parents == 976);
    WANT(bw_seat_slice(&seat, 5000, 3000, out, 100, &used, &lacking) == BW_ROOM &&
         used == bw_slice_len(BLOB_LEN, 5000, 3000));
    WANT(bw_seat_finish(&seat, out, sizeof out, &used) == BW_ROOM && used == BLOB_LEN);
    bw_free(&seat);
    for (bw_status status = 0; status < 2000; status++) {
        const char *words = bw_strerror(status);
        WANT(BW_IS_MEMORY(status) == (strncmp(words, "no memory", 9) == 0));
    }
    size_t named = 0;
    for (bw_status status = 0; status < 2000; status++)
        named += strcmp(bw_strerror(status), bw_strerror(1)) != 0;
    WANT(named == 36); /* as many as the header has */
    WANT(bw_version() == BW_VERSION);
}

int main(void) {
    uint8_t root[BW_HASH_LEN];
    uint8_t *blob = room(BLOB_LEN), *found = room(BLOB_LEN);
    uint32_t seed = 1;
    for (size_t i = 0; i < BLOB_LEN; i++)
        blob[i] = (uint8_t)((seed = seed * 1664525 + 1013904223) >> 24);
    holder holders[HOLDERS];
    for (int k = 0; k < HOLDERS; k++) {
        holders[k].len = (size_t)bw_slice_len(BLOB_LEN, 0, UINT64_MAX);
        holders[k].text = room(holders[k].len);
        size_t used = 0;
        WANT(bw_encode(&plain, blob, BLOB_LEN, holders[k].text, holders[k].len, &used, root) ==
                 BW_OK &&
             used == holders[k].len);
    }
    rows();
    copies(root);
    hashes(blob, BLOB_LEN, root);
    nothings();
    modes(blob);
    texts(blob, root, &holders[0]);
    pouring(blob, root, &holders[0]);
    decoding(blob, root, &holders[0]);
    ranges(&holders[0]);
    by_ranges(blob, root, &holders[0]);
    outboard_ranges(blob, &holders[0]);
    slice_nodes();
    by_nodes(blob, &holders[0]);
    outlining(blob, root, &holders[0]);
    beside(blob, root);
    holding(blob, root, &holders[0]);
    salvaging(blob, root, &holders[0]);
    sizes(blob, root, &holders[0]);
    joining(root, &holders[0]);
    in_order(root, &holders[0]);
    storing(blob, root, &holders[0]);
    lied_to(root, &holders[0]);
    parts(blob, root, &holders[0]);

    /* Two are damaged: one in 40 bytes all over it, and one in its second half. */
    for (size_t i = 1; i <= 40; i++) holders[1].text[holders[1].len / 41 * i] ^= 4;
    memset(holders[2].text + holders[2].len / 2, 0, 1000);
    gathering(blob, root, holders);

    bw_seat first = BW_EMPTY;
    uint64_t at = 0, len = 0, missing = 0;
    WANT(bw_seat_new(&plain, root, 0, 0, &first) == BW_CAPACITY && first.at == NULL);
    WANT(bw_seat_new(&plain, root, 0, 1024, &first) == BW_OK);
    WANT(bw_seat_length(&first, &len) == BW_UNFINISHED);
    bw_node none = {7, 7};
    size_t nothing = 7;
    WANT(bw_seat_slice(&first, 0, 1, found, BLOB_LEN, &nothing, &none) == BW_NO_LENGTH &&
         nothing == 7 && none.kind == 7);
    uint8_t tail[8 + 64 * 64 + BW_CHUNK_LEN];
    size_t used = 0;
    WANT(bw_cut_slice(holders[0].text, holders[0].len, UINT64_MAX, 1, tail, sizeof tail, &used) ==
         BW_OK);
    WANT(bw_seat_settle(&first, tail, used - 1, &at) == BW_SHORT);
    WANT(bw_seat_settle(&first, tail, used, &at) == BW_OK);
    WANT(bw_seat_length(&first, &len) == BW_OK && len == BLOB_LEN);
    WANT(bw_seat_settle(&first, tail, used, &at) == BW_OK);
    WANT(bw_seat_take(&first, 16, 1, &at) == BW_NO_GROUP);
    bw_node lacking = {7, 7};
    WANT(bw_seat_slice(&first, 0, 1, found, BLOB_LEN, &used, &lacking) == BW_LACKING &&
         lacking.kind == 0 && lacking.number == 512);
    WANT(bw_seat_finish(&first, found, BLOB_LEN - 1, &used) == BW_ROOM);
    WANT(bw_seat_finish(&first, found, BLOB_LEN, &used) == BW_UNFINISHED);

    pthread_t threads[THREADS];
    worker workers[THREADS];
    for (uint32_t k = 0; k < THREADS; k++) {
        workers[k] = (worker){BW_EMPTY, root, holders, k, (BLOB_LEN + GROUP_LEN - 1) / GROUP_LEN,
                              0,        0,    0,       0};
        WANT(bw_seat_split(&first, &workers[k].seat) == BW_OK);
        WANT(pthread_create(&threads[k], NULL, work, &workers[k]) == 0);
    }
    uint64_t stored = 0, parents = 0;
    for (int k = 0; k < THREADS; k++) {
        WANT(pthread_join(threads[k], NULL) == 0);
        stored += workers[k].stored;
        parents += workers[k].parents;
        bw_free(&workers[k].seat);
    }
    WANT(stored == (BLOB_LEN + BW_CHUNK_LEN - 1) / BW_CHUNK_LEN && parents == stored - 1);
    /* The finished store serves the whole encoding, as it would be written. */
    size_t text_len = 0;
    uint8_t *text = room(holders[0].len);
    WANT(bw_seat_slice(&first, 0, UINT64_MAX, text, holders[0].len - 1, &text_len, &lacking) ==
         BW_ROOM);
    WANT(bw_seat_slice(&first, 0, UINT64_MAX, text, holders[0].len, &text_len, &lacking) == BW_OK);
    WANT(text_len == holders[0].len && memcmp(text, holders[0].text, text_len) == 0);
    free(text);
    WANT(bw_seat_read(&first, BLOB_LEN - 5, found, 5, &missing) == BW_OK &&
         memcmp(found, blob + BLOB_LEN - 5, 5) == 0);
    WANT(bw_seat_read(&first, BLOB_LEN - 5, found, 6, &missing) == BW_MISSING &&
         missing == BLOB_LEN);
    WANT(bw_seat_finish(&first, found, BLOB_LEN, &used) == BW_OK && used == BLOB_LEN);
    WANT(memcmp(found, blob, BLOB_LEN) == 0);
    bw_free(&first);
    WANT(bw_seat_finish(&first, found, BLOB_LEN, &used) == BW_NO_HANDLE);
    for (int k = 0; k < HOLDERS; k++) free(holders[k].text);
    free(blob);
    free(found);
    return 0;
}
