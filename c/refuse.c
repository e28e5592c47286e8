/* From the Nth request on memory is refused, for each N until none is: every call answers a status
 * of memory then, and leaves what it had as it was; a worker's round, of which the Nth request
 * alone is refused too, counts it. To be linked with -Wl,--wrap=malloc,--wrap=realloc. It prints
 * nothing and exits with 0, or says which line failed. */
#include "tests.h"

#include <stdio.h>
#include <stdlib.h>

/* How many requests are granted yet, or -1 for all; and whether all are after one was refused. */
static long left = -1;
static int once = 0;
static size_t granted; /* bytes, of which none is counted as given back */

void *__real_malloc(size_t len);
void *__real_realloc(void *at, size_t len);
void *__wrap_malloc(size_t len);
void *__wrap_realloc(void *at, size_t len);

static int refuses(void) {
    if (left == 0) {
        if (once) left = -1;
        return 1;
    }
    if (left > 0) left--;
    return 0;
}

void *__wrap_malloc(size_t len) {
    granted += len;
    return refuses() ? NULL : __real_malloc(len);
}

void *__wrap_realloc(void *at, size_t len) {
    granted += len;
    return refuses() ? NULL : __real_realloc(at, len);
}

#define WANT(test)                                                                                 \
    do {                                                                                           \
        if (!(test)) {                                                                             \
            left = -1;                                                                             \
            fprintf(stderr, "refuse.c:%d: this is not so: %s\n", __LINE__, #test);                 \
            exit(1);                                                                               \
        }                                                                                          \
    } while (0)

static const bw_mode plain = {0, {0}};

/* One worker's round over a blob's encoding, in which memory is refused from request `n` on, or at
 * that request alone; then another one, in which it isn't. Answers whether memory was refused. */
static int gathers(const uint8_t *root, const uint8_t *blob, size_t blob_len, const uint8_t *text,
                   size_t text_len, long n, int alone) {
    static uint8_t found[80000];
    uint64_t chunks = (blob_len + BW_CHUNK_LEN - 1) / BW_CHUNK_LEN;
    bw_seat seat = BW_EMPTY;
    bw_report report = {0, 0, 0, 0, 0, 0, 0};
    size_t used = 0;
    WANT(bw_seat_new(&plain, root, 0, 100, &seat) == BW_OK);
    left = n;
    once = alone;
    bw_status status = bw_seat_gather(&seat, 0, 1, text, text_len, &report);
    left = -1;
    once = 0;
    int refused = report.memory != 0;
    WANT(status == BW_OK && report.refused == 0 && report.failed == 0 && report.too_large == 0);
    WANT(refused || (report.committed == chunks && report.parents == chunks - 1));
    WANT(!refused || report.committed < chunks);
    WANT(!alone || report.memory <= 1);
    /* Chunk by chunk it is the same, for those that are left. */
    uint64_t had = report.committed;
    left = n;
    once = alone;
    status = bw_seat_salvage(&seat, text, text_len, &report);
    left = -1;
    once = 0;
    WANT(status == BW_OK && report.refused == 0 && report.failed == 0 && report.committed >= had);
    uint64_t before = report.memory;
    WANT(bw_seat_gather(&seat, 0, 1, text, text_len, &report) == BW_OK);
    WANT(report.memory == before && report.committed == chunks && report.parents == chunks - 1);
    left = 0;
    WANT(bw_seat_finish(&seat, found, sizeof found, &used) == BW_OK && used == blob_len &&
         memcmp(found, blob, used) == 0);
    left = -1;
    bw_free(&seat);
    return refused;
}

/* The status of a call of a plan; of the same call once more, with memory, if it was refused. */
static int was_refused;
static bw_status given_memory(bw_status of) {
    was_refused |= of == BW_MEMORY;
    if (of == BW_MEMORY) left = -1;
    return of;
}
#define DOES(call) (given_memory(call) == BW_MEMORY ? (call) : BW_OK) == BW_OK

/* A plan and its holder. A call that is refused memory changes nothing. */
static void plans(void) {
    const bw_plan_policy policy = {1, 1, 1, 1};
    was_refused = 1;
    for (int n = 0; was_refused; n++) {
        bw_plan plan = BW_EMPTY;
        bw_plan_next next = {0, 0, 0, 0};
        size_t holder = 7;
        uint64_t taken = 7, lacking = 7;
        uint32_t flag = 7;
        was_refused = 0;
        left = n;
        bw_status made = bw_plan_new(70000, &policy, &plan);
        WANT(made == BW_OK || (made == BW_MEMORY && plan.at == NULL));
        if (made != BW_OK) WANT(bw_plan_add_holder(&plan, &holder) == BW_NO_HANDLE && holder == 7);
        was_refused |= made != BW_OK;
        if (made != BW_OK) left = -1;
        if (made != BW_OK) WANT(bw_plan_new(70000, &policy, &plan) == BW_OK);
        WANT(DOES(bw_plan_add_holder(&plan, &holder)) && holder == 0);
        WANT(DOES(bw_plan_ask(&plan, 0, 0, &next)) && next.kind == BW_NEXT_FETCH &&
             next.first == 0 && next.count == 69);
        WANT(DOES(bw_plan_kept(&plan, 0, 0, 1, &taken)) && taken == 1);
        WANT(DOES(bw_plan_refused(&plan, 0, 0, 2)));
        WANT(DOES(bw_plan_lacks(&plan, 0, 0, 4)) && DOES(bw_plan_lacks(&plan, 0, 1, 1)));
        WANT(DOES(bw_plan_has(&plan, 0, 1, 1)));
        WANT(DOES(bw_plan_ended(&plan, 0, 0, 69, BW_ENDED_OVER, 0, 0, &flag)) && flag == 0);
        WANT(DOES(bw_plan_ask(&plan, 0, 0, &next)) && next.kind == BW_NEXT_FETCH &&
             next.first == 3 && next.count == 66);
        left = -1;
        WANT(bw_plan_lacking(&plan, 0, &lacking) == BW_OK && lacking == UINT64_MAX - 1);
        bw_free(&plan);
        WANT(n < 100);
    }
}

/* What a thousand holders of 16 GiB take: each has a request under way, and one in a hundred lacks
 * all. */
static void many_holders(void) {
    const bw_plan_policy policy = {1, 1, 1, 1};
    const uint64_t groups = UINT64_C(1) << 18;
    bw_plan plan = BW_EMPTY;
    bw_plan_next next = {0, 0, 0, 0};
    size_t holder = 7;
    granted = 0;
    WANT(bw_plan_new(groups * BW_GROUP_CHUNKS * BW_CHUNK_LEN, &policy, &plan) == BW_OK);
    for (size_t k = 0; k < 1000; k++) {
        WANT(bw_plan_add_holder(&plan, &holder) == BW_OK && holder == k);
        WANT(bw_plan_ask(&plan, k, 0, &next) == BW_OK && next.first == k * 1024);
        for (uint64_t g = 0; k % 100 == 0 && g < groups; g++)
            WANT(bw_plan_lacks(&plan, k, g, UINT64_MAX) == BW_OK);
    }
    WANT(granted < 1 << 20);
    bw_free(&plan);
}

int main(void) {
    static uint8_t blob[70000], text[80000], slice[80000], spare[80000];
    uint8_t root[BW_HASH_LEN], out[BW_HASH_LEN];
    size_t used = 0, cut = 0, spare_len = 0, taken = 0, filled = 0;
    uint64_t mask = 0, at = 0, parents = 0, total = 0;
    bw_node lacking = {0, 0};
    static uint8_t outboard[80000];
    size_t outboard_len = 0, beside_len = 0;
    uint64_t len = 0;
    uint8_t tail[8 + 64 * 64 + BW_CHUNK_LEN];
    size_t tail_len = 0;
    memset(blob, 7, sizeof blob);
    WANT(bw_encode(&plain, blob, sizeof blob, text, sizeof text, &used, root) == BW_OK);
    WANT(bw_cut_slice(text, used, 0, 65536, slice, sizeof slice, &cut) == BW_OK);
    WANT(bw_cut_slice(text, used, UINT64_MAX, 1, tail, sizeof tail, &tail_len) == BW_OK);
    WANT(bw_outboard(&plain, blob, sizeof blob, outboard, sizeof outboard, &outboard_len, root) ==
         BW_OK);
    for (int refused = 1, n = 0; refused != 0; n++) {
        bw_hasher hasher = BW_EMPTY, twin = BW_EMPTY;
        bw_seat seat = BW_EMPTY, other = BW_EMPTY, part = BW_EMPTY;
        bw_feed whole = BW_EMPTY;
        bw_outline outline = BW_EMPTY, again = BW_EMPTY;
        refused = 0;
        left = n;
        bw_status made = bw_hasher_new(&plain, &hasher),
                  fed = bw_hasher_update(&hasher, blob, 20000),
                  copied = bw_hasher_copy(&hasher, &twin);
        bw_status opened = bw_seat_new(&plain, root, 0, 100, &seat),
                  split = bw_seat_split(&seat, &other);
        bw_status encoded = bw_encode(&plain, blob, sizeof blob, text, sizeof text, &used, root);
        bw_status sliced = bw_cut_slice(text, used, 0, 65536, slice, sizeof slice, &cut);
        bw_status all = bw_feed_new(of(&plain, root, 0, UINT64_MAX), &whole);
        bw_status bare =
            bw_outboard(&plain, blob, sizeof blob, spare, sizeof spare, &spare_len, root);
        bw_status below = bw_parents(&plain, 0, blob, 65536, spare, sizeof spare, &spare_len);
        bw_status kept = bw_outline_new(&plain, root, outboard, outboard_len, &outline, &at),
                  shared = bw_outline_share(&outline, &again);
        bw_status parted = bw_seat_new(&plain, root, 3, 60, &part);
        bw_status beside = bw_outline_slice(&outline, CHUNKS(0, 64), blob, 65536, spare,
                                            sizeof spare, &beside_len, &at);
        left = 0; /* no other call takes memory */
        WANT(kept == BW_OK || (kept == BW_MEMORY && outline.at == NULL && ++refused));
        WANT(shared == BW_OK ||
             (again.at == NULL && shared == (kept == BW_OK ? BW_MEMORY : BW_NO_HANDLE) &&
              ++refused));
        WANT(beside == BW_OK ||
             (beside == (kept == BW_OK ? BW_TEXT_MEMORY : BW_NO_HANDLE) && ++refused));
        WANT(beside != BW_OK || sliced != BW_OK ||
             (beside_len == cut && memcmp(spare, slice, cut) == 0));
        WANT(kept != BW_OK || (bw_outline_length(&outline, &len) == BW_OK && len == sizeof blob &&
                               bw_outline_check(&outline, CHUNKS(3, 2), blob, 2048, &at) == BW_OK));
        WANT(shared != BW_OK || (bw_outline_length(&again, &len) == BW_OK && len == sizeof blob));
        WANT(made == BW_OK || (made == BW_MEMORY && ++refused));
        WANT(parted == BW_OK ||
             ((parted == BW_MEMORY || parted == BW_STORE_MEMORY) && part.at == NULL && ++refused));
        WANT(parted != BW_OK ||
             (bw_seat_commit_chunks(&part, 0, UINT64_MAX, text, used, &mask, &at) == BW_OK &&
              mask == 60));
        WANT(parted != BW_OK || (bw_seat_read(&part, 0, spare, 60 * 1024, &at) == BW_OK &&
                                 memcmp(spare, blob + 3 * 1024, 60 * 1024) == 0));
        WANT(fed == (made == BW_OK ? BW_OK : BW_NO_HANDLE));
        WANT(
            copied == BW_OK ||
            (twin.at == NULL && copied == (made == BW_OK ? BW_MEMORY : BW_NO_HANDLE) && ++refused));
        WANT(bw_hasher_update(&hasher, blob, sizeof blob - 20000) ==
             (made == BW_OK ? BW_OK : BW_NO_HANDLE));
        WANT(bw_hasher_finish(&hasher, 0, out, BW_HASH_LEN) ==
             (made == BW_OK ? BW_OK : BW_NO_HANDLE));
        WANT(made != BW_OK || memcmp(out, root, sizeof out) == 0);
        WANT(copied != BW_OK || (bw_hasher_update(&twin, blob, sizeof blob - 20000) == BW_OK &&
                                 bw_hasher_finish(&twin, 0, out, BW_HASH_LEN) == BW_OK &&
                                 memcmp(out, root, sizeof out) == 0));
        WANT(all == BW_OK || (all == BW_MEMORY && whole.at == NULL && ++refused));
        WANT(bw_encode(&plain, blob, sizeof blob, spare, 10, &spare_len, root) == BW_ROOM &&
             spare_len == used);
        WANT(bw_outboard(&plain, blob, sizeof blob, spare, 10, &spare_len, root) == BW_ROOM &&
             spare_len == bw_outboard_len(sizeof blob));
        WANT(bw_decode(of(&plain, root, 0, UINT64_MAX), text, used, spare, sizeof spare, &filled,
                       &total, &at) == BW_OK);
        WANT(filled == sizeof blob && total == sizeof blob && memcmp(spare, blob, filled) == 0);
        WANT(bw_feed_take(&whole, text, used, spare, sizeof spare, &taken, &filled, &at) ==
             (all == BW_OK ? BW_OK : BW_NO_HANDLE));
        WANT(all != BW_OK ||
             (taken == used && filled == sizeof blob && memcmp(spare, blob, filled) == 0 &&
              bw_feed_finish(&whole, text, 0, &at) == BW_OK));
        WANT(opened == BW_OK || ((opened == BW_MEMORY || opened == BW_STORE_MEMORY) && ++refused));
        WANT(split == BW_OK || split == (opened == BW_OK ? split : BW_NO_HANDLE));
        WANT(split == BW_OK || opened != BW_OK ||
             ((split == BW_MEMORY || split == BW_SPLIT_MEMORY) && ++refused));
        WANT(encoded == BW_OK || (encoded == BW_TEXT_MEMORY && ++refused));
        WANT(sliced == BW_OK || (sliced == BW_TEXT_MEMORY && ++refused));
        WANT(bare == BW_OK || (bare == BW_TEXT_MEMORY && ++refused));
        WANT(below == BW_OK || (below == BW_TEXT_MEMORY && ++refused));
        if (opened == BW_OK) {
            WANT(bw_seat_take(&seat, 0, UINT64_MAX, &mask) == BW_OK && mask == UINT64_MAX);
            WANT(bw_seat_commit_chunks(&seat, 0, 65536, slice, cut, &mask, &at) == BW_OK &&
                 mask == 64);
            WANT(bw_seat_settle(&seat, tail, tail_len, &at) == BW_OK);
            left = n;
            bw_status served =
                bw_seat_slice(&seat, 0, 1, spare, sizeof spare, &spare_len, &lacking);
            left = 0;
            WANT(served == BW_SERVE_MEMORY ||
                 (served == BW_LACKING && lacking.kind == 0 && lacking.number == 64));
            WANT(served == BW_LACKING || ++refused);
            WANT(bw_seat_read(&seat, 0, slice + 70000, 100, &at) == BW_OK);
            WANT(split != BW_OK || (bw_seat_take(&other, 1, 1, &mask) == BW_OK && mask == 1));
            WANT(split != BW_OK || (bw_seat_join(&seat, &other) == BW_OK && other.at == NULL));
            WANT(split != BW_OK || (bw_seat_give(&seat, 1, 1, &mask) == BW_OK && mask == 1));
            WANT(bw_seat_held(&seat, 0, &mask) == BW_OK && mask == UINT64_MAX &&
                 bw_seat_held(&seat, 1, &mask) == BW_OK && mask == 0);
            uint64_t before = 0, had = 0;
            if (kept == BW_OK)
                WANT(bw_outline_commit(&outline, &seat, CHUNKS(64, 2), blob, 2048, &had, &before,
                                       &at) == BW_OK &&
                     had == 2 && before > 0);
            WANT(bw_seat_commit(&seat, 0, UINT64_MAX, text, used, &mask, &parents, &at) == BW_OK &&
                 mask == 5 - had && parents == 68 - before);
        }
        left = -1;
        bw_free(&hasher);
        bw_free(&twin);
        bw_free(&seat);
        bw_free(&other);
        bw_free(&whole);
        bw_free(&outline);
        bw_free(&again);
        bw_free(&part);
        WANT(n < 1000);
    }
    plans();
    many_holders();
    for (int alone = 0; alone < 2; alone++)
        for (long n = 0; gathers(root, blob, sizeof blob, text, used, n, alone); n++)
            WANT(n < 1000);
    return 0;
}
