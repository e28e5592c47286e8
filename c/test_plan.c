/* Calls each bw_plan_ function and has each of its refusals once. What is wanted is worked out by
 * hand from the header. It prints nothing and exits with 0, or says which line failed. */
#include "berylwool.h"

#include <stdio.h>
#include <stdlib.h>

#define WANT(test)                                                                                 \
    do {                                                                                           \
        if (!(test)) {                                                                             \
            fprintf(stderr, "test_plan.c:%d: this is not so: %s\n", __LINE__, #test);              \
            exit(1);                                                                               \
        }                                                                                          \
    } while (0)

static const bw_plan_policy policy = {
    .faults = 3, .pause_ms = 100, .longest_pause_ms = 350, .patience_ms = 500};

/* Whether the holder is to be asked for these chunks now, and whether it is told to wait until
 * then, or that there is nothing. */
static int fetches(bw_plan *plan, size_t holder, uint64_t now, uint64_t first, uint64_t count) {
    bw_plan_next next = {7, 7, 7, 7};
    return bw_plan_ask(plan, holder, now, &next) == BW_OK && next.kind == BW_NEXT_FETCH &&
           next.first == first && next.count == count;
}

static int waits(bw_plan *plan, size_t holder, uint64_t now, uint64_t until) {
    bw_plan_next next = {7, 7, 7, 7};
    return bw_plan_ask(plan, holder, now, &next) == BW_OK && next.kind == BW_NEXT_WAIT &&
           next.until_ms == until;
}

static int has_nothing(bw_plan *plan, size_t holder, uint64_t now) {
    bw_plan_next next = {7, 7, 7, 7};
    return bw_plan_ask(plan, holder, now, &next) == BW_OK && next.kind == BW_NEXT_NOTHING;
}

static int takes(bw_plan *plan, size_t holder, uint64_t group, uint64_t mask, uint64_t wanted) {
    uint64_t taken = 7;
    return bw_plan_kept(plan, holder, group, mask, &taken) == BW_OK && taken == wanted;
}

static int ends(bw_plan *plan, size_t holder, uint64_t first, uint64_t count, uint32_t outcome,
                uint64_t later, uint64_t now, uint32_t wanted) {
    uint32_t failed = 7;
    return bw_plan_ended(plan, holder, first, count, outcome, later, now, &failed) == BW_OK &&
           failed == wanted;
}

static int lacks_chunks(bw_plan *plan, uint64_t group, uint64_t wanted) {
    uint64_t mask = 7;
    return bw_plan_lacking(plan, group, &mask) == BW_OK && mask == wanted;
}

static int is_done(bw_plan *plan, uint32_t wanted) {
    uint32_t is = 7;
    return bw_plan_is_done(plan, &is) == BW_OK && is == wanted;
}

static int is_left_out(bw_plan *plan, size_t holder, uint32_t wanted) {
    uint32_t is = 7;
    return bw_plan_is_left_out(plan, holder, &is) == BW_OK && is == wanted;
}

/* Each call on a handle that has no plan. */
static void no_plan(bw_plan *plan) {
    bw_plan_next next = {7, 7, 7, 7};
    size_t holder = 7;
    uint64_t mask = 7;
    uint32_t flag = 7;
    WANT(bw_plan_add_holder(plan, &holder) == BW_NO_HANDLE && holder == 7);
    WANT(bw_plan_ask(plan, 0, 0, &next) == BW_NO_HANDLE && next.kind == 7 && next.first == 7 &&
         next.count == 7 && next.until_ms == 7);
    WANT(bw_plan_kept(plan, 0, 0, 1, &mask) == BW_NO_HANDLE && mask == 7);
    WANT(bw_plan_refused(plan, 0, 0, 1) == BW_NO_HANDLE);
    WANT(bw_plan_lacks(plan, 0, 0, 1) == BW_NO_HANDLE);
    WANT(bw_plan_has(plan, 0, 0, 1) == BW_NO_HANDLE);
    WANT(bw_plan_ended(plan, 0, 0, 1, BW_ENDED_OVER, 0, 0, &flag) == BW_NO_HANDLE && flag == 7);
    WANT(bw_plan_rank(plan, 0, 1) == BW_NO_HANDLE);
    WANT(bw_plan_forgive(plan, 0) == BW_NO_HANDLE);
    WANT(bw_plan_is_left_out(plan, 0, &flag) == BW_NO_HANDLE && flag == 7);
    WANT(bw_plan_limit(plan, 1) == BW_NO_HANDLE);
    WANT(bw_plan_is_done(plan, &flag) == BW_NO_HANDLE && flag == 7);
    WANT(bw_plan_lacking(plan, 0, &mask) == BW_NO_HANDLE && mask == 7);
}

/* Holders and groups that the plan doesn't have. It has two holders, and four groups, the last of
 * four chunks. */
static void no_places(bw_plan *plan) {
    bw_plan_next next = {7, 7, 7, 7};
    uint64_t mask = 7;
    uint32_t flag = 7;
    WANT(bw_plan_ask(plan, 2, 0, &next) == BW_NO_HOLDER && next.kind == 7);
    WANT(bw_plan_kept(plan, 2, 4, 1, &mask) == BW_NO_HOLDER &&
         bw_plan_kept(plan, 1, 4, 1, &mask) == BW_NO_GROUP && mask == 7);
    WANT(bw_plan_refused(plan, 2, 0, 1) == BW_NO_HOLDER &&
         bw_plan_refused(plan, 1, UINT64_MAX, 1) == BW_NO_GROUP);
    WANT(bw_plan_lacks(plan, 2, 0, 1) == BW_NO_HOLDER &&
         bw_plan_lacks(plan, 1, UINT64_C(1) << 58, 1) == BW_NO_GROUP);
    WANT(bw_plan_has(plan, SIZE_MAX, 0, 1) == BW_NO_HOLDER &&
         bw_plan_has(plan, 0, 4, 1) == BW_NO_GROUP);
    WANT(bw_plan_ended(plan, 2, 0, 1, BW_ENDED_OVER, 0, 0, &flag) == BW_NO_HOLDER && flag == 7);
    WANT(bw_plan_rank(plan, 2, 1) == BW_NO_HOLDER && bw_plan_forgive(plan, 2) == BW_NO_HOLDER);
    WANT(bw_plan_is_left_out(plan, 2, &flag) == BW_NO_HOLDER && flag == 7);
    WANT(bw_plan_lacking(plan, 4, &mask) == BW_NO_GROUP && mask == 7);
}

/* 196 chunks, of two holders. */
static void two_holders(void) {
    bw_plan plan = BW_EMPTY;
    size_t holder = 7;
    uint32_t flag = 7;
    WANT(bw_plan_new(200000, &policy, &plan) == BW_OK);
    WANT(bw_plan_add_holder(&plan, &holder) == BW_OK && holder == 0);
    WANT(bw_plan_add_holder(&plan, &holder) == BW_OK && holder == 1);
    no_places(&plan);
    WANT(is_done(&plan, 0) && lacks_chunks(&plan, 2, UINT64_MAX) && lacks_chunks(&plan, 3, 15));
    WANT(fetches(&plan, 0, 0, 0, 196) && has_nothing(&plan, 0, 0));
    WANT(waits(&plan, 1, 0, 500) && waits(&plan, 1, 499, 500));
    WANT(takes(&plan, 0, 0, UINT64_MAX, UINT64_MAX) && takes(&plan, 1, 0, UINT64_MAX, 0) &&
         lacks_chunks(&plan, 0, 0));
    WANT(bw_plan_refused(&plan, 0, 1, 1) == BW_OK);
    WANT(bw_plan_ended(&plan, 0, 0, 197, BW_ENDED_OVER, 0, 10, &flag) == BW_NO_REQUEST &&
         flag == 7);
    WANT(ends(&plan, 0, 0, 196, BW_ENDED_OVER, 0, 10, 0));
    WANT(bw_plan_ended(&plan, 0, 0, 196, BW_ENDED_OVER, 0, 10, &flag) == BW_NO_REQUEST);
    WANT(bw_plan_ended(&plan, 0, 0, 0, BW_ENDED_OVER, 0, 10, &flag) == BW_NO_REQUEST && flag == 7);
    /* Chunk 64 is left to the other one. */
    WANT(fetches(&plan, 0, 10, 65, 131) && fetches(&plan, 1, 10, 64, 1) &&
         waits(&plan, 1, 10, 510));
    /* Failures in a row: pauses of 100 and 200 ms, and of 350 where a second was asked for; three
     * are the last. */
    WANT(ends(&plan, 1, 64, 1, BW_ENDED_OVER, 0, 20, 1) && waits(&plan, 1, 119, 120) &&
         fetches(&plan, 1, 120, 64, 1));
    WANT(ends(&plan, 1, 64, 1, 77, 1000, 130, 1) && waits(&plan, 1, 200, 330) &&
         fetches(&plan, 1, 330, 64, 1));
    WANT(ends(&plan, 1, 64, 1, BW_ENDED_CUT, 1000, 340, 0) && fetches(&plan, 1, 340, 64, 1) &&
         is_left_out(&plan, 1, 0));
    WANT(ends(&plan, 1, 64, 1, BW_ENDED_LATER, 1000, 350, 1) && is_left_out(&plan, 1, 1) &&
         has_nothing(&plan, 1, 1000));
    WANT(bw_plan_forgive(&plan, 1) == BW_OK && is_left_out(&plan, 1, 0));
    WANT(waits(&plan, 1, 600, 700) && fetches(&plan, 1, 700, 64, 1));
    /* Those from 65 on have been under way since 10, but chunk 64 of their unit was asked for just
     * now. */
    WANT(waits(&plan, 1, 700, 1200) && fetches(&plan, 1, 1200, 65, 131));
    WANT(takes(&plan, 1, 1, 1, 1) && ends(&plan, 1, 64, 1, BW_ENDED_OVER, 0, 1210, 0));
    WANT(takes(&plan, 1, 2, UINT64_MAX, UINT64_MAX) && takes(&plan, 1, 3, UINT64_MAX, 15));
    WANT(ends(&plan, 1, 65, 131, BW_ENDED_OVER, 0, 1210, 0) && is_done(&plan, 0));
    WANT(takes(&plan, 0, 1, UINT64_MAX, UINT64_MAX - 1) && is_done(&plan, 1) &&
         lacks_chunks(&plan, 3, 0));
    /* Others gave its chunks: that is no failure of its own. */
    WANT(ends(&plan, 0, 65, 131, BW_ENDED_OVER, 0, 1220, 0) && has_nothing(&plan, 0, 1220) &&
         has_nothing(&plan, 1, 1220));
    bw_free(&plan);
    WANT(plan.at == NULL);
}

/* What holders lack and have, who is asked before whom, and the end of a window. */
static void shares(void) {
    bw_plan plan = BW_EMPTY;
    size_t holder = 7;
    WANT(bw_plan_new(0, &policy, &plan) == BW_OK && bw_plan_add_holder(&plan, &holder) == BW_OK);
    WANT(bw_plan_lacks(&plan, 0, 0, 1) == BW_OK && has_nothing(&plan, 0, 0) &&
         lacks_chunks(&plan, 0, 1));
    WANT(bw_plan_has(&plan, 0, 0, 1) == BW_OK && fetches(&plan, 0, 0, 0, 1));
    WANT(bw_plan_refused(&plan, 0, 0, 1) == BW_OK && ends(&plan, 0, 0, 1, BW_ENDED_OVER, 0, 0, 0));
    WANT(bw_plan_has(&plan, 0, 0, 1) == BW_OK && has_nothing(&plan, 0, 0));

    WANT(bw_plan_new(1024, &policy, &plan) == BW_OK); /* frees the one before */
    for (size_t k = 0; k < 3; k++) WANT(bw_plan_add_holder(&plan, &holder) == BW_OK && holder == k);
    WANT(bw_plan_rank(&plan, 1, 4) == BW_OK && bw_plan_rank(&plan, 2, 5) == BW_OK);
    WANT(waits(&plan, 2, 0, 500) && waits(&plan, 1, 0, 500));
    WANT(bw_plan_refused(&plan, 0, 0, 1) == BW_OK && waits(&plan, 2, 0, 500) &&
         fetches(&plan, 1, 0, 0, 1));

    WANT(bw_plan_new(3000, &policy, &plan) == BW_OK && bw_plan_add_holder(&plan, &holder) == BW_OK);
    WANT(bw_plan_limit(&plan, 1) == BW_OK && fetches(&plan, 0, 0, 0, 1) &&
         has_nothing(&plan, 0, 0));
    WANT(bw_plan_limit(&plan, 2) == BW_OK && fetches(&plan, 0, 0, 1, 1));
    WANT(bw_plan_limit(&plan, UINT64_MAX) == BW_OK && fetches(&plan, 0, UINT64_MAX, 2, 1) &&
         lacks_chunks(&plan, 0, 7));

    /* A request ends where a multiple of 1,024 chunks does. */
    WANT(bw_plan_new(1025 * 1024 + 1, &policy, &plan) == BW_OK &&
         bw_plan_add_holder(&plan, &holder) == BW_OK);
    WANT(takes(&plan, 0, 0, 1, 1) && fetches(&plan, 0, 0, 1, 1023) &&
         fetches(&plan, 0, 0, 1024, 2));

    bw_hasher hasher = BW_EMPTY;
    const bw_mode plain = {0, {0}};
    uint8_t hash[BW_HASH_LEN];
    WANT(bw_hasher_finish((bw_hasher *)(void *)&plan, 0, hash, BW_HASH_LEN) == BW_NO_HANDLE &&
         lacks_chunks(&plan, 0, UINT64_MAX - 1));
    WANT(bw_hasher_new(&plain, &hasher) == BW_OK);
    no_plan((bw_plan *)(void *)&hasher);
    bw_free(&hasher);
    bw_free(&plan);
    bw_free(&plan);
    no_plan(&plan);
}

int main(void) {
    two_holders();
    shares();
    return 0;
}
