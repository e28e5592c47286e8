/* Each function that berylwool.h declares runs in a thread whose stack is filled with a pattern
 * first, on arguments that take it deep. How much of the stack was written to is at most what the
 * header asks a thread to have. It prints the most, or says which call took more. */
#define _GNU_SOURCE
#include "tests.h"

#include <pthread.h>
#include <stdio.h>
#include <stdlib.h>
#include <sys/mman.h>

enum {
    BLOB_LEN = 3000000,
    STACK_LEN = 1 << 20,
    STACK_MOST = 64 * 1024,
    PATTERN = 0xa5,
    ROOM = 2 * BLOB_LEN
};

static const bw_mode plain = {0, {0}};
static uint8_t *blob, *text, *outboard, *out, root[BW_HASH_LEN], far[8 + BW_CHUNK_LEN];
static size_t text_len, outboard_len;
static uint64_t chunks, at, count, parents;
static bw_seat seat, other;
static bw_feed feed;
static bw_hasher hasher, twin;
static bw_outline outline, part;

/* What isn't looked at here is what a call answers: the tests do. */
static bw_status sink;

static void hash(void) {
    sink = bw_hash(&plain, blob, BLOB_LEN, 0, out, 1000);
    sink = bw_hasher_new(&plain, &hasher);
    sink = bw_hasher_update(&hasher, blob, BLOB_LEN - 7);
    sink = bw_hasher_copy(&hasher, &twin);
    sink = bw_hasher_finish(&hasher, 0, out, 1000);
    bw_free(&hasher);
    bw_free(&twin);
    bw_mode mode;
    sink = bw_mode_derive(blob, 10, &mode);
}

static void write_texts(void) {
    uint8_t hashed[BW_HASH_LEN];
    size_t used;
    sink = bw_encode(&plain, blob, BLOB_LEN, out, ROOM, &used, hashed);
    sink = bw_outboard(&plain, blob, BLOB_LEN, out, ROOM, &used, hashed);
    sink = bw_parents(&plain, 0, blob, BLOB_LEN, out, ROOM, &used);
    sink = bw_cut_slice(text, text_len, 100000, 1000000, out, ROOM, &used);
    at = bw_outboard_len(UINT64_MAX) + bw_slice_len(UINT64_MAX, UINT64_MAX / 3, UINT64_MAX / 3);
}

static void range(void) {
    bw_range ranges[BW_RANGES_MAX];
    size_t used;
    sink = bw_slice_ranges(UINT64_C(1) << 63, UINT64_MAX, 1, ranges, BW_RANGES_MAX, &used);
    sink = bw_outboard_ranges(UINT64_MAX, UINT64_MAX, 1, ranges, BW_RANGES_MAX, &used);
    static bw_placed nodes[BW_NODES_MAX(1)];
    sink = bw_slice_nodes(UINT64_C(1) << 63, UINT64_MAX, 1, nodes, BW_NODES_MAX(1), &used);
    sink = bw_node_at(UINT64_C(1) << 63, UINT64_MAX, 1, 8 + 64 * 53, nodes);
}

/* A text that claims the greatest length, too: its tree is the deepest. */
static void check(void) {
    bw_input ours, theirs;
    uint64_t total;
    size_t used;
    sink = bw_check(of(&plain, root, 0, UINT64_MAX), text, text_len, &at);
    sink = bw_check(of(&plain, root, UINT64_MAX, 1), far, sizeof far, &at);
    sink =
        bw_decode(of(&plain, root, 0, UINT64_MAX), text, text_len, out, ROOM, &used, &total, &at);
    sink = bw_audit(of(&plain, root, 0, UINT64_MAX), text, text_len, blob, BLOB_LEN, &at, &ours,
                    &theirs);
}

static void check_beside(void) {
    uint64_t len;
    size_t used;
    sink = bw_outline_new(&plain, root, outboard, outboard_len, &outline, &at);
    sink = bw_outline_share(&outline, &part);
    sink = bw_outline_length(&outline, &len);
    sink = bw_outline_check(&outline, CHUNKS(0, chunks), blob, BLOB_LEN, &at);
    sink = bw_outline_slice(&outline, CHUNKS(0, chunks), blob, BLOB_LEN, out, ROOM, &used, &at);
    bw_free(&part);
}

static void pour(void) {
    size_t taken, filled;
    sink = bw_feed_new(of(&plain, root, 0, UINT64_MAX), &feed);
    sink = bw_feed_take(&feed, text, text_len, out, ROOM, &taken, &filled, &at);
    sink = bw_feed_finish(&feed, text, 0, &at);
    bw_free(&feed);
}

static void store(void) {
    bw_node lacking;
    size_t used;
    sink = bw_seat_new(&plain, root, 0, (uint32_t)chunks, &seat);
    sink = bw_seat_split(&seat, &other);
    sink = bw_cut_slice(text, text_len, UINT64_MAX, 1, out, ROOM, &used);
    sink = bw_seat_settle(&seat, out, used, &at);
    sink = bw_seat_take(&seat, 0, 1, &count);
    sink = bw_cut_slice(text, text_len, 0, 1, out, ROOM, &used);
    sink = bw_outline_commit(&outline, &seat, CHUNKS(3, 500), blob + 3072, 512000, &count, &parents,
                             &at);
    sink = bw_seat_commit(&seat, 0, UINT64_MAX, text, text_len, &count, &parents, &at);
    sink = bw_seat_give(&seat, 0, 1, &count);
    sink = bw_seat_held(&seat, 0, &count);
    sink = bw_seat_length(&seat, &count);
    sink = bw_seat_read(&seat, 0, out, 100000, &at);
    sink = bw_seat_slice(&seat, 0, UINT64_MAX, out, ROOM, &used, &lacking);
    sink = bw_seat_join(&seat, &other);
    sink = bw_seat_finish(&seat, out, ROOM, &used);
    sink = bw_seat_new(&plain, root, 3, 500, &seat);
    sink = bw_seat_commit_chunks(&seat, 0, UINT64_MAX, text, text_len, &count, &at);
    sink = bw_seat_new(&plain, root, 3, 500, &seat);
    sink = bw_seat_commit_some(&seat, 0, UINT64_MAX, text, text_len - 1, &count, &at);
    sink = bw_seat_new(&plain, root, 3, 500, &seat);
    sink =
        bw_outline_commit_chunks(&outline, &seat, CHUNKS(3, 500), blob + 3072, 512000, &count, &at);
    bw_free(&seat);
    bw_free(NULL);
}

static void gather(void) {
    bw_report report = {0, 0, 0, 0, 0, 0, 0};
    sink = bw_seat_new(&plain, root, 0, (uint32_t)chunks, &seat);
    text[text_len / 2] ^= 1;
    sink = bw_seat_gather(&seat, 0, 1, text, text_len, &report);
    text[text_len / 2] ^= 1;
    sink = bw_seat_salvage(&seat, text, text_len, &report);
    bw_free(&seat);
}

static void plan(void) {
    const bw_plan_policy policy = {20, 1, 1000, 0};
    bw_plan it = BW_EMPTY;
    bw_plan_next next = {0, 0, 0, 0};
    size_t holder = 0;
    uint32_t flag = 0;
    sink = bw_plan_new(UINT64_C(1) << 30, &policy, &it);
    sink = bw_plan_add_holder(&it, &holder);
    sink = bw_plan_ask(&it, 0, 0, &next);
    sink = bw_plan_kept(&it, 0, 0, 1, &count);
    sink = bw_plan_refused(&it, 0, 0, 2);
    sink = bw_plan_lacks(&it, 0, 1, 1);
    sink = bw_plan_has(&it, 0, 1, 1);
    for (int k = 0; k < 20; k++) {
        sink = bw_plan_ended(&it, 0, 64, 64, BW_ENDED_OVER, 0, 0, &flag);
        sink = bw_plan_ask(&it, 0, UINT64_MAX, &next);
    }
    sink = bw_plan_rank(&it, 0, 1);
    sink = bw_plan_forgive(&it, 0);
    sink = bw_plan_is_left_out(&it, 0, &flag);
    sink = bw_plan_limit(&it, 1);
    sink = bw_plan_is_done(&it, &flag);
    sink = bw_plan_lacking(&it, 0, &count);
    bw_free(&it);
}

static void *run(void *what) {
    (*(void (**)(void))what)();
    return NULL;
}

/* How much of a stack a call writes to, with what a thread takes for itself. */
static size_t taken_by(void (*what)(void)) {
    uint8_t *stack =
        mmap(NULL, STACK_LEN, PROT_READ | PROT_WRITE, MAP_PRIVATE | MAP_ANONYMOUS, -1, 0);
    pthread_attr_t attributes;
    pthread_t thread;
    if (stack == MAP_FAILED || pthread_attr_init(&attributes) ||
        pthread_attr_setstack(&attributes, stack, STACK_LEN))
        exit(2);
    memset(stack, PATTERN, STACK_LEN);
    if (pthread_create(&thread, &attributes, run, &what) || pthread_join(thread, NULL)) exit(2);
    size_t left = 0;
    while (left < STACK_LEN && stack[left] == PATTERN) left++;
    pthread_attr_destroy(&attributes);
    munmap(stack, STACK_LEN);
    return STACK_LEN - left;
}

static void nothing(void) {}

int main(void) {
    static const struct {
        const char *name;
        void (*what)(void);
    } calls[] = {
        {"hash", hash},   {"write", write_texts},    {"ranges", range},
        {"check", check}, {"outline", check_beside}, {"feed", pour},
        {"store", store}, {"gather", gather},        {"plan", plan},
    };
    size_t used, most = 0, none = taken_by(nothing);
    blob = malloc(BLOB_LEN);
    text = malloc(ROOM);
    outboard = malloc(ROOM);
    out = malloc(ROOM);
    if (!blob || !text || !outboard || !out) return 2;
    for (size_t i = 0; i < BLOB_LEN; i++) blob[i] = (uint8_t)(i * 31 + i / 999);
    chunks = (BLOB_LEN + BW_CHUNK_LEN - 1) / BW_CHUNK_LEN;
    memset(far, 255, sizeof far);
    if (bw_encode(&plain, blob, BLOB_LEN, text, ROOM, &text_len, root) ||
        bw_outboard(&plain, blob, BLOB_LEN, outboard, ROOM, &outboard_len, root))
        return 2;
    for (size_t k = 0; k < sizeof calls / sizeof *calls; k++) {
        used = taken_by(calls[k].what);
        if (used > most) most = used;
        if (used <= STACK_MOST) continue;
        fprintf(stderr,
                "stack.c: %s takes %zu bytes of stack, of which the thread has %zu for itself\n",
                calls[k].name, used, none);
        return 1;
    }
    printf("a thread that calls the C library takes at most %zu bytes of stack, of which it has "
           "%zu for itself\n",
           most, none);
    bw_free(&outline);
    free(blob);
    free(text);
    free(outboard);
    free(out);
    return 0;
}
