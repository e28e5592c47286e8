/* Gathers a blob of any length out of copies of its encoding, any of which may be damaged, and
 * writes it to standard output, in the memory of one window.
 *
 *     windows ROOT COPY ..
 *
 * ROOT is the blob's hash in hexadecimal digits and a COPY a file with its combined encoding. A
 * window is a store of a part of the blob. Four threads fill it, each out of another copy first,
 * and then it is written and makes room for the next one. The status is 0 only where the hash of
 * all that was written is ROOT. Else the bytes that were written are a beginning of the blob. */
#define _POSIX_C_SOURCE 200809L
#include "berylwool.h"

#include <fcntl.h>
#include <pthread.h>
#include <stdio.h>
#include <stdlib.h>
#include <string.h>
#include <unistd.h>

enum { THREADS = 4, GROUP_LEN = BW_GROUP_CHUNKS * BW_CHUNK_LEN, WINDOW_CHUNKS = 4096 };

static const bw_mode plain = {0, {0}};

/* What is gathered: the blob's hash and length, and the copies, as open files. */
typedef struct task {
    uint8_t root[BW_HASH_LEN];
    uint64_t len;
    const int *copies;
    uint32_t copy_count;
} task;

/* The slice of a group has 64 chunks and their parents: those below them, and those on the way. */
typedef uint8_t slice_room[8 + 2 * GROUP_LEN];

/* A worker's part in a window, which begins with this chunk of the blob. */
typedef struct worker {
    bw_seat seat;
    const task *of;
    uint64_t first_chunk;
    uint32_t groups, number;
    slice_room slice;
} worker;

static void stop(const char *what, const char *why) {
    fprintf(stderr, "windows: %s: %s\n", what, why);
    exit(1);
}

static void must(const char *what, bw_status status) {
    if (status != BW_OK) stop(what, bw_strerror(status));
}

/* Reads the slice (start, len) of a blob of `total` bytes out of a copy, and answers how long it
 * is: less where the copy ends before. */
static size_t read_slice(int copy, uint64_t total, uint64_t start, uint64_t len, uint8_t *slice,
                         size_t room) {
    bw_range ranges[BW_RANGES_MAX];
    size_t count = 0, done = 0;
    if (bw_slice_ranges(total, start, len, ranges, BW_RANGES_MAX, &count) != BW_OK) return 0;
    for (size_t k = 0; k < count; k++)
        for (uint64_t at = 0; at < ranges[k].len;) {
            uint64_t left = ranges[k].len - at;
            if (done == room || ranges[k].at + at > INT64_MAX) return done;
            ssize_t got = pread(copy, slice + done, left < room - done ? (size_t)left : room - done,
                                (off_t)(ranges[k].at + at));
            if (got <= 0) return done;
            done += (size_t)got;
            at += (uint64_t)got;
        }
    return done;
}

/* Asks the copies in turn for the chunks from chunk `first` of the blob on, until one has them, and
 * answers whether one had. */
static int fetch(worker *it, uint64_t first, uint64_t count) {
    uint64_t start = first * BW_CHUNK_LEN, len = count * BW_CHUNK_LEN, committed = 0, at = 0;
    for (uint32_t k = 0; k < it->of->copy_count; k++) {
        int copy = it->of->copies[(it->number + k) % it->of->copy_count];
        size_t used = read_slice(copy, it->of->len, start, len, it->slice, sizeof it->slice);
        if (bw_seat_commit_chunks(&it->seat, start, len, it->slice, used, &committed, &at) == BW_OK)
            return 1;
    }
    return 0;
}

/* Goes once round all groups, from its own part of them on, and fetches what nobody has or is
 * fetching. */
static void *work(void *arg) {
    worker *it = arg;
    for (uint32_t step = 0; step < it->groups; step++) {
        uint32_t group = (step + it->number * it->groups / THREADS) % it->groups;
        uint64_t left = 0;
        must("take", bw_seat_take(&it->seat, group, UINT64_MAX, &left));
        if (left && fetch(it, it->first_chunk + (uint64_t)group * BW_GROUP_CHUNKS, BW_GROUP_CHUNKS))
            left = 0;
        must("give", bw_seat_give(&it->seat, group, left, &left));
    }
    return NULL;
}

/* What is left when all have ended: groups that one worker gave back after another had passed them
 * by, and those of which each copy has some chunk damaged, perhaps another one each. */
static void close_window(worker *it) {
    work(it);
    for (uint32_t group = 0; group < it->groups; group++) {
        uint64_t left = 0, given = 0;
        must("take", bw_seat_take(&it->seat, group, UINT64_MAX, &left));
        for (uint32_t j = 0; j < BW_GROUP_CHUNKS; j++)
            if (left >> j & 1)
                fetch(it, it->first_chunk + (uint64_t)group * BW_GROUP_CHUNKS + j, 1);
        must("give", bw_seat_give(&it->seat, group, left, &given));
    }
}

/* Fills a window of `chunks` chunks, which are all that the blob has there. The first worker has
 * the window's seat in the end. */
static void fill(worker *workers, uint64_t first_chunk, uint32_t chunks) {
    pthread_t threads[THREADS];
    for (uint32_t k = 0; k < THREADS; k++) {
        workers[k].first_chunk = first_chunk;
        workers[k].groups = (chunks + BW_GROUP_CHUNKS - 1) / BW_GROUP_CHUNKS;
        if (k == 0)
            must("window",
                 bw_seat_new(&plain, workers[0].of->root, first_chunk, chunks, &workers[0].seat));
        else must("seat", bw_seat_split(&workers[0].seat, &workers[k].seat));
    }
    for (int k = 0; k < THREADS; k++)
        if (pthread_create(&threads[k], NULL, work, &workers[k])) stop("thread", "refused");
    for (int k = 0; k < THREADS; k++) pthread_join(threads[k], NULL);
    for (int k = 1; k < THREADS; k++)
        must("join", bw_seat_join(&workers[0].seat, &workers[k].seat));
    close_window(&workers[0]);
}

/* Takes a window's bytes into the hash and writes them. */
static void put(bw_seat *seat, uint64_t len, bw_hasher *hasher) {
    static uint8_t bytes[GROUP_LEN];
    uint64_t missing = 0;
    for (uint64_t at = 0; at < len;) {
        size_t count = len - at < sizeof bytes ? (size_t)(len - at) : sizeof bytes;
        must("blob", bw_seat_read(seat, at, bytes, count, &missing));
        must("hash", bw_hasher_update(hasher, bytes, count));
        if (fwrite(bytes, 1, count, stdout) != count) stop("standard output", "can't be written");
        at += count;
    }
}

/* The length that the last chunk certifies, of the first copy that has it. */
static uint64_t certified(const task *of) {
    static slice_room slice;
    bw_slice tail = {plain, {0}, UINT64_MAX, 1};
    memcpy(tail.root, of->root, sizeof tail.root);
    for (uint32_t k = 0; k < of->copy_count; k++) {
        uint64_t claimed = 0, total = 0, at = 0;
        size_t used = 0;
        if (read_slice(of->copies[k], 0, 0, 1, slice, 8) != 8)
            continue; /* the length stands before all else */
        for (int i = 0; i < 8; i++) claimed |= (uint64_t)slice[i] << 8 * i;
        size_t len = read_slice(of->copies[k], claimed, UINT64_MAX, 1, slice, sizeof slice);
        if (bw_decode(&tail, slice, len, NULL, 0, &used, &total, &at) == BW_OK &&
            total != UINT64_MAX)
            return total;
    }
    stop("length", "no copy has a true last chunk");
    return 0;
}

int main(int count, char **words) {
    static worker workers[THREADS];
    task of;
    if (count < 3 || strlen(words[1]) != 2 * BW_HASH_LEN) stop("usage", "windows ROOT COPY ..");
    for (int i = 0; i < BW_HASH_LEN; i++) {
        unsigned byte;
        if (sscanf(words[1] + 2 * i, "%2x", &byte) != 1) stop(words[1], "no hash");
        of.root[i] = (uint8_t)byte;
    }
    of.copy_count = (uint32_t)count - 2;
    int *copies = malloc(of.copy_count * sizeof *copies);
    if (!copies) stop("memory", "refused");
    for (uint32_t k = 0; k < of.copy_count; k++)
        if ((copies[k] = open(words[k + 2], O_RDONLY)) < 0) stop(words[k + 2], "can't be read");
    of.copies = copies;
    of.len = certified(&of);

    bw_hasher hasher = BW_EMPTY;
    uint8_t hash[BW_HASH_LEN];
    must("hasher", bw_hasher_new(&plain, &hasher));
    const uint64_t window_len = (uint64_t)WINDOW_CHUNKS * BW_CHUNK_LEN;
    for (uint32_t k = 0; k < THREADS; k++) {
        workers[k].of = &of;
        workers[k].number = k;
    }
    for (uint64_t at = 0, len = 0; at < of.len; at += len) {
        len = of.len - at < window_len ? of.len - at : window_len;
        fill(workers, at / BW_CHUNK_LEN, (uint32_t)((len + BW_CHUNK_LEN - 1) / BW_CHUNK_LEN));
        put(&workers[0].seat, len, &hasher);
    }
    bw_free(&workers[0].seat);
    must("hash", bw_hasher_finish(&hasher, 0, hash, BW_HASH_LEN));
    if (fflush(stdout)) stop("standard output", "can't be written");
    if (memcmp(hash, of.root, sizeof hash) != 0) stop("blob", bw_strerror(BW_NOT_THE_ROOT));
    bw_free(&hasher);
    free(copies);
    return 0;
}
