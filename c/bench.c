/* Times of calls, in one thread: the least of 9 rounds. It judges none. */
#define _POSIX_C_SOURCE 199309L
#include "tests.h"

#include <stdio.h>
#include <stdlib.h>
#include <time.h>

static double now(void) {
    struct timespec t;
    clock_gettime(CLOCK_MONOTONIC, &t);
    return (double)t.tv_sec + 1e-9 * (double)t.tv_nsec;
}

#define LEAST(best, times, call)                                                                   \
    double best = 1e9;                                                                             \
    for (int round_ = 0; round_ < 9; round_++) {                                                   \
        double from_ = now();                                                                      \
        for (size_t i_ = 0; i_ < (times); i_++) call;                                              \
        double took_ = (now() - from_) / (double)(times);                                          \
        if (took_ < best) best = took_;                                                            \
    }

static volatile bw_status kept;

int main(void) {
    static const bw_mode plain = {0, {0}};
    static const size_t sizes[] = {0, 1, 64, 1024, 8192, 65536, 1 << 20, 64 << 20};
    uint8_t *bytes = malloc(64 << 20), root[32], out[32];
    if (!bytes) return 1;
    memset(bytes, 7, 64 << 20);
    for (size_t k = 0; k < sizeof sizes / sizeof *sizes; k++) {
        size_t len = sizes[k], times = 1 + (8 << 20) / (len + 256);
        LEAST(best, times, kept = bw_hash(&plain, bytes, len, 0, out, sizeof out))
        printf("bw_hash of %zu bytes: %.0f ns, %.2f GB/s\n", len, best * 1e9,
               (double)len / best / 1e9);
    }
    bw_hasher hasher = BW_EMPTY;
    bw_seat seat = BW_EMPTY, other = BW_EMPTY;
    LEAST(made, 20000, kept = bw_hasher_new(&plain, &hasher))
    printf("bw_hasher_new, with the old one freed: %.0f ns\n", made * 1e9);
    LEAST(nothing, 100000, kept = bw_hasher_update(&hasher, bytes, 0))
    printf("bw_hasher_update of 0 bytes: %.1f ns\n", nothing * 1e9);
    LEAST(pieces, 512, kept = bw_hasher_update(&hasher, bytes, 1 << 16))
    printf("bw_hasher_update of 64 KiB: %.0f ns, %.2f GB/s\n", pieces * 1e9, 65536 / pieces / 1e9);
    kept = bw_hash(&plain, bytes, 1 << 20, 0, root, sizeof root);
    size_t text_len = (size_t)bw_slice_len(1 << 20, 0, UINT64_MAX), used = 0;
    uint8_t *text = malloc(text_len), *slice = malloc(1 << 18);
    uint64_t at = 0, mask = 0;
    if (!text || !slice) return 1;
    LEAST(encoded, 20, kept = bw_encode(&plain, bytes, 1 << 20, text, text_len, &used, root))
    printf("bw_encode of 1 MiB: %.0f us, %.2f GB/s\n", encoded * 1e6, (1 << 20) / encoded / 1e9);
    LEAST(checked, 20, kept = bw_check(of(&plain, root, 0, UINT64_MAX), text, text_len, &at))
    printf("bw_check of 1 MiB: %.0f us, %.2f GB/s\n", checked * 1e6, (1 << 20) / checked / 1e9);
    uint8_t *out_text = malloc(text_len);
    bw_feed feed = BW_EMPTY;
    size_t had = 0, filled = 0;
    if (!out_text) return 1;
    LEAST(whole, 20, kept = bw_hash(&plain, bytes, 1 << 20, 0, out, sizeof out))
    LEAST(decoded, 20,
          kept = bw_decode(of(&plain, root, 0, UINT64_MAX), text, text_len, out_text, text_len,
                           &used, &at, &at))
    printf("bw_decode of 1 MiB: %.0f us, %.2f of bw_hash\n", decoded * 1e6, decoded / whole);
    LEAST(poured, 20, {
        if (bw_feed_new(of(&plain, root, 0, UINT64_MAX), &feed)) return 1;
        for (size_t done = 0; done < text_len; done += had)
            if (bw_feed_take(&feed, text + done, text_len - done < 65536 ? text_len - done : 65536,
                             out_text, 65536, &had, &filled, &at))
                return 1;
    })
    printf("bw_feed_take of 1 MiB in pieces of 64 KiB: %.0f us, %.2f of bw_hash\n", poured * 1e6,
           poured / whole);
    bw_free(&feed);
    free(out_text);
    if (bw_seat_new(&plain, root, 0, 1024, &seat) ||
        bw_cut_slice(text, text_len, 0, 65536, slice, 1 << 18, &used))
        return 1;
    LEAST(length, 100000, kept = bw_seat_length(&seat, &at))
    printf("bw_seat_length: %.1f ns\n", length * 1e9);
    LEAST(taken, 100000,
          (kept = bw_seat_take(&seat, 3, 1, &mask), kept = bw_seat_give(&seat, 3, 1, &mask)))
    printf("bw_seat_take and bw_seat_give: %.1f ns\n", taken * 1e9);
    LEAST(split, 10000, kept = bw_seat_split(&seat, &other))
    printf("bw_seat_split, with the old one freed: %.0f ns\n", split * 1e9);
    double from = now();
    if (bw_seat_commit_chunks(&seat, 0, 65536, slice, used, &mask, &at) || mask != 64) return 1;
    printf("bw_seat_commit_chunks of 64 chunks: %.1f us\n", (now() - from) * 1e6);
    if (bw_cut_slice(text, text_len, UINT64_MAX, 1, slice, 1 << 18, &used) ||
        bw_seat_settle(&seat, slice, used, &at))
        return 1;
    if (bw_cut_slice(text, text_len, 65536, 65536, slice, 1 << 18, &used)) return 1;
    from = now();
    if (bw_seat_commit(&seat, 65536, 65536, slice, used, &mask, &at, &at) || mask != 64) return 1;
    printf("bw_seat_commit of 64 chunks: %.1f us\n", (now() - from) * 1e6);
    LEAST(again, 100, kept = bw_seat_commit(&seat, 65536, 65536, slice, used, &mask, &at, &at))
    printf("bw_seat_commit of 64 chunks that are held: %.1f us\n", again * 1e6);
    LEAST(read, 100, kept = bw_seat_read(&seat, 0, bytes, 65536, &at))
    printf("bw_seat_read of 64 KiB: %.1f us, %.2f GB/s\n", read * 1e6, 65536 / read / 1e9);
    LEAST(held, 1000, kept = bw_seat_held(&seat, 0, &mask))
    printf("bw_seat_held: %.2f us\n", held * 1e6);
    bw_free(&hasher);
    bw_free(&seat);
    bw_free(&other);
    /* 64 KiB of a plain copy of 64 MiB, beside an outline. */
    size_t outboard_len = (size_t)bw_outboard_len(64 << 20);
    uint8_t *outboard = malloc(outboard_len);
    bw_outline outline = BW_EMPTY;
    if (!outboard || bw_outboard(&plain, bytes, 64 << 20, outboard, outboard_len, &used, root))
        return 1;
    if (bw_outline_new(&plain, root, outboard, outboard_len, &outline, &at)) return 1;
    LEAST(hashed, 100, kept = bw_hash(&plain, bytes, 65536, 0, out, sizeof out))
    LEAST(beside, 100,
          kept = bw_outline_check(&outline, CHUNKS(5000, 64), bytes + 5000 * 1024, 65536, &at))
    printf("bw_outline_check of 64 KiB of 64 MiB: %.1f us, %.2f of bw_hash\n", beside * 1e6,
           beside / hashed);
    LEAST(sliced, 100,
          kept = bw_outline_slice(&outline, CHUNKS(5000, 64), bytes + 5000 * 1024, 65536, slice,
                                  1 << 18, &used, &at))
    printf("bw_outline_slice of 64 KiB of 64 MiB: %.1f us, %.2f of bw_hash\n", sliced * 1e6,
           sliced / hashed);
    bw_free(&outline);
    free(bytes);
    free(text);
    free(slice);
    free(outboard);
    return 0;
}
