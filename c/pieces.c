/* Times of BLAKE3's own C library on the first bytes of a file, in pieces, each hashed by itself:
 * scripts/bench.py compares them with those of c/compare.c.
 *
 *     pieces FILE
 *
 * Each time is the least of several, in which the lengths take turns. */
#define _POSIX_C_SOURCE 199309L
#include <blake3.h>

#include <stdio.h>
#include <stdlib.h>
#include <time.h>

enum { ROUNDS = 100, PART_LEN = 1 << 20, LENS = 6 };

static const size_t kib[LENS] = {1, 2, 4, 8, 16, 64};
static volatile uint8_t kept;

static double now(void) {
    struct timespec t;
    clock_gettime(CLOCK_MONOTONIC, &t);
    return (double)t.tv_sec + 1e-9 * (double)t.tv_nsec;
}

/* How long the pieces of `piece_len` bytes take. */
static double timed(const uint8_t *bytes, size_t len, size_t piece_len) {
    double from = now();
    for (size_t at = 0; at < len; at += piece_len) {
        uint8_t hash[BLAKE3_OUT_LEN];
        blake3_hasher hasher;
        blake3_hasher_init(&hasher);
        blake3_hasher_update(&hasher, bytes + at, len - at < piece_len ? len - at : piece_len);
        blake3_hasher_finalize(&hasher, hash, sizeof hash);
        kept = hash[0];
    }
    return now() - from;
}

int main(int argc, char **argv) {
    FILE *file = argc == 2 ? fopen(argv[1], "rb") : NULL;
    uint8_t *bytes = malloc(PART_LEN);
    if (!file || !bytes) {
        fprintf(stderr, "usage: pieces FILE\n");
        return 2;
    }
    size_t len = fread(bytes, 1, PART_LEN, file);
    double least[LENS];
    for (int i = 0; i < LENS; i++) least[i] = 1e9;
    for (int round = 0; round < ROUNDS; round++) {
        for (int i = 0; i < LENS; i++) {
            double took = timed(bytes, len, kib[i] << 10);
            if (took < least[i]) least[i] = took;
        }
    }
    for (int i = 0; i < LENS; i++)
        printf("libblake3's hashes of %zu KiB each: %.3f ms\n", kib[i], least[i] * 1e3);
    return 0;
}
