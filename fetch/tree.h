/* Slices, put together of nodes that are known and that mirrors have. A slice is asked by `start`
 * and `len` as in berylwool.h. A blob is asked for in units of 1 MiB, and verified in groups of 64
 * KiB. Nothing here hashes or verifies: the library does. */
#ifndef BW_FETCH_TREE_H
#define BW_FETCH_TREE_H

#include "http.h"

#include <stdatomic.h>
#include <sys/uio.h>

enum {
    UNIT_LEN = 1 << 20,
    UNIT_CHUNKS = UNIT_LEN / BW_CHUNK_LEN,
    UNIT_PARENTS = BW_NODES_MAX(UNIT_CHUNKS) - UNIT_CHUNKS,
    GROUP_LEN = BW_GROUP_CHUNKS * BW_CHUNK_LEN,
    UNIT_GROUPS = UNIT_LEN / GROUP_LEN,
    GROUP_NODES = BW_NODES_MAX(BW_GROUP_CHUNKS),
    GROUP_TEXT = BW_LENGTH_LEN + GROUP_LEN + (GROUP_NODES - BW_GROUP_CHUNKS) * BW_PARENT_LEN
};

typedef struct run {
    uint64_t first, count; /* chunks */
} run;

/* A parent above units. Once it is known to be true it stays so. */
typedef struct known {
    atomic_uchar state;
    uint8_t text[BW_PARENT_LEN];
} known;

/* The nodes of a slice of chunks of one group, in their order, and where each was found. */
typedef struct slice {
    size_t count;
    bw_placed nodes[GROUP_NODES];
    const uint8_t *found[GROUP_NODES];
} slice;

/* Where the nodes of a slice are taken from: known parents first, then what came of a file of some
 * kind, and of an outboard encoding. */
typedef struct origin {
    known *known;
    kind as;
    const pieces *seen, *parents;
} origin;

/* How many there are in a blob of `total` bytes: one where it is empty. */
static inline uint64_t chunks_of(uint64_t total) {
    return total ? (total - 1) / BW_CHUNK_LEN + 1 : 1;
}
static inline uint64_t last_chunk_at(uint64_t total) {
    return (chunks_of(total) - 1) * BW_CHUNK_LEN;
}
static inline uint64_t units_of(uint64_t total) { return (chunks_of(total) - 1) / UNIT_CHUNKS + 1; }
static inline uint64_t end_of(run it) { return it.first + it.count; }
static inline uint64_t group_after(run it) {
    return it.count ? (end_of(it) - 1) / BW_GROUP_CHUNKS + 1 : 0;
}

static inline uint64_t groups_of(uint64_t total) {
    return (chunks_of(total) - 1) / BW_GROUP_CHUNKS + 1;
}

uint64_t length_claimed(const uint8_t claim[BW_LENGTH_LEN]);
void claim_length(uint8_t claim[BW_LENGTH_LEN], uint64_t total);
run run_of_unit(uint64_t total, uint64_t unit);
run run_in(run it, uint64_t first, uint64_t count);
uint64_t mask_in(uint64_t group, run it);
bool slice_of(slice *it, uint64_t total, uint64_t start, uint64_t len);
bool know(known *all, const bw_placed *it, const uint8_t *text);
bool pieces_add(pieces *out, known *above, kind of, uint64_t total, uint64_t start, uint64_t len);
const uint8_t *pieces_find(const pieces *in, uint64_t at, size_t len);
bool slice_find(slice *it, const origin *from, uint64_t total, uint64_t start, uint64_t len);
size_t slice_put(const slice *it, uint64_t total, uint8_t *out);
int slice_chunks(const slice *it, struct iovec out[BW_GROUP_CHUNKS]);

/* How chunks of a group are verified, out of what came. Where a slice is refused, *refused is the
 * node that is: whose it is, is told by `blame`. */
typedef enum verdict { NOT_THERE, TAKEN, REFUTED } verdict;
typedef struct trial {
    verdict (*take)(void *with, run of, bw_placed *refused);
    void (*blame)(void *with, run of, const bw_placed *refused);
    void *with;
} trial;

void salvage(const trial *by, run of, const bw_placed *refused);

#endif
