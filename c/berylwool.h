/* Verified content-addressed storage (BLAKE3, Bao) as a C library: the reference.
 *
 * docs/C-API.md is the guide: five tasks with code, threads, memory and errors. Link with
 * libberylwool.a or libberylwool.so.
 *
 * Every caller keeps these rules, which no call checks:
 *   - No pointer is NULL, except one with a length of 0 beside it, where any address will do, and
 *     the argument of a call that frees. Results need memory of the caller even if nobody reads
 *     them.
 *   - A pointer to non-const is passed to one parameter of one call at a time. What is passed as
 *     const may be shared.
 *   - A buffer has at most SIZE_MAX / 2 bytes.
 *   - The two seats of bw_seat_join come from the same bw_seat_new, or their stores differ in root,
 *     mode, capacity or first chunk.
 *   - malloc, realloc and free belong to one allocator and align to 16.
 *   - No call is made from a signal handler, or in the forked child of a process with threads.
 *   - The calling thread has a stack of at least 64 KiB.
 *
 * There is no hidden state: calls on different memory may run at the same time, in any threads. No
 * call starts a thread, waits, takes a lock, opens a file or prints. Memory comes from malloc, and
 * each refusal of it is a status.
 *
 * A bw_status is BW_OK, which is 0, or the number of a fault. After a fault a call has written only
 * what its comment names for that fault.
 *
 * "A check fault" is BW_SHORT, BW_MISMATCH or BW_TRAILING: the first fault of the encoding that was
 * checked, with its offset in *at. "The slice (start, len)" of a blob has the chunks with its bytes
 * from `start` up to `start + len`, and the parents above them: a `len` of 0 counts as 1, and a
 * `start` at or past the end selects the last chunk. (0, 2^64 - 1) is the combined encoding. */
#ifndef BERYLWOOL_H
#define BERYLWOOL_H

#include <stddef.h>
#include <stdint.h>

#ifdef __cplusplus
extern "C" {
#define BW_AT_LEAST(n)
#else
#define BW_AT_LEAST(n) static n
#endif

/* Ignoring a status, or passing NULL where it isn't allowed, is a bug. GCC and Clang warn about
 * both: the macros below mark the functions, and C marks arrays of at least so many bytes. */
#if defined(__GNUC__)
#define BW_USE __attribute__((warn_unused_result))
#define BW_NONNULL(...) __attribute__((nonnull(__VA_ARGS__)))
#else
#define BW_USE
#define BW_NONNULL(...)
#endif

/* The version of this header: 10,000 * major + 100 * minor + patch. */
#define BW_VERSION 200

#define BW_HASH_LEN 32
#define BW_CHUNK_LEN 1024
#define BW_GROUP_CHUNKS 64
#define BW_RANGES_MAX 55

/* An encoding begins with the blob's length, in BW_LENGTH_LEN bytes, little-endian. A parent in it
 * has BW_PARENT_LEN bytes. */
#define BW_LENGTH_LEN 8
#define BW_PARENT_LEN 64

/* A chunk has at most BW_DEPTH_MAX parents above it, and a slice of `chunks` chunks at most
 * BW_NODES_MAX(chunks) nodes. */
#define BW_DEPTH_MAX 54
#define BW_NODES_MAX(chunks) (2 * (chunks) + 105)

/* The kinds of modes. */
#define BW_MODE_HASH 0
#define BW_MODE_KEYED_HASH 1
#define BW_MODE_DERIVE_KEY 2

/* The kinds of nodes; the length is the one that an encoding begins with. */
#define BW_NODE_PARENT 0
#define BW_NODE_CHUNK 1
#define BW_NODE_LENGTH 2
#define BW_NODE_NONE 3

typedef uint32_t bw_status;

/* Whether a status means that memory was refused. */
#define BW_IS_MEMORY(status)                                                                       \
    ((status) == BW_TEXT_MEMORY || (status) == BW_STORE_MEMORY || (status) == BW_SPLIT_MEMORY ||   \
     (status) == BW_SERVE_MEMORY || (status) == BW_MEMORY)

enum {
    BW_OK = 0,
    BW_TOO_LONG = 201,       /* more than 2^64 - 1 bytes */
    BW_TEXT_MEMORY = 401,    /* out of memory for an encoding */
    BW_SHORT = 501,          /* the encoding ends within the node that begins at *at */
    BW_MISMATCH = 502,       /* the node that begins at *at is damaged */
    BW_TRAILING = 503,       /* all is good, and something follows at *at */
    BW_TOO_MUCH = 504,       /* 2^64 bytes of an encoding or more */
    BW_OTHER_BLOB = 601,     /* the blob's hash isn't the root */
    BW_COLLISION = 602,      /* a collision: two different inputs with one chaining value */
    BW_STORE_MEMORY = 801,   /* out of memory for a store */
    BW_CAPACITY = 802,       /* not 1 to 65,536 chunks, or the first chunk is above 2^54 */
    BW_NO_GROUP = 803,       /* there is no such group */
    BW_OTHER_ROOT = 804,     /* the outline is of another root or mode than the store */
    BW_TOO_LARGE = 805,      /* the length is above the capacity, or the first chunk isn't 0 */
    BW_SPLIT_MEMORY = 806,   /* out of memory for a seat */
    BW_OTHER_LENGTH = 807,   /* the encoding's length isn't the recorded one, or none is recorded */
    BW_NO_LENGTH = 808,      /* no length is recorded */
    BW_LACKING = 809,        /* the node in *lacking isn't held */
    BW_SERVE_MEMORY = 810,   /* out of memory for a slice */
    BW_UNFINISHED = 901,     /* no length is recorded, or a byte isn't held */
    BW_NOT_THE_ROOT = 902,   /* the hash of the bytes isn't the root */
    BW_ROOM = 1201,          /* the caller's buffer is too small */
    BW_NO_HANDLE = 1202,     /* the handle is empty, or of another kind */
    BW_MEMORY = 1203,        /* out of memory for what a handle owns */
    BW_MISSING = 1204,       /* the byte at *missing isn't held */
    BW_NO_TAIL = 1205,       /* the encoding doesn't have the last chunk of its length */
    BW_DIFFERS = 1206,       /* another length is recorded */
    BW_NOT_UTF8 = 1207,      /* the context isn't UTF-8 */
    BW_PAST_OUTPUT = 1208,   /* the output asked for ends above 2^64 - 1 */
    BW_NO_CHUNKS = 1210,     /* the blob doesn't have so many chunks there */
    BW_OTHER_STORE = 1211,   /* the seats' stores differ in root, mode, capacity or first chunk */
    BW_OTHER_SIZE = 1212,    /* the next node has to be passed to bw_feed_take first */
    BW_NO_MODE = 1213,       /* the mode's kind is unknown */
    BW_NO_HOLDER = 1214,     /* the plan has no such holder */
    BW_NO_REQUEST = 1215,    /* no such request is under way */
    BW_NO_SUBTREE = 1216     /* the bytes aren't a subtree */
};

/* Returns a status in words.
 *
 * The text is that of the library which is linked, so it covers a newer library's statuses. It
 * lasts as long as the program. */
const char *bw_strerror(bw_status status);

/* A mode: plain hashing (BW_MODE_HASH), keyed hashing under `key` (BW_MODE_KEYED_HASH), or key
 * derivation (BW_MODE_DERIVE_KEY), which bw_mode_derive makes. {0} is plain hashing.
 *
 * A call with a mode of another kind returns BW_NO_MODE before all else; a handle that it would
 * have filled is empty then. */
typedef struct bw_mode {
    uint32_t kind;
    uint8_t key[32];
} bw_mode;

/* What an encoding is checked as: the slice (start, len) of the blob whose hash in `mode` is
 * `root`. */
typedef struct bw_slice {
    bw_mode mode;
    uint8_t root[32];
    uint64_t start;
    uint64_t len;
} bw_slice;

/* The `count` chunks of a blob from chunk `first` on. */
typedef struct bw_chunks {
    uint64_t first;
    uint64_t count;
} bw_chunks;

/* The inputs of one compression (BLAKE3 paper, 2.2). */
typedef struct bw_input {
    uint32_t h[8];
    uint32_t m[16];
    uint64_t t;
    uint32_t b;
    uint32_t d;
} bw_input;

/* A node of a blob's tree: the parent whose right child begins at chunk `number` (BW_NODE_PARENT),
 * or chunk `number` (BW_NODE_CHUNK). */
typedef struct bw_node {
    uint32_t kind;
    uint64_t number;
} bw_node;

/* A node of a slice, and where it is: `kind` and `number` as in bw_node, and its `size` in bytes in
 * an encoding.
 *
 * It covers `len` bytes of the blob from byte `start` on. It begins at byte `combined_at` of the
 * combined encoding and at byte `outboard_at` of the outboard encoding, which has no chunks: for a
 * chunk `outboard_at` is 0. */
typedef struct bw_placed {
    uint32_t kind;
    uint32_t size;
    uint64_t number;
    uint64_t start;
    uint64_t len;
    uint64_t combined_at;
    uint64_t outboard_at;
} bw_placed;

/* The `len` bytes from byte `at` on. */
typedef struct bw_range {
    uint64_t at;
    uint64_t len;
} bw_range;

/* What bw_seat_gather and bw_seat_salvage did. A count stays at 2^64 - 1 once there.
 *
 * The fields are the chunks committed, the parents stored, the slices asked for, the encodings that
 * a check refused, the fetches whose device failed (always 0 here), the refusals of memory, and 1
 * if a certified length was above the store's capacity. */
typedef struct bw_report {
    uint64_t committed;
    uint64_t parents;
    uint64_t asked;
    uint64_t refused;
    uint64_t failed;
    uint64_t memory;
    uint32_t too_large;
} bw_report;

/* A handle owns a hasher, a check in pieces, an outline, a seat or a plan, or is empty.
 *
 * Set it to BW_EMPTY before its first use, and end with bw_free. It has one owner: it may be moved
 * as bytes, but using a copy beside it is undefined behaviour. Only this library reads or writes
 * `at` and what it points to. A handle may go from one thread to another by anything that orders
 * memory: a thread's start or join, a lock, a sequentially consistent atomic. Each kind has its own
 * type, so that a compiler refuses one in place of another. */
typedef struct bw_hasher {
    void *at;
} bw_hasher;

typedef struct bw_feed {
    void *at;
} bw_feed;

typedef struct bw_outline {
    void *at;
} bw_outline;

typedef struct bw_seat {
    void *at;
} bw_seat;

typedef struct bw_plan {
    void *at;
} bw_plan;

#define BW_EMPTY {NULL}

/* Frees what a handle of any kind owns, if anything, and leaves it empty.
 *
 * An empty handle may be freed again, and NULL does nothing. In C11, GCC and Clang refuse a pointer
 * to anything but a handle; other languages pass a handle's address. */
void bw_free(void *handle);

/* Returns the version of the library that is linked, in the form of BW_VERSION. */
uint32_t bw_version(void);

/* --- Hashes */

/* Makes the mode that derives keys for the purpose that `context` names.
 *
 * `context` is UTF-8. The mode's `key` is the hash of the context, which isn't secret. In this mode
 * the hash of a key's material is the derived key, and encodings and stores take it as they take
 * any mode. BW_NOT_UTF8: *mode is unchanged. */
BW_USE bw_status bw_mode_derive(const uint8_t *context, size_t context_len,
                                bw_mode *mode) BW_NONNULL(3);

/* Computes `out_len` bytes of extended output of `bytes`, from byte `at` of the output on.
 *
 * Its first BW_HASH_LEN bytes are the hash: that is `at` 0. BW_PAST_OUTPUT. */
BW_USE bw_status bw_hash(const bw_mode *mode, const uint8_t *bytes, size_t len, uint64_t at,
                         uint8_t *out, size_t out_len) BW_NONNULL(1);

/* Makes a hasher that has no input yet.
 *
 * What the handle owned is freed. BW_MEMORY: the handle is empty. */
BW_USE bw_status bw_hasher_new(const bw_mode *mode, bw_hasher *hasher) BW_NONNULL(1, 2);

/* Makes `other` another hasher with the same mode and input so far.
 *
 * What one of them takes in then, the other doesn't. What `other` owned is freed. BW_NO_HANDLE,
 * BW_MEMORY: `other` is empty. */
BW_USE bw_status bw_hasher_copy(bw_hasher *hasher, bw_hasher *other) BW_NONNULL(1, 2);

/* Appends `bytes` to a hasher's input.
 *
 * BW_TOO_LONG, BW_NO_HANDLE: the hasher is unchanged. */
BW_USE bw_status bw_hasher_update(bw_hasher *hasher, const uint8_t *bytes,
                                  size_t len) BW_NONNULL(1);

/* Computes extended output of a hasher's input so far, as bw_hash does. More input may follow.
 *
 * BW_NO_HANDLE, BW_PAST_OUTPUT. */
BW_USE bw_status bw_hasher_finish(bw_hasher *hasher, uint64_t at, uint8_t *out,
                                  size_t out_len) BW_NONNULL(1);

/* --- Encodings written, to the front of `out`, with their length in *used. BW_TEXT_MEMORY.
 * BW_ROOM: `out` is unchanged, and *used is the length needed. */

/* Returns the length of the outboard encoding of a blob of `len` bytes, or 0 if it is above 2^64 -
 * 1. */
uint64_t bw_outboard_len(uint64_t len);

/* Returns the length of the slice (start, slice_len) of a blob of `len` bytes, or 0 if it is above
 * 2^64 - 1. It is at most that of the combined encoding, which is the slice (0, 2^64 - 1). */
uint64_t bw_slice_len(uint64_t len, uint64_t start, uint64_t slice_len);

/* Writes the combined encoding of a blob, and its hash to `root`.
 *
 * BW_ROOM comes before any memory is taken or any byte hashed. */
BW_USE bw_status bw_encode(const bw_mode *mode, const uint8_t *bytes, size_t len, uint8_t *out,
                           size_t out_len, size_t *used,
                           uint8_t root[BW_AT_LEAST(BW_HASH_LEN)]) BW_NONNULL(1, 6);

/* Writes the outboard encoding of a blob, and its hash to `root`.
 *
 * BW_ROOM comes before any memory is taken or any byte hashed. */
BW_USE bw_status bw_outboard(const bw_mode *mode, const uint8_t *bytes, size_t len, uint8_t *out,
                             size_t out_len, size_t *used,
                             uint8_t root[BW_AT_LEAST(BW_HASH_LEN)]) BW_NONNULL(1, 6);

/* Writes the parents of the subtree over `bytes`, which begin with chunk `first` of a blob, as they
 * follow one another in the blob's outboard encoding: 64 bytes for each chunk but one.
 *
 * So a mirror of the plain blob needs of that encoding only the parents above such subtrees, whose
 * places bw_slice_nodes lists. A subtree of several chunks begins at a multiple of the least power
 * of two that is at least their number. It has as many chunks as that, or it ends with the blob.
 *
 * BW_TOO_LONG: the bytes end above 2^64 - 1. BW_NO_SUBTREE: they don't begin at such a multiple.
 * BW_ROOM comes before any memory is taken or any byte hashed. */
BW_USE bw_status bw_parents(const bw_mode *mode, uint64_t first, const uint8_t *bytes, size_t len,
                            uint8_t *out, size_t out_len, size_t *used) BW_NONNULL(1, 7);

/* Copies a slice out of a combined encoding, and verifies nothing. What isn't there is left out. */
BW_USE bw_status bw_cut_slice(const uint8_t *text, size_t text_len, uint64_t start, uint64_t len,
                              uint8_t *out, size_t out_len, size_t *used) BW_NONNULL(7);

/* Lists the ranges of the combined encoding of a blob of `total` bytes that are the slice (start,
 * len).
 *
 * A server's file is asked for these ranges; what it returns, one range after another, is the
 * encoding of the slice. `room` is the length of `out` in ranges, of which BW_RANGES_MAX are always
 * enough, and *count is how many were written. They are in order, and none begins where another
 * ends.
 *
 * BW_TOO_LONG: the combined encoding has 2^64 bytes or more. BW_ROOM: some of `out` may have been
 * written. */
BW_USE bw_status bw_slice_ranges(uint64_t total, uint64_t start, uint64_t len, bw_range *out,
                                 size_t room, size_t *count) BW_NONNULL(6);

/* Lists the ranges of the outboard encoding of a blob of `total` bytes that are its length and the
 * parents of the slice (start, len), as bw_slice_ranges does.
 *
 * Together with the slice's chunks, these bytes make what bw_outline_slice makes of them. BW_ROOM:
 * some of `out` may have been written. */
BW_USE bw_status bw_outboard_ranges(uint64_t total, uint64_t start, uint64_t len, bw_range *out,
                                    size_t room, size_t *count) BW_NONNULL(6);

/* Lists the nodes of the slice (start, len) of a blob of `total` bytes, in the order of its
 * encoding after the length, each with its places in the encodings and in the blob.
 *
 * `room` is the length of `out` in nodes, of which BW_NODES_MAX of the slice's chunks are always
 * enough, and *count is how many were written.
 *
 * BW_TOO_LONG: the combined encoding has 2^64 bytes or more. BW_ROOM, exactly if there are more
 * nodes: some of `out` may have been written. */
BW_USE bw_status bw_slice_nodes(uint64_t total, uint64_t start, uint64_t len, bw_placed *out,
                                size_t room, size_t *count) BW_NONNULL(6);

/* Finds the node that byte `at` of the encoding of the slice (start, len) belongs to, as
 * bw_slice_nodes lists it, for a blob of `total` bytes.
 *
 * It translates the *at of a check fault, or an offset within a node; `total` is then the length
 * that the encoding's first 8 bytes claim. Below 8, *node is the length: BW_NODE_LENGTH, size 8,
 * and all else 0. From the end of the encoding on it is BW_NODE_NONE, and all else 0. The chunk of
 * an empty blob is at 8, where the encoding ends.
 *
 * BW_TOO_LONG, as bw_slice_nodes: *node is unchanged. */
BW_USE bw_status bw_node_at(uint64_t total, uint64_t start, uint64_t len, uint64_t at,
                            bw_placed *node) BW_NONNULL(5);

/* --- Encodings checked: BW_OK exactly if an encoding is accepted as the slice, else a check fault.
 * No memory is taken. */

/* Checks `text` as a slice. */
BW_USE bw_status bw_check(const bw_slice *slice, const uint8_t *text, size_t text_len,
                          uint64_t *at) BW_NONNULL(1, 4);

/* Checks `text` as a slice, and copies the blob's bytes of its range to the front of `out`.
 *
 * These are `len` bytes from byte `start` on, or those before the blob's end; *used is their
 * number. *total is the blob's length if the encoding certifies it by having the last chunk, else
 * 2^64 - 1. Nothing is written to `out` before all is verified. A check fault. BW_ROOM, before all
 * else: `out` is unchanged, and *used is how many bytes there would be. */
BW_USE bw_status bw_decode(const bw_slice *slice, const uint8_t *text, size_t text_len,
                           uint8_t *out, size_t out_len, size_t *used, uint64_t *total,
                           uint64_t *at) BW_NONNULL(1, 6, 7, 8);

/* Checks `text` as a slice, and compares it with a blob.
 *
 * BW_OK: it is accepted, each of its chunks is the blob's, and if it certifies a length, that is
 * the blob's. A check fault. BW_OTHER_BLOB: the blob's hash isn't the root. BW_COLLISION: hashing
 * the blob compresses *ours, checking the encoding compresses *theirs, and the two differ and have
 * the same chaining value. */
BW_USE bw_status bw_audit(const bw_slice *slice, const uint8_t *text, size_t text_len,
                          const uint8_t *blob, size_t blob_len, uint64_t *at, bw_input *ours,
                          bw_input *theirs) BW_NONNULL(1, 6, 7, 8);

/* --- Outlines: an outline is an outboard encoding that was checked once and is kept. Beside it,
 * bytes of plain copies are checked, made into slices and stored, whoever supplied them, at the
 * cost of these bytes alone. `chunks` has the bytes of the chunks `which` of the blob, from byte
 * 1,024 * first on to where the last of them ends. Each call but bw_outline_new may return
 * BW_NO_HANDLE. */

/* Checks an outboard encoding, and makes an outline of a copy of it.
 *
 * What the handle owned is freed. A check fault, BW_MEMORY: the handle is empty. */
BW_USE bw_status bw_outline_new(const bw_mode *mode, const uint8_t root[BW_AT_LEAST(BW_HASH_LEN)],
                                const uint8_t *outboard, size_t outboard_len, bw_outline *outline,
                                uint64_t *at) BW_NONNULL(1, 5, 6);

/* Makes `other` a second handle of the same outline, for another thread, say.
 *
 * No encoding is copied; the outline is freed with its last handle. What `other` owned is freed.
 * BW_MEMORY: `other` is empty. */
BW_USE bw_status bw_outline_share(bw_outline *outline, bw_outline *other) BW_NONNULL(1, 2);

/* Returns in *len the blob's length that the outline claims.
 *
 * It isn't certified before the last chunk was checked beside the outline. */
BW_USE bw_status bw_outline_length(bw_outline *outline, uint64_t *len) BW_NONNULL(1, 2);

/* Checks chunks of a plain copy: BW_OK exactly if they are the root's.
 *
 * A check fault, with an offset in `chunks`. BW_NO_CHUNKS: `count` is 0, or the blob has no such
 * chunks. No memory is taken. */
BW_USE bw_status bw_outline_check(bw_outline *outline, const bw_chunks *which,
                                  const uint8_t *chunks, size_t chunks_len,
                                  uint64_t *at) BW_NONNULL(1, 2, 5);

/* Checks chunks as bw_outline_check does, and writes their slice (1,024 * first, 1,024 * count) to
 * the front of `out`, with its length in *used.
 *
 * This is what a server of a plain file sends. The slice of the last chunk is what bw_seat_settle
 * needs. The faults of bw_outline_check come first. BW_ROOM: *used is the length needed, which is
 * bw_slice_len of the outline's length. BW_TEXT_MEMORY. After either `out` is unchanged. */
BW_USE bw_status bw_outline_slice(bw_outline *outline, const bw_chunks *which,
                                  const uint8_t *chunks, size_t chunks_len, uint8_t *out,
                                  size_t out_len, size_t *used,
                                  uint64_t *at) BW_NONNULL(1, 2, 7, 8);

/* Checks chunks as bw_outline_check does, and stores them and the parents above them, as
 * bw_seat_commit does.
 *
 * BW_OTHER_ROOT, before all else. A check fault. BW_NO_CHUNKS. BW_OTHER_LENGTH: nothing is stored.
 * No memory is taken. */
BW_USE bw_status bw_outline_commit(bw_outline *outline, bw_seat *seat, const bw_chunks *which,
                                   const uint8_t *chunks, size_t chunks_len, uint64_t *committed,
                                   uint64_t *parents, uint64_t *at) BW_NONNULL(1, 2, 3, 6, 7, 8);

/* Checks chunks as bw_outline_check does, and stores them as bw_seat_commit_chunks does, so in a
 * store of a part of a blob too.
 *
 * BW_OTHER_ROOT, before all else. A check fault. BW_NO_CHUNKS. No memory is taken. */
BW_USE bw_status bw_outline_commit_chunks(bw_outline *outline, bw_seat *seat,
                                          const bw_chunks *which, const uint8_t *chunks,
                                          size_t chunks_len, uint64_t *committed,
                                          uint64_t *at) BW_NONNULL(1, 2, 3, 6, 7);

/* --- Encodings checked in pieces: the nodes of an encoding are verified while they arrive, and
 * none of their bytes are kept. What is accepted, and else the first fault and its offset, are
 * those of bw_check. Pass whatever arrives to bw_feed_take, which returns the blob's bytes, and at
 * the end of the encoding pass what is left to bw_feed_finish. Only bw_feed_new takes memory; the
 * other calls may return BW_NO_HANDLE. */

/* Makes a check of a slice that has no bytes yet.
 *
 * What the handle owned is freed. BW_MEMORY: the handle is empty. */
BW_USE bw_status bw_feed_new(const bw_slice *slice, bw_feed *feed) BW_NONNULL(1, 2);

/* Verifies as many whole nodes as `bytes` begins with, and copies the bytes of their chunks, which
 * are the blob's next ones, to the front of `out`.
 *
 * `bytes` has any length, and `out` at least the same. *taken is how many bytes were accepted, and
 * *filled how many of `out` are the blob's; the rest of the first `bytes_len` bytes of `out` is 0.
 * What isn't accepted is less than the next node, or follows the last: pass it again with what
 * arrives after it, or to bw_feed_finish.
 *
 * BW_ROOM: `out` is too small; nothing is changed. BW_MISMATCH: every encoding that begins with the
 * bytes accepted and these has its first fault at *at. BW_TOO_MUCH, with 0 in *at. After either of
 * these two, nodes before the fault may have been accepted, and `out` is 0: begin a new check after
 * the bytes that earlier calls returned. */
BW_USE bw_status bw_feed_take(bw_feed *feed, const uint8_t *bytes, size_t bytes_len, uint8_t *out,
                              size_t out_len, size_t *taken, size_t *filled,
                              uint64_t *at) BW_NONNULL(1, 6, 7, 8);

/* Returns the verdict on the encoding that consists of the bytes accepted so far and then `rest`.
 *
 * BW_OK exactly if it is accepted. BW_SHORT: a node is missing. BW_TRAILING: `rest` follows the
 * last node. BW_OTHER_SIZE: `rest` has all bytes of the next node, which must be passed first. The
 * check is unchanged, and can go on. */
BW_USE bw_status bw_feed_finish(bw_feed *feed, const uint8_t *rest, size_t rest_len,
                                uint64_t *at) BW_NONNULL(1, 4);

/* --- The store that threads share: each thread has a seat of its own, and the store lives until
 * its last seat is freed. All that it holds comes from encodings accepted under its root. Chunks
 * are in groups of 64, and a mask is of one group: bit j stands for chunk 64 * group + j. Chunks,
 * groups and the offsets of bw_seat_read are counted from the store's first chunk, and the range of
 * a slice and the offsets of bw_seat_read_at from the blob's. Each call but bw_seat_new may return
 * BW_NO_HANDLE.
 *
 * A call that begins after another has ended comes after it, whichever seats the two use. A thread
 * that learned by a lock, or by a condition variable, that a chunk was committed can read it with
 * any seat. A seat isn't tied to a thread: it may wait in a pool for whoever needs one next, and
 * whichever seat of a store is left keeps all that the store holds. */

/* Makes a store of `capacity` chunks of a blob, 1 to 65,536, from chunk `first_chunk` on, and its
 * first seat. With 0 for `first_chunk` it is the store of a blob, else of a part of one.
 *
 * All memory is taken now: some 1,096 bytes a chunk, so at most 72 MB. What the handle owned is
 * freed. BW_CAPACITY, also if `first_chunk` is above 2^54, BW_STORE_MEMORY, BW_MEMORY: the handle
 * is empty.
 *
 * Only a store from chunk 0 on records a length, and only if all of the blob fits. In any other
 * bw_seat_settle returns BW_TOO_LARGE for each certified length, bw_seat_length and bw_seat_finish
 * BW_UNFINISHED, bw_seat_commit and bw_outline_commit BW_OTHER_LENGTH, and bw_seat_slice
 * BW_NO_LENGTH; bw_seat_gather and bw_seat_salvage commit nothing. */
BW_USE bw_status bw_seat_new(const bw_mode *mode, const uint8_t root[BW_AT_LEAST(BW_HASH_LEN)],
                             uint64_t first_chunk, uint32_t capacity,
                             bw_seat *seat) BW_NONNULL(1, 5);

/* Makes `other` another seat of the store, which has seen the same and claims nothing.
 *
 * What `other` owned is freed. BW_SPLIT_MEMORY, BW_MEMORY: `other` is empty. */
BW_USE bw_status bw_seat_split(bw_seat *seat, bw_seat *other) BW_NONNULL(1, 2);

/* Joins two seats of one store: `seat` has the claims of both, and `other` is empty.
 *
 * The calling thread must have both handles: the other's thread has ended and was joined, or has
 * handed its seat over. Join a seat, or give its claims back, before you free it: the chunks that a
 * freed seat claims stay claimed. BW_OTHER_STORE: the stores differ in root, mode, capacity or
 * first chunk; both handles are unchanged. Stores that are alike in these can't be told apart: not
 * mixing them up is one of the rules above. No memory is taken. */
BW_USE bw_status bw_seat_join(bw_seat *seat, bw_seat *other) BW_NONNULL(1, 2);

/* Claims those chunks of `want` that are neither held nor claimed; *granted is their mask.
 *
 * BW_NO_GROUP. */
BW_USE bw_status bw_seat_take(bw_seat *seat, uint32_t group, uint64_t want,
                              uint64_t *granted) BW_NONNULL(1, 4);

/* Ends the seat's claims to chunks of `mask`; *given is the mask of those that it had. */
BW_USE bw_status bw_seat_give(bw_seat *seat, uint32_t group, uint64_t mask,
                              uint64_t *given) BW_NONNULL(1, 4);

/* Checks `text` as the slice (start, len), and stores all that it has, so that the store can serve
 * it.
 *
 * That is each chunk, of any group, that nobody holds and no other seat claims, and each parent; a
 * parent that another seat is storing at that moment is held once that seat is done. *committed and
 * *parents are how many of each were stored. Nothing needs to be claimed first, and afterwards the
 * seat claims none of the slice's chunks. A check fault. BW_OTHER_LENGTH: nothing is stored,
 * because the encoding claims another length than the recorded one, or none is recorded: call
 * bw_seat_settle first. */
BW_USE bw_status bw_seat_commit(bw_seat *seat, uint64_t start, uint64_t len, const uint8_t *text,
                                size_t text_len, uint64_t *committed, uint64_t *parents,
                                uint64_t *at) BW_NONNULL(1, 6, 7, 8);

/* Checks `text` as the slice (start, len), and stores its chunks as bw_seat_commit does, but no
 * parents.
 *
 * No length needs to be recorded, so this works for a part of a blob too. Chunks that the store has
 * no room for are left out. *committed is how many were stored. A check fault. */
BW_USE bw_status bw_seat_commit_chunks(bw_seat *seat, uint64_t start, uint64_t len,
                                       const uint8_t *text, size_t text_len, uint64_t *committed,
                                       uint64_t *at) BW_NONNULL(1, 6, 7);

/* Checks `text` as bw_seat_commit_chunks does, and if it isn't accepted stores the chunks before
 * its first fault all the same.
 *
 * These are the chunks of the slice (start, n) with the largest n up to `len` whose encoding ends
 * no later than byte *at, and none if the blob is empty. *committed is how many were stored. A
 * check fault, after which *committed is written too. */
BW_USE bw_status bw_seat_commit_some(bw_seat *seat, uint64_t start, uint64_t len,
                                     const uint8_t *text, size_t text_len, uint64_t *committed,
                                     uint64_t *at) BW_NONNULL(1, 6, 7);

/* Returns in *mask which chunks of the group are held, and claims none.
 *
 * The chunks are looked up one after another, by their first byte, while others may store. The
 * chunk of an empty blob has no byte, and is never reported. BW_NO_GROUP. */
BW_USE bw_status bw_seat_held(bw_seat *seat, uint32_t group, uint64_t *mask) BW_NONNULL(1, 3);

/* Checks `text` as the slice (2^64 - 1, 1), which has the last chunk, and records the length that
 * it certifies, if none is recorded.
 *
 * A check fault, BW_NO_TAIL, BW_TOO_LARGE, BW_DIFFERS. Without a store, bw_decode of this slice
 * returns the certified length. */
BW_USE bw_status bw_seat_settle(bw_seat *seat, const uint8_t *text, size_t text_len,
                                uint64_t *at) BW_NONNULL(1, 4);

/* Gathers from one encoding: the round of worker `number` of `workers`, which are numbered from 0.
 *
 * `text` is the blob's combined encoding, or any bytes. If no length is recorded, the call settles
 * the one that the slice of the last byte certifies; it ends if there is none, or if it is too
 * large. Then it goes once round all groups, beginning with the worker's own part of them: it
 * claims a group's chunks, cuts out and checks their slice, stores its chunks and parents, and
 * gives back what is left. Last, for each group of which a parent isn't held, it stores the parents
 * of the group's slice alone: the chunks may have come from an encoding that claims another length.
 * The seat claims nothing afterwards.
 *
 * What was done is added to *report, which begins as all 0. BW_OK also if nothing was committed. If
 * several seats gathered at once, join them when all have ended, and let the one seat call
 * bw_seat_gather(&seat, 0, 1, ..) once more with each encoding. A group that is still missing then
 * is damaged in every encoding: see bw_seat_salvage. */
BW_USE bw_status bw_seat_gather(bw_seat *seat, uint32_t number, uint32_t workers,
                                const uint8_t *text, size_t text_len,
                                bw_report *report) BW_NONNULL(1, 6);

/* Gathers from one encoding as one worker's bw_seat_gather does, but chunk by chunk, so that a
 * damaged chunk costs no other.
 *
 * It is for groups that are damaged in every encoding. It asks for each chunk that isn't held, and
 * each costs the parents above it. */
BW_USE bw_status bw_seat_salvage(bw_seat *seat, const uint8_t *text, size_t text_len,
                                 bw_report *report) BW_NONNULL(1, 4);

/* Returns the recorded length of the blob in *len.
 *
 * BW_UNFINISHED: none is recorded. */
BW_USE bw_status bw_seat_length(bw_seat *seat, uint64_t *len) BW_NONNULL(1, 2);

/* Fills `out` with the bytes from offset `from` of the store on; in a store from chunk 0 on that is
 * byte `from` of the blob.
 *
 * BW_MISSING: the first byte that isn't held is at *missing, and those before it are filled in. */
BW_USE bw_status bw_seat_read(bw_seat *seat, uint64_t from, uint8_t *out, size_t out_len,
                              uint64_t *missing) BW_NONNULL(1, 5);

/* Fills `out` with the bytes from byte `at` of the blob on.
 *
 * BW_MISSING: the first byte that isn't held is byte *missing of the blob, and those before it are
 * filled in. A byte outside the store's part of the blob isn't held, so a store of another part
 * returns BW_MISSING, and never wrong bytes. */
BW_USE bw_status bw_seat_read_at(bw_seat *seat, uint64_t at, uint8_t *out, size_t out_len,
                                 uint64_t *missing) BW_NONNULL(1, 5);

/* Writes the encoding of the slice (start, len) to the front of `out`, with its length in *used.
 * The store may be unfinished.
 *
 * BW_NO_LENGTH, BW_LACKING, BW_SERVE_MEMORY. BW_ROOM: *used is the length needed, which is
 * bw_slice_len of the recorded length. */
BW_USE bw_status bw_seat_slice(bw_seat *seat, uint64_t start, uint64_t len, uint8_t *out,
                               size_t out_len, size_t *used,
                               bw_node *lacking) BW_NONNULL(1, 6, 7);

/* Writes the whole blob to the front of `out`, and its length to *used, if the hash of its bytes is
 * the root.
 *
 * It claims nothing. BW_ROOM, before any byte is read: *used is the recorded length. BW_UNFINISHED:
 * no length is recorded, or a byte isn't held. BW_NOT_THE_ROOT: all bytes are held, and their hash
 * is another. After either of these two `out` may have been written. */
BW_USE bw_status bw_seat_finish(bw_seat *seat, uint8_t *out, size_t out_len,
                                size_t *used) BW_NONNULL(1, 4);

/* --- Plans: which holder is asked for which chunks of a blob, and when.
 *
 * A plan does no IO, reads no clock and starts no thread: the caller asks it what to do and reports
 * what happened. Chunks are in groups of 64. In a mask of a group, bit j stands for chunk
 * 64 * group + j. Moments are milliseconds of any clock that doesn't go back; those from 2^63 on
 * count as 2^63 - 1.
 *
 * A request is a range of chunks that a holder was asked for, all of one unit of 1,024. It is under
 * way until bw_plan_ended, which is called once for each. Every call but bw_plan_new may return
 * BW_NO_HANDLE, then BW_NO_HOLDER if it names a holder, then BW_NO_GROUP if it names a group. After
 * a fault the plan and all results are unchanged.
 *
 * A plan takes 8 bytes for each unit. The chunks that are lacking, and those that a holder is asked
 * for, lacks or gave falsely, take 16 bytes for each row of groups with the same mask: few, where
 * most chunks are asked for and reported in order. bw_plan_add_holder, bw_plan_ask, bw_plan_kept,
 * bw_plan_refused, bw_plan_lacks, bw_plan_has and bw_plan_ended may return BW_MEMORY. The call may
 * be repeated; a report that is given up is one that the plan doesn't know of. */

/* What to do next with a holder. */
#define BW_NEXT_NOTHING 0
#define BW_NEXT_FETCH 1
#define BW_NEXT_WAIT 2

/* How a request ended. */
#define BW_ENDED_OVER 0
#define BW_ENDED_LATER 1
#define BW_ENDED_CUT 2

/* The numbers that a plan goes by. */
typedef struct bw_plan_policy {
    uint32_t faults;           /* failures in a row after which a holder is left out */
    uint32_t pause_ms;         /* how long it is left alone after the first, doubled by each more */
    uint32_t longest_pause_ms; /* at most this long */
    uint32_t patience_ms;      /* so long after a chunk of a unit was asked for last, another holder
                                * is asked for those of it that are under way too */
} bw_plan_policy;

/* The answer of bw_plan_ask. */
typedef struct bw_plan_next {
    uint32_t kind;     /* BW_NEXT_NOTHING, BW_NEXT_FETCH or BW_NEXT_WAIT */
    uint64_t first;    /* BW_NEXT_FETCH: the request's first chunk .. */
    uint64_t count;    /* .. and how many it has, 1 to 1,024 */
    uint64_t until_ms; /* BW_NEXT_WAIT: the moment, after now_ms */
} bw_plan_next;

/* Makes a plan of a blob of `total` bytes that lacks every chunk and has no holder.
 *
 * What the handle owned is freed. A blob of no bytes has one chunk. BW_MEMORY: the handle is
 * empty. */
BW_USE bw_status bw_plan_new(uint64_t total, const bw_plan_policy *policy,
                             bw_plan *plan) BW_NONNULL(2, 3);

/* Adds a holder that may have every chunk.
 *
 * *holder is its number: 0, 1, 2 and so on. */
BW_USE bw_status bw_plan_add_holder(bw_plan *plan, size_t *holder) BW_NONNULL(1, 2);

/* Decides what to do next with a holder.
 *
 * BW_NEXT_FETCH: ask it for these chunks, which are under way at it from now on. Each is lacking
 * and below the limit; the holder neither gave it falsely nor said that it lacks it; and no other
 * holder is asked for it, unless one has had its time. Call again for another request beside this
 * one. BW_NEXT_WAIT: nothing until that moment, or until something else is reported.
 * BW_NEXT_NOTHING: the holder is left out, or has nothing that is lacking and not under way at it.
 * When every holder has nothing, and nothing is under way, the plan is at its end. */
BW_USE bw_status bw_plan_ask(bw_plan *plan, size_t holder, uint64_t now_ms,
                             bw_plan_next *next) BW_NONNULL(1, 4);

/* Reports chunks that a holder gave truly.
 *
 * *taken has those that were lacking; they no longer are, so each chunk is taken once. One that is
 * taken ends the holder's failures in a row. The chunks needn't have been requested. */
BW_USE bw_status bw_plan_kept(bw_plan *plan, size_t holder, uint64_t group, uint64_t mask,
                              uint64_t *taken) BW_NONNULL(1, 5);

/* Reports chunks that a holder gave falsely. It isn't asked for them again. */
BW_USE bw_status bw_plan_refused(bw_plan *plan, size_t holder, uint64_t group,
                                 uint64_t mask) BW_NONNULL(1);

/* Reports chunks that a holder says it lacks. It isn't asked for them until it has them. */
BW_USE bw_status bw_plan_lacks(bw_plan *plan, size_t holder, uint64_t group,
                               uint64_t mask) BW_NONNULL(1);

/* Reports chunks that a holder says it has, after it said that it lacks them. */
BW_USE bw_status bw_plan_has(bw_plan *plan, size_t holder, uint64_t group,
                             uint64_t mask) BW_NONNULL(1);

/* Reports the end of the request of `count` chunks from `first` on, after what came of it was
 * reported.
 *
 * `outcome` is BW_ENDED_LATER if the holder wants to be asked again after later_ms, BW_ENDED_CUT if
 * the caller gave the request up through no fault of the holder, and else BW_ENDED_OVER, as is any
 * other number. *failed is 1 if it counts as a failure: it wasn't cut, and none of its chunks was
 * decided, which is to say taken from any holder, or given falsely or lacked by this one. The
 * holder is then left alone for a pause. BW_NO_REQUEST: no such request is under way. */
BW_USE bw_status bw_plan_ended(bw_plan *plan, size_t holder, uint64_t first, uint64_t count,
                               uint32_t outcome, uint64_t later_ms, uint64_t now_ms,
                               uint32_t *failed) BW_NONNULL(1, 8);

/* Ranks a holder: it is asked only for chunks that no holder of a lower rank may have that may be
 * asked at that time. Each begins with rank 0. */
BW_USE bw_status bw_plan_rank(bw_plan *plan, size_t holder, uint32_t rank) BW_NONNULL(1);

/* Forgets a holder's failures in a row.
 *
 * If it was left out, it is asked again, but not for what it gave falsely. A pause that it is in
 * stays. */
BW_USE bw_status bw_plan_forgive(bw_plan *plan, size_t holder) BW_NONNULL(1);

/* Returns whether a holder is left out, as 1 or 0 in *is. */
BW_USE bw_status bw_plan_is_left_out(bw_plan *plan, size_t holder, uint32_t *is) BW_NONNULL(1, 3);

/* Limits requests to chunks below `end`, the end of a window. */
BW_USE bw_status bw_plan_limit(bw_plan *plan, uint64_t end) BW_NONNULL(1);

/* Returns whether no chunk is lacking, as 1 or 0 in *is. */
BW_USE bw_status bw_plan_is_done(bw_plan *plan, uint32_t *is) BW_NONNULL(1, 2);

/* Returns the chunks of a group that are lacking, in *mask. */
BW_USE bw_status bw_plan_lacking(bw_plan *plan, uint64_t group, uint64_t *mask) BW_NONNULL(1, 3);

#ifdef __cplusplus
}
#endif

/* A compiler refuses to free what is no handle. */
#if defined(__STDC_VERSION__) && __STDC_VERSION__ >= 201112L
#define bw_free(handle)                                                                            \
    bw_free(_Generic((handle), bw_hasher *: (handle), bw_feed *: (handle),                         \
                     bw_outline *: (handle), bw_seat *: (handle), bw_plan *: (handle),             \
                     void *: (handle)))
#endif

#endif
