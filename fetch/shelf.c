#include "shelf.h"

shelf_of shelf = {
    .lock = PTHREAD_RWLOCK_WRITER_NONRECURSIVE_INITIALIZER_NP, .blob = -1, .parents = -1};

/* --- Marks */

static void mark(marks *of, uint64_t number) {
    atomic_fetch_or_explicit(&of[number / 64], UINT64_C(1) << number % 64, memory_order_release);
}

static uint64_t marked(marks *of, uint64_t word) {
    return atomic_load_explicit(&of[word], memory_order_acquire);
}

/* Whether all from `first` up to `end` are marked. */
bool are_marked(marks *of, uint64_t first, uint64_t end) {
    for (uint64_t word = first / 64; word * 64 < end; word++) {
        const run all = {first, end - first};
        if (mask_in(word, all) & ~marked(of, word)) return false;
    }
    return true;
}

/* Nobody marks or reads it meanwhile. */
void shelf_close(void) {
    if (shelf.blob >= 0) close(shelf.blob);
    if (shelf.parents >= 0) close(shelf.parents);
    free(shelf.chunks);
    free(shelf.nodes);
    free(shelf.groups);
    shelf.blob = shelf.parents = -1;
    shelf.chunks = shelf.nodes = shelf.groups = NULL;
    shelf.total = 0;
    shelf.is_certified = false;
    shelf.opened++;
}

/* Begins anew with a file for a blob of `total` bytes, of which nothing is there, and with its
 * outboard encoding from byte `base` of another file on, if that isn't -1. Nobody marks meanwhile.
 * False: there is no memory, or no descriptor. */
bool shelf_open(int blob, int parents, uint64_t base, uint64_t total) {
    const uint64_t groups = groups_of(total);
    pthread_rwlock_wrlock(&shelf.lock);
    shelf_close();
    shelf.total = total;
    shelf.base = base;
    shelf.blob = fcntl(blob, F_DUPFD_CLOEXEC, 0);
    shelf.parents = parents < 0 ? -1 : fcntl(parents, F_DUPFD_CLOEXEC, 0);
    shelf.chunks = calloc(groups, sizeof *shelf.chunks);
    shelf.nodes = calloc(groups, sizeof *shelf.nodes);
    shelf.groups = calloc(groups / 64 + 1, sizeof *shelf.groups);
    const bool ok = shelf.blob >= 0 && (parents < 0 || shelf.parents >= 0) && shelf.chunks &&
                    shelf.nodes && shelf.groups;
    if (!ok) shelf_close();
    pthread_rwlock_unlock(&shelf.lock);
    return ok;
}

/* The length is certified: from now on what is marked is served. */
void shelf_certify(void) { shelf.is_certified = shelf.blob >= 0; }

/* Chunks of a group were accepted, and written. */
void shelf_mark(uint64_t group, uint64_t mask) {
    if (!shelf.chunks) return;
    const uint64_t all = mask_in(group, (run){0, chunks_of(shelf.total)});
    const uint64_t was = atomic_fetch_or_explicit(&shelf.chunks[group], mask, memory_order_acq_rel);
    if (was != all && (was | mask) == all) mark(shelf.groups, group);
}

/* So was the parent at a byte of the outboard encoding. */
void shelf_mark_parent(uint64_t outboard_at) {
    if (shelf.nodes) mark(shelf.nodes, (outboard_at - BW_LENGTH_LEN) / BW_PARENT_LEN);
}

/* The whole blob has the root, and so do all parents, if there are any. */
void shelf_mark_all(void) {
    const run all = {0, chunks_of(shelf.total)};
    for (uint64_t g = 0; g < group_after(all) && shelf.chunks; g++) {
        shelf_mark(g, mask_in(g, all));
        if (shelf.parents >= 0) atomic_store(&shelf.nodes[g], UINT64_MAX);
    }
}

/* Has parents read from another file, where all of them are, or from none if that is -1. */
void shelf_move_parents(int file) {
    pthread_rwlock_wrlock(&shelf.lock);
    if (shelf.parents >= 0) close(shelf.parents);
    shelf.parents = file < 0 ? -1 : fcntl(file, F_DUPFD_CLOEXEC, 0);
    shelf.base = 0;
    pthread_rwlock_unlock(&shelf.lock);
}

bool shelf_has_parents(void) {
    return shelf.nodes && shelf.parents >= 0 &&
           are_marked(shelf.nodes, 0, chunks_of(shelf.total) - 1);
}

/* Units that are on their way from an origin, each and 1, which others needn't ask it for. */
void shelf_announce(const uint64_t units[COMING_MOST]) {
    for (int i = 0; i < COMING_MOST; i++)
        atomic_store_explicit(&shelf.coming[i], units[i], memory_order_relaxed);
}

const char *shelf_self(void) { return shelf.self; }
