#include "tree.h"

enum { UNKNOWN, GETS_KNOWN, IS_KNOWN };

uint64_t length_claimed(const uint8_t claim[BW_LENGTH_LEN]) {
    uint64_t total = 0;
    for (int i = BW_LENGTH_LEN; i--;) total = total << 8 | claim[i];
    return total;
}

void claim_length(uint8_t claim[BW_LENGTH_LEN], uint64_t total) {
    for (int i = 0; i < BW_LENGTH_LEN; i++) claim[i] = (uint8_t)(total >> 8 * i);
}

/* What of a run is among `count` chunks from `first` on. */
run run_in(run it, uint64_t first, uint64_t count) {
    const uint64_t from = it.first > first ? it.first : first,
                   to = least(end_of(it), first + count);
    return (run){from, from < to ? to - from : 0};
}

run run_of_unit(uint64_t total, uint64_t unit) {
    return run_in((run){0, chunks_of(total)}, unit * UNIT_CHUNKS, UNIT_CHUNKS);
}

/* What of a run is in a group. */
uint64_t mask_in(uint64_t group, run it) {
    const run in = run_in(it, group * BW_GROUP_CHUNKS, BW_GROUP_CHUNKS);
    return in.count ? UINT64_MAX >> (64 - in.count) << in.first % BW_GROUP_CHUNKS : 0;
}

/* Whether there is such a slice: a blob whose combined encoding has 2^64 bytes has none. */
bool slice_of(slice *it, uint64_t total, uint64_t start, uint64_t len) {
    return !bw_slice_nodes(total, start, len, it->nodes, GROUP_NODES, &it->count);
}

/* --- Parents above units, which any thread may get to know */

static known *known_at(known *all, const bw_placed *it) {
    const bool is_above = all && it->kind == BW_NODE_PARENT && it->len > UNIT_LEN;
    return is_above ? &all[it->number / UNIT_CHUNKS] : NULL;
}

static const uint8_t *known_text(known *all, const bw_placed *it) {
    known *at = known_at(all, it);
    return at && atomic_load(&at->state) == IS_KNOWN ? at->text : NULL;
}

/* Whether a parent that was verified is new, or below units. */
bool know(known *all, const bw_placed *it, const uint8_t *text) {
    known *at = known_at(all, it);
    unsigned char state = UNKNOWN;
    if (!at) return true;
    if (!atomic_compare_exchange_strong(&at->state, &state, GETS_KNOWN)) return false;
    memcpy(at->text, text, BW_PARENT_LEN);
    atomic_store(&at->state, IS_KNOWN);
    return true;
}

/* --- Where files have the nodes of a slice */

/* Whether a kind of file has a node, at byte *at. The chunk of an empty blob has no bytes. */
static bool place_in(kind of, const bw_placed *it, uint64_t *at) {
    const bool is_chunk = it->kind == BW_NODE_CHUNK;
    *at = of == COMBINED ? it->combined_at : is_chunk ? it->start : it->outboard_at;
    return it->size && (of == COMBINED || is_chunk == (of == PLAIN));
}

/* The piece that has a range, or NULL. */
static const piece *piece_with(const pieces *in, uint64_t at, size_t len) {
    for (const piece *it = in->list; it < in->list + in->count; it++)
        if (at >= it->at && at + len <= it->at + it->len) return it;
    return NULL;
}

/* Adds where a kind of file has nodes of a slice of at most a unit, but for those that are known,
 * or asked for already. What is adjacent becomes one piece. False: there is no room, and some were
 * added. In the thread that decides. */
bool pieces_add(pieces *out, known *above, kind of, uint64_t total, uint64_t start, uint64_t len) {
    static bw_placed nodes[BW_NODES_MAX(UNIT_CHUNKS)];
    size_t count;
    uint64_t at;
    if (bw_slice_nodes(total, start, len, nodes, sizeof nodes / sizeof *nodes, &count))
        return false;
    for (const bw_placed *it = nodes; it < nodes + count; it++) {
        if (!place_in(of, it, &at) || known_text(above, it) || piece_with(out, at, it->size))
            continue;
        piece *last = out->count ? &out->list[out->count - 1] : NULL;
        if (last && !last->have && last->at + last->len == at) last->len += it->size;
        else if (out->count == PIECES_MOST) return false;
        else out->list[out->count++] = (piece){.at = at, .len = it->size};
    }
    return true;
}

/* What came of a range, or NULL. */
const uint8_t *pieces_find(const pieces *in, uint64_t at, size_t len) {
    const piece *it = piece_with(in, at, len);
    return it && at + len <= it->at + it->have ? it->bytes + (at - it->at) : NULL;
}

static const uint8_t *find_node(const origin *from, const bw_placed *it) {
    const uint8_t *found = known_text(from->known, it);
    uint64_t at;
    if (!found && place_in(from->as, it, &at)) found = pieces_find(from->seen, at, it->size);
    if (!found && place_in(OUTBOARD, it, &at)) found = pieces_find(from->parents, at, it->size);
    return found;
}

/* Whether all nodes of a slice are there. */
bool slice_find(slice *it, const origin *from, uint64_t total, uint64_t start, uint64_t len) {
    bool all = slice_of(it, total, start, len);
    for (size_t i = 0; all && i < it->count; i++) {
        const bw_placed *node = &it->nodes[i];
        it->found[i] = node->size ? find_node(from, node) : (const uint8_t *)"";
        all = it->found[i];
    }
    return all;
}

/* Writes the encoding of a slice that was found. Its length. */
size_t slice_put(const slice *it, uint64_t total, uint8_t *out) {
    size_t used = BW_LENGTH_LEN;
    claim_length(out, total);
    for (size_t i = 0; i < it->count; used += it->nodes[i++].size)
        memcpy(out + used, it->found[i], it->nodes[i].size);
    return used;
}

/* Where the chunks of a slice were found. How many ranges of memory these are. */
int slice_chunks(const slice *it, struct iovec out[BW_GROUP_CHUNKS]) {
    struct iovec *last = NULL;
    for (size_t i = 0; i < it->count; i++) {
        const size_t len = it->nodes[i].size;
        if (it->nodes[i].kind != BW_NODE_CHUNK) continue;
        if (last && (uint8_t *)last->iov_base + last->iov_len == it->found[i]) last->iov_len += len;
        else *(last = last ? last + 1 : out) = (struct iovec){(void *)it->found[i], len};
    }
    return last ? (int)(last + 1 - out) : 0;
}

/* What is refused is tried in halves, out of the same bytes, down to a chunk. A half that has the
 * refused node is false as well, and isn't hashed again. */
void salvage(const trial *by, run of, const bw_placed *refused) {
    const uint64_t half = (of.count + 1) / 2, first = refused->start / BW_CHUNK_LEN;
    const run halves[] = {{of.first, half}, {of.first + half, of.count - half}};
    if (of.count == 1) return by->blame(by->with, of, refused);
    for (int i = 0; i < 2; i++) {
        bw_placed it = *refused;
        const bool has_it = run_in(halves[i], first, chunks_of(refused->len)).count;
        if (has_it || by->take(by->with, halves[i], &it) != TAKEN) salvage(by, halves[i], &it);
    }
}
