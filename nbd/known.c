#include "nbd.h"

/* Parents above groups, of accepted slices; each by where the outboard encoding has it. */
enum { KNOWN = 1 << 14 };

static struct {
    uint64_t at;
    uint8_t text[BW_PARENT_LEN];
} kept[KNOWN];
static pthread_mutex_t keeping = PTHREAD_MUTEX_INITIALIZER;

static size_t slot_of(const bw_placed *it) { return it->outboard_at / BW_PARENT_LEN % KNOWN; }

static bool is_above(const bw_placed *it, uint64_t len) {
    return it->kind == BW_NODE_PARENT && it->len > len;
}

/* Keeps the parents above groups of a slice that was accepted. */
void learn(const slice *of) {
    pthread_mutex_lock(&keeping);
    for (size_t i = 0; i < of->count; i++) {
        const bw_placed *it = &of->nodes[i];
        if (!is_above(it, GROUP_LEN)) continue;
        kept[slot_of(it)].at = it->outboard_at;
        memcpy(kept[slot_of(it)].text, of->found[i], BW_PARENT_LEN);
    }
    pthread_mutex_unlock(&keeping);
}

/* Lists the known parents above a chunk, but for those of `len` bytes or fewer, as pieces of a kind
 * of file that came. `texts` are theirs. False: there is no such chunk. */
bool recall(pieces *to, uint8_t texts[BW_DEPTH_MAX][BW_PARENT_LEN], kind of, uint64_t total,
            uint64_t start, uint64_t len) {
    slice above;
    to->count = 0;
    if (!slice_of(&above, total, start, 1)) return false;
    pthread_mutex_lock(&keeping);
    for (const bw_placed *it = above.nodes; it < above.nodes + above.count; it++) {
        if (!is_above(it, len) || kept[slot_of(it)].at != it->outboard_at) continue;
        const uint64_t at = of == COMBINED ? it->combined_at : it->outboard_at;
        uint8_t *text = memcpy(texts[to->count], kept[slot_of(it)].text, BW_PARENT_LEN);
        to->list[to->count++] = (piece){at, BW_PARENT_LEN, BW_PARENT_LEN, text};
    }
    pthread_mutex_unlock(&keeping);
    return true;
}
