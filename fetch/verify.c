/* The jobs that verify what came, and write it: in the pool's threads, on what an exchange has. */
#include "fetch.h"

static _Thread_local uint8_t text[GROUP_TEXT];
static _Thread_local slice nodes;

static bw_slice slice_named(const fetch *f, uint64_t start, uint64_t len) {
    bw_slice it = {f->set->mode, {0}, start, len};
    memcpy(it.root, f->out.root, sizeof it.root);
    return it;
}

/* Puts a slice together of what came. Its length, or 0 where a node is lacking. */
static size_t put(const exchange *e, known *above, uint64_t total, const bw_slice *named) {
    const origin from = {above, e->from->at.kind, &e->seen, &e->parents};
    const bool is_there = slice_find(&nodes, &from, total, named->start, named->len);
    return is_there ? slice_put(&nodes, total, text) : 0;
}

/* Keeps chunks of a group that were verified. */
static void keep(exchange *e, run of) {
    fetch *f = e->fetch;
    const uint64_t start = of.first * BW_CHUNK_LEN, group = of.first / BW_GROUP_CHUNKS;
    struct iovec there[BW_GROUP_CHUNKS];
    const int count = slice_chunks(&nodes, there);
    uint8_t *image = f->out.is_pipe ? e->image + start % UNIT_LEN : NULL;
    out_learn(&f->out, f->known, &nodes);
    for (int i = 0; image && i < count; image += there[i++].iov_len)
        memcpy(image, there[i].iov_base, there[i].iov_len);
    if (!image && e->from != &f->own && !out_put(&f->out, start, there, count))
        e->failed_to_write = true;
    else if (f->out.served_as) shelf_mark(group, mask_in(group, of));
    e->kept[group % UNIT_GROUPS] |= mask_in(group, of);
    e->taken++;
}

/* Verifies chunks of a group, out of what came. What is refused first is at *refused. */
static verdict take(void *with, run it, bw_placed *refused) {
    exchange *e = with;
    const fetch *f = e->fetch;
    const bw_slice named = slice_named(f, it.first * BW_CHUNK_LEN, it.count * BW_CHUNK_LEN);
    const size_t text_len = put(e, f->known, f->total, &named);
    uint64_t at;
    if (!text_len) return NOT_THERE;
    if (bw_check(&named, text, text_len, &at))
        return bw_node_at(f->total, named.start, named.len, at, refused) ? NOT_THERE : REFUTED;
    keep(e, it);
    return TAKEN;
}

/* A chunk below a parent that an outboard encoding has falsely isn't told to be true or false. */
static void blame(void *with, run of, const bw_placed *it) {
    exchange *e = with;
    const uint64_t group = of.first / BW_GROUP_CHUNKS, mask = mask_in(group, of);
    if (it->kind == BW_NODE_CHUNK || !e->by) {
        e->refused[group % UNIT_GROUPS] |= mask;
        e->wrong += BW_CHUNK_LEN;
        return;
    }
    e->orphans[group % UNIT_GROUPS] |= mask;
    if (it->outboard_at == e->wrong_parent) return;
    e->wrong_of_line += BW_PARENT_LEN;
    e->wrong_parent = it->outboard_at;
}

static void run_unit(job *of) {
    exchange *e = of->with;
    for (; e->next_group < UNIT_GROUPS; e->next_group++) {
        const uint64_t first = e->unit * UNIT_CHUNKS + (uint64_t)e->next_group * BW_GROUP_CHUNKS;
        const run it = run_in(e->proving, first, BW_GROUP_CHUNKS);
        bw_placed refused;
        const verdict r = it.count ? take(e, it, &refused) : TAKEN;
        if (r == NOT_THERE) return;
        if (r == REFUTED) salvage(&(trial){take, blame, e}, it, &refused);
    }
}

/* What certifies the length: the slice of the last chunk. */
static void run_proof(job *of) {
    exchange *e = of->with;
    const uint64_t last = last_chunk_at(e->claimed);
    const bw_slice named = slice_named(e->fetch, last, BW_CHUNK_LEN);
    const size_t text_len = put(e, NULL, e->claimed, &named);
    uint64_t certified = 0, at = 0;
    bw_placed refused = {0};
    e->is_certified = text_len &&
                      !bw_decode(&named, text, text_len, e->chunk, sizeof e->chunk, &e->chunk_len,
                                 &certified, &at) &&
                      certified == e->claimed;
    e->is_refuted = !e->is_certified;
    e->is_parent_false = text_len && !e->is_certified &&
                         !bw_node_at(e->claimed, last, BW_CHUNK_LEN, at, &refused) &&
                         refused.kind == BW_NODE_PARENT;
}

static void was_verified(job *of) {
    exchange *e = of->with;
    e->is_busy = false;
    exchange_move(e);
}

/* Posts the job that verifies what came of the unit, or what certifies the length. */
void verify(exchange *e) {
    e->is_busy = true;
    e->seen = e->parts;
    e->job = (job){.run = e->step == UNIT ? run_unit : run_proof, .done = was_verified, .with = e};
    pool_post(&e->fetch->hub->computing, &e->job);
}
