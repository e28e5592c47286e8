/* How the tests and benchmarks name slices and chunks. */
#include "berylwool.h"

#include <string.h>

#define CHUNKS(first, count) (&(bw_chunks){first, count})

/* The slice (start, len), until this thread names another. */
static inline const bw_slice *of(const bw_mode *mode, const uint8_t *root, uint64_t start,
                                 uint64_t len) {
    static _Thread_local bw_slice it;
    it = (bw_slice){*mode, {0}, start, len};
    memcpy(it.root, root, sizeof it.root);
    return &it;
}
