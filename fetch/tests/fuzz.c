/* For libFuzzer: an answer of any headers and any body goes into three pieces, which lie between
 * bytes that stay as they are. The first byte says how much is taken at once; headers end at an
 * empty line. */
#include "../http.h"

#include <stdlib.h>
#include <string.h>

enum { LEN = 3000, FENCE = 64 };

int LLVMFuzzerTestOneInput(const uint8_t *data, size_t size);

static void body(answer *it, const uint8_t *data, size_t size, size_t step) {
    for (size_t at = 0; at < size; at += step) {
        if (!answer_body(it, data + at, size - at < step ? size - at : step)) return;
    }
}

int LLVMFuzzerTestOneInput(const uint8_t *data, size_t size) {
    static const uint64_t starts[] = {0, 5000, UINT64_MAX - 4000};
    static answer it;
    uint8_t *bytes = calloc(3, LEN + FENCE);
    piece list[3];
    if (!bytes || !size) {
        free(bytes);
        return 0;
    }
    size_t step = 1 + data[0] * 16u;
    for (int i = 0; i < 3; i++)
        list[i] = (piece){.at = starts[i], .len = LEN, .bytes = bytes + i * (LEN + FENCE)};
    answer_begin(&it, list, 3, 3 * LEN);
    data++;
    size--;
    for (const uint8_t *end; (end = memchr(data, '\n', size)) &&
                             answer_header(&it, (const char *)data, (size_t)(end - data) + 1);) {
        bool is_last = end - data < 2;
        size -= (size_t)(end - data) + 1, data = end + 1;
        if (is_last) break;
    }
    body(&it, data, size, step);
    for (int i = 0; i < 3; i++) {
        if (list[i].have > LEN) abort();
        for (int k = 0; k < FENCE; k++) {
            if (bytes[i * (LEN + FENCE) + LEN + k]) abort();
        }
    }
    free(bytes);
    return 0;
}
