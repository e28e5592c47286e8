/* Reads a blob while it is fetched from copies of its encoding, any of which may be damaged, and
 * writes it to standard output.
 *
 *     mirror ROOT COPY ..
 *
 * ROOT is the blob's hash in hexadecimal digits and a COPY a file with its combined encoding. What
 * a read finds missing is fetched then, from each copy in turn until one has it. The status is 0
 * only where all was written. */
#define _POSIX_C_SOURCE 200809L
#include "berylwool.h"

#include <fcntl.h>
#include <stdio.h>
#include <stdlib.h>
#include <string.h>
#include <sys/mman.h>
#include <unistd.h>

enum { GROUP_LEN = BW_GROUP_CHUNKS * BW_CHUNK_LEN, WINDOW = 1024, WINDOW_LEN = WINDOW << 10 };

static uint8_t slice[8 + 2 * GROUP_LEN], bytes[GROUP_LEN];

static void must(int is_so, const char *what) {
    if (is_so) return;
    fprintf(stderr, "mirror: %s\n", what);
    exit(1);
}

/* Fetches the slice (start, len) from a copy. 0: it isn't there. */
static size_t fetch(const char *copy, uint64_t start, uint64_t len) {
    const int file = open(copy, O_RDONLY);
    const off_t size = file < 0 ? 0 : lseek(file, 0, SEEK_END);
    void *text = size > 0 ? mmap(NULL, (size_t)size, PROT_READ, MAP_PRIVATE, file, 0) : MAP_FAILED;
    size_t used = 0;
    if (file >= 0) close(file);
    if (text == MAP_FAILED) return 0;
    if (bw_cut_slice(text, (size_t)size, start, len, slice, sizeof slice, &used)) used = 0;
    munmap(text, (size_t)size);
    return used;
}

/* Claims what a group of the store lacks, and has it committed: verified, and then read. */
static void fill(bw_seat *seat, uint32_t group, uint64_t start, char **copies) {
    uint64_t claimed, committed, at;
    must(!bw_seat_take(seat, group, UINT64_MAX, &claimed), "no such group");
    for (bw_status r = BW_SHORT; r && *copies; copies++)
        r = bw_seat_commit_chunks(seat, start, GROUP_LEN, slice, fetch(*copies, start, GROUP_LEN),
                                  &committed, &at);
    must(!bw_seat_give(seat, group, claimed, &claimed), "no such group");
}

int main(int count, char **words) {
    bw_slice last = {{0, {0}}, {0}, UINT64_MAX, 1}; /* which certifies the length */
    bw_seat seat = BW_EMPTY;
    bw_status r = BW_SHORT;
    uint64_t total = 0, at = 0, missing;
    size_t len;
    must(count > 2 && strlen(words[1]) == 2 * BW_HASH_LEN, "usage: mirror ROOT COPY ..");
    for (int i = 0; i < BW_HASH_LEN; i++)
        must(sscanf(words[1] + 2 * i, "%2hhx", &last.root[i]) == 1, "ROOT is no hash");
    for (char **copy = words + 2; r && *copy; copy++)
        r = bw_decode(&last, slice, fetch(*copy, UINT64_MAX, 1), bytes, sizeof bytes, &len, &total,
                      &at);
    must(!r, "no copy has a true last chunk");
    for (at = 0; at < total; at += len) {
        const uint64_t from = at % WINDOW_LEN;
        len = total - at < GROUP_LEN ? total - at : GROUP_LEN;
        if (!from)
            must(!bw_seat_new(&last.mode, last.root, at / BW_CHUNK_LEN, WINDOW, &seat),
                 "no memory");
        if (bw_seat_read_at(&seat, at, bytes, len, &missing))
            fill(&seat, (uint32_t)(from / GROUP_LEN), at, words + 2);
        must(!bw_seat_read_at(&seat, at, bytes, len, &missing), "no copy has all of a group");
        must(fwrite(bytes, 1, len, stdout) == len, "it can't be written");
    }
    must(!fflush(stdout), "it can't be written");
    bw_free(&seat);
    return 0;
}
