/* Runs the code of docs/C-API.md, which scripts/tests/test_c_library.py copies to guide.h. It
 * prints nothing and exits with 0, or says which line failed. */
#include "guide.h"
#include "vectors.h"

#define WANT(test)                                                                                 \
    do {                                                                                           \
        if (!(test)) {                                                                             \
            fprintf(stderr, "guide.c:%d: this is not so: %s\n", __LINE__, #test);                  \
            exit(1);                                                                               \
        }                                                                                          \
    } while (0)

enum { LEN = 300003, CHUNKS = LEN / BW_CHUNK_LEN + 1, ROOM = 2 * LEN, HOLDERS = 3 };

static uint8_t blob[LEN], texts[HOLDERS][ROOM], root[BW_HASH_LEN], out[ROOM];
static copy copies[HOLDERS];

static FILE *file_of(const uint8_t *bytes, size_t len) {
    FILE *file = tmpfile();
    WANT(file && fwrite(bytes, 1, len, file) == len && fseek(file, 0, SEEK_SET) == 0);
    return file;
}

/* Damages the blob's byte `at` in a holder's encoding. */
static void damage(int holder, uint64_t at) {
    bw_range ranges[BW_RANGES_MAX];
    size_t count = 0;
    WANT(bw_slice_ranges(LEN, at, 1, ranges, BW_RANGES_MAX, &count) == BW_OK);
    texts[holder][ranges[count - 1].at + ranges[count - 1].len - 1] ^= 1;
}

static void encode(void) {
    for (int k = 0; k < HOLDERS; k++) {
        size_t used = 0;
        WANT(bw_encode(&plain, blob, LEN, texts[k], ROOM, &used, root) == BW_OK);
        copies[k] = (copy){texts[k], used};
    }
}

static void hashes_files(void) {
    for (size_t k = 0; k < sizeof rows_of_b3sum / sizeof *rows_of_b3sum; k++) {
        const row *it = &rows_of_b3sum[k];
        if (it->kind != BW_MODE_HASH || it->len > LEN) continue;
        FILE *file = file_of(blob, it->len);
        WANT(hash_file(file, out) == BW_OK && memcmp(out, it->out, BW_HASH_LEN) == 0);
        fclose(file);
    }
}

static void reads_ranges(void) {
    size_t used = 0;
    encode();
    damage(0, 200000);
    FILE *holder = file_of(texts[0], copies[0].len);
    WANT(read_range(holder, root, LEN, 100000, 5000, out, &used) == BW_OK);
    WANT(used == 5000 && memcmp(out, blob + 100000, 5000) == 0);
    WANT(read_range(holder, root, LEN, LEN - 7, 5000, out, &used) == BW_OK);
    WANT(used == 7 && memcmp(out, blob + LEN - 7, 7) == 0);
    WANT(read_range(holder, root, LEN, 199000, 5000, out, &used) == BW_MISMATCH);
    WANT(read_range(holder, root, 10 * LEN, 100000, 5000, out, &used) != BW_OK);
    fclose(holder);
}

/* Each holder lacks another chunk of one group; by `many` threads or one. */
static void gathers(int many) {
    for (uint64_t same = 0; same < 2; same++) {
        bw_seat seat = BW_EMPTY;
        uint8_t *whole = NULL;
        size_t len = 0;
        encode();
        for (int k = 0; k < HOLDERS; k++) damage(k, 70000 + (same ? 0 : 2048 * (uint64_t)k));
        WANT(bw_seat_new(&plain, root, 0, CHUNKS, &seat) == BW_OK);
        WANT((many ? gather_by_threads : gather)(&seat, copies, HOLDERS) == BW_OK);
        WANT(finish(&seat, &whole, &len) == (same ? BW_UNFINISHED : BW_OK));
        if (!same) {
            WANT(len == LEN && memcmp(whole, blob, LEN) == 0);
            free(whole);
        }
        bw_free(&seat);
    }
}

static void serves(void) {
    bw_seat seat = BW_EMPTY;
    uint8_t text[8192];
    uint64_t at = 0;
    size_t used = 0;
    copy slice = {text, 0};
    encode();
    WANT(bw_seat_new(&plain, root, 0, CHUNKS, &seat) == BW_OK);
    WANT(bw_cut_slice(texts[0], copies[0].len, 10000, 3000, text, sizeof text, &slice.len) ==
         BW_OK);
    WANT(keep(&seat, 10000, 3000, &slice) == BW_OTHER_LENGTH &&
         serve(&seat, 10000, 3000, out, ROOM) == 0);
    WANT(bw_cut_slice(texts[0], copies[0].len, UINT64_MAX, 1, out, ROOM, &used) == BW_OK);
    WANT(bw_seat_settle(&seat, out, used, &at) == BW_OK &&
         keep(&seat, 10000, 3000, &slice) == BW_OK);
    used = serve(&seat, 10000, 3000, out, ROOM);
    WANT(used == slice.len && memcmp(out, text, used) == 0 &&
         serve(&seat, 20000, 3000, out, ROOM) == 0);
    bw_free(&seat);
}

int main(void) {
    for (size_t k = 0; k < LEN; k++) blob[k] = (uint8_t)(k % 251);
    hashes_files();
    reads_ranges();
    gathers(0);
    serves();
    gathers(1);
    return 0;
}
