/* mkbao FILE [KEY | CONTEXT]: writes FILE.bao and FILE.obao, and prints the root. KEY is 64
 * hexadecimal digits. */
#define _GNU_SOURCE
#include <berylwool.h>

#include <fcntl.h>
#include <stdbool.h>
#include <stdio.h>
#include <stdlib.h>
#include <string.h>
#include <sys/mman.h>
#include <sys/stat.h>
#include <unistd.h>

static void stop(const char *what) {
    fprintf(stderr, "mkbao: %s\n", what);
    exit(1);
}

/* A file in memory: that with the tail is made anew, with so many bytes. */
static uint8_t *map(const char *path, const char *tail, size_t *len) {
    char name[4096];
    struct stat is;
    bool is_new = *tail;
    snprintf(name, sizeof name, "%s%s", path, tail);
    int fd = is_new ? open(name, O_RDWR | O_CREAT | O_TRUNC, 0666) : open(name, O_RDONLY);
    if (fd < 0 || (is_new && ftruncate(fd, (off_t)*len)) || fstat(fd, &is)) stop(name);
    *len = (size_t)is.st_size;
    void *at = *len ? mmap(NULL, *len, is_new ? PROT_READ | PROT_WRITE : PROT_READ,
                           is_new ? MAP_SHARED : MAP_PRIVATE, fd, 0)
                    : NULL;
    if (at == MAP_FAILED || close(fd)) stop(name);
    return at;
}

int main(int count, char **words) {
    bw_mode mode = {0, {0}};
    uint8_t root[BW_HASH_LEN];
    size_t used, len;
    if (count < 2) stop("FILE [KEY | CONTEXT]");
    bool is_keyed = count == 3 && strlen(words[2]) == 64;
    if (count == 3 && !is_keyed &&
        bw_mode_derive((const uint8_t *)words[2], strlen(words[2]), &mode))
        stop("CONTEXT");
    for (int i = 0; is_keyed && i < 32; i++) {
        unsigned byte;
        if (sscanf(words[2] + 2 * i, "%2x", &byte) != 1) stop("KEY");
        mode.kind = BW_MODE_KEYED_HASH;
        mode.key[i] = (uint8_t)byte;
    }
    const uint8_t *blob = map(words[1], "", &len), none[1] = {0};
    size_t bao_len = (size_t)bw_slice_len(len, 0, UINT64_MAX),
           obao_len = (size_t)bw_outboard_len(len);
    uint8_t *bao = map(words[1], ".bao", &bao_len), *obao = map(words[1], ".obao", &obao_len);
    if (bw_encode(&mode, len ? blob : none, len, bao, bao_len, &used, root)) stop("bw_encode");
    if (bw_outboard(&mode, len ? blob : none, len, obao, obao_len, &used, root))
        stop("bw_outboard");
    for (int i = 0; i < BW_HASH_LEN; i++) printf("%02x", root[i]);
    puts("");
    return 0;
}
