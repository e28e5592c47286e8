#include "fetch.h"

#include <poll.h>
#include <sys/file.h>
#include <sys/statvfs.h>

enum { TRIES_MOST = 8, TAIL_LEN = 48, PIPE_LEN = 4096, NAP_MS = 200 };

/* The regular file that is to be replaced, behind a link what it leads to. 0, or a status. */
static int find_target(output *it) {
    struct stat of;
    if (lstat(it->path, &of)) return errno == ENOENT ? 0 : file_fault(it->path);
    if (S_ISLNK(of.st_mode)) {
        it->target = realpath(it->path, NULL);
        if (!it->target && errno == ENOMEM) return NO_MEMORY;
        if (!it->target || lstat(it->target, &of)) return file_fault(it->path);
        it->path = it->target;
    }
    if (!S_ISREG(of.st_mode))
        return say(FILE_FAULT, "%s: not a regular file; OUT may be -, for a pipe", it->path);
    it->is_there = true;
    it->mode = of.st_mode & 0777;
    it->was = of;
    return 0;
}

/* Names the files. 0, or a status: 3 was said. */
int out_new(output *it, const char *path, const uint8_t root[BW_HASH_LEN]) {
    const char *temporary = getenv("TMPDIR");
    *it = (output){.path = path, .fd = -1, .is_pipe = !strcmp(path, "-")};
    memcpy(it->root, root, BW_HASH_LEN);
    if (it->is_pipe) {
        it->folder = strdup(temporary && *temporary ? temporary : "/tmp");
        return it->folder ? 0 : NO_MEMORY;
    }
    const mode_t mask = umask(0);
    umask(mask);
    it->mode = 0666 & ~mask;
    const int status = find_target(it);
    if (status) return status;
    const char *slash = strrchr(it->path, '/');
    it->folder = slash ? strndup(it->path, (size_t)(slash - it->path) + 1) : strdup(".");
    if (asprintf(&it->part, "%s.part.fetch", it->path) < 0) it->part = NULL;
    return it->part && it->folder ? 0 : NO_MEMORY;
}

static void close_part(output *it) {
    if (it->fd >= 0) close(it->fd);
    it->fd = -1;
}

void out_free(output *it) {
    close_part(it);
    free(it->target);
    free(it->part);
    free(it->folder);
    free(it->window);
}

/* Whether the bytes that a hasher took in have the root. */
bool out_has_root(const output *it, bw_hasher *hasher) {
    uint8_t found[BW_HASH_LEN];
    return !bw_hasher_finish(hasher, 0, found, BW_HASH_LEN) &&
           !memcmp(found, it->root, BW_HASH_LEN);
}

/* --- What is served of OUT once it is whole: its parents aren't in it, but in OUT.obao */

/* The first bytes of OUT.obao, for free, if they are the outboard encoding; else NULL. */
static uint8_t *true_outboard(const output *it, int fd, uint64_t total) {
    const size_t len = bw_outboard_len(total);
    uint64_t at, claimed = 0;
    bw_outline outline = {0};
    uint8_t *bytes = malloc(len);
    const bool ok = bytes && read_at(fd, 0, bytes, len) == len &&
                    !bw_outline_new(it->served_as, it->root, bytes, len, &outline, &at) &&
                    !bw_outline_length(&outline, &claimed) && claimed == total;
    bw_free(&outline);
    if (ok) return bytes;
    free(bytes);
    return NULL;
}

/* Puts OUT on the shelf, which is open and has the root. */
static void shelve(const output *it, int fd, uint64_t total) {
    char *path = NULL;
    const int named = asprintf(&path, "%s.obao", it->path) < 0
                          ? -1
                          : open(path, O_RDONLY | O_CLOEXEC | O_NONBLOCK);
    uint8_t *bytes = named < 0 ? NULL : true_outboard(it, named, total);
    if (!bytes && total > BW_CHUNK_LEN)
        say(0, "%s.obao isn't its outboard encoding: only the plain file is served", it->path);
    if (shelf_open(fd, bytes ? named : -1, 0, total)) {
        shelf_mark_all();
        shelf_certify();
    }
    if (named >= 0) close(named);
    free(bytes);
    free(path);
}

/* Copies the parents from OUT.part.fetch to OUT.obao, and has them served from there. */
static void keep_parents(const output *it) {
    const uint64_t len = bw_outboard_len(it->total);
    uint8_t bytes[PIPE_LEN];
    char *path = NULL, *part = NULL;
    int fd = -1;
    bool ok = shelf_has_parents() && asprintf(&path, "%s.obao", it->path) > 0 &&
              asprintf(&part, "%s.obao.part.fetch", it->path) > 0;
    if (ok && !unlink(part)) errno = 0;
    if (ok) fd = open(part, O_RDWR | O_CREAT | O_EXCL | O_CLOEXEC | O_NOFOLLOW, it->mode);
    ok = fd >= 0;
    for (uint64_t at = 0, n; at < len && ok; at += n) {
        n = least(len - at, sizeof bytes);
        ok = read_at(it->fd, it->total + at, bytes, n) == n && write_at(fd, at, bytes, n) == n;
    }
    ok = ok && !rename(part, path);
    if (!ok) say(0, "%s.obao can't be kept: only the plain file is served now", it->path);
    shelf_move_parents(ok ? fd : -1);
    if (fd >= 0) close(fd);
    if (fd >= 0 && !ok) unlink(part);
    free(path);
    free(part);
}

/* Hashes OUT as it is, and tells its length. DONE, LACKING, or FILE_FAULT by errno. */
int out_compare(const output *it, bw_hasher *hasher, uint8_t bytes[DRAIN_LEN], uint64_t *len) {
    const int fd = it->is_there ? open(it->path, O_RDONLY | O_CLOEXEC | O_NONBLOCK) : -1;
    bool ok = fd >= 0;
    *len = 0;
    if (!it->is_there) return LACKING;
    for (size_t n = 1; ok && n && !atomic_load(&it->is_over); *len += n) {
        n = read_at(fd, *len, bytes, DRAIN_LEN);
        ok = !errno && !bw_hasher_update(hasher, bytes, n);
    }
    const int fault = errno;
    const bool is_same = ok && out_has_root(it, hasher);
    if (is_same && it->served_as) shelve(it, fd, *len);
    if (fd >= 0) close(fd);
    errno = fault;
    return !ok ? FILE_FAULT : is_same ? DONE : LACKING;
}

/* --- OUT.part.fetch: this user's, of one name, written by one run. What isn't so is removed. */

/* Whether the file that is open is this user's own, and has the name. */
static bool is_own(const output *it) {
    struct stat ours, named;
    if (fstat(it->fd, &ours) || lstat(it->part, &named)) return false;
    return ours.st_dev == named.st_dev && ours.st_ino == named.st_ino && S_ISREG(ours.st_mode) &&
           ours.st_nlink == 1 && ours.st_uid == geteuid() && !(ours.st_mode & 022);
}

/* What was there is opened, or what is made. Another run that ended between opening and locking has
 * made OUT of the file. 0, -1 where nothing is there, or a status. */
static int lock_part(output *it, bool makes) {
    for (int i = 0; i < TRIES_MOST; i++) {
        it->fd = open(it->part, O_RDWR | O_CLOEXEC | O_NOFOLLOW | O_NONBLOCK);
        const bool is_there = it->fd >= 0 || errno != ENOENT;
        if (it->fd >= 0 && flock(it->fd, LOCK_EX | LOCK_NB) && errno == EWOULDBLOCK) {
            close_part(it);
            return say(FILE_FAULT, "%s: another bw-fetch writes it", it->part);
        }
        if (it->fd >= 0 && is_own(it)) return 0;
        close_part(it);
        if (!makes) return -1;
        if (is_there && unlink(it->part) && errno != ENOENT) return file_fault(it->part);
        it->fd = open(it->part, O_RDWR | O_CREAT | O_EXCL | O_CLOEXEC | O_NOFOLLOW, 0600);
        if (it->fd < 0 && errno != EEXIST) return file_fault(it->part);
        close_part(it);
    }
    return say(FILE_FAULT, "%s: others may write it, however it is made", it->part);
}

/* Magic, length and root, at the end of the file. */
static void write_tail(const output *it, uint8_t bytes[TAIL_LEN]) {
    memcpy(bytes, "bw-fetch", 8);
    claim_length(bytes + 8, it->total);
    memcpy(bytes + 16, it->root, BW_HASH_LEN);
}

static uint64_t tail_at(uint64_t total) { return total + bw_outboard_len(total); }

/* Opens what an earlier run left of the same root. 0, -1 where that is nothing, or a status: OUT
 * can't be written, or it. */
int out_resume(output *it) {
    uint8_t bytes[TAIL_LEN], wanted[TAIL_LEN];
    struct stat of;
    if (it->is_pipe) return -1;
    if (it->is_there && access(it->path, W_OK)) return file_fault(it->path);
    if (access(it->folder, W_OK | X_OK)) return file_fault(it->folder);
    const int status = lock_part(it, false);
    if (status) return status;
    const uint64_t size = fstat(it->fd, &of) ? 0 : (uint64_t)of.st_size;
    if (size > TAIL_LEN && read_at(it->fd, size - TAIL_LEN, bytes, TAIL_LEN) == TAIL_LEN) {
        it->total = length_claimed(bytes + 8);
        write_tail(it, wanted);
        if (!memcmp(bytes, wanted, TAIL_LEN) && it->total < size &&
            tail_at(it->total) == size - TAIL_LEN)
            return 0;
    }
    close_part(it);
    return -1;
}

/* Makes OUT.part.fetch anew, or the window, for a blob of so many bytes. 0, or a status. */
int out_open(output *it, uint64_t total) {
    it->total = total;
    if (it->is_pipe) {
        free(it->window);
        it->window_len = least(total / UNIT_LEN + 1, WINDOW_UNITS) * UNIT_LEN;
        it->window = malloc(it->window_len);
        return it->window ? 0 : NO_MEMORY;
    }
    close_part(it);
    it->is_full = false;
    const int status = lock_part(it, true);
    if (status) return status;
    return ftruncate(it->fd, 0) || ftruncate(it->fd, (off_t)total) ? file_fault(it->part) : 0;
}

/* The length is certified: a later run can go on. 0, or a status. */
int out_certify(output *it) {
    uint8_t bytes[TAIL_LEN];
    const uint64_t end = tail_at(it->total);
    if (it->is_pipe) return 0;
    write_tail(it, bytes);
    it->is_full |= write_at(it->fd, it->total, bytes + 8, BW_LENGTH_LEN) < BW_LENGTH_LEN ||
                   write_at(it->fd, end, bytes, TAIL_LEN) < TAIL_LEN;
    if (it->is_full && it->served_as) shelf_move_parents(-1);
    return ftruncate(it->fd, (off_t)(it->is_full ? it->total : end + TAIL_LEN))
               ? file_fault(it->part)
               : 0;
}

/* The first byte from there on that isn't in a hole, or UINT64_MAX. */
uint64_t out_data(const output *it, uint64_t from) {
    const off_t at = lseek(it->fd, (off_t)from, SEEK_DATA);
    return at >= 0 ? (uint64_t)at : errno == ENXIO ? UINT64_MAX : from;
}

/* On a full disk parents give way to the blob, if it has room then. Else all is kept as it is. */
static bool give_way(output *it) {
    struct statvfs disk;
    struct stat of;
    if ((errno != ENOSPC && errno != EDQUOT) || fstatvfs(it->fd, &disk) || fstat(it->fd, &of))
        return false;
    if ((uint64_t)disk.f_bavail * disk.f_frsize + (uint64_t)of.st_blocks * 512 < it->total) {
        errno = ENOSPC;
        return false;
    }
    atomic_store(&it->is_full, true);
    if (it->served_as) shelf_move_parents(-1);
    return !ftruncate(it->fd, (off_t)it->total);
}

static bool put(output *it, uint64_t from, const void *bytes, size_t len) {
    return write_at(it->fd, from, bytes, len) == len ||
           (give_way(it) && write_at(it->fd, from, bytes, len) == len) || !file_fault(it->part);
}

/* Bytes of the blob, to their place and from it. A pipe's are one range, within the window. */
bool out_put(output *it, uint64_t from, const struct iovec *of, int count) {
    size_t len = 0;
    if (it->is_pipe) return memcpy(it->window + from % it->window_len, of->iov_base, of->iov_len);
    for (int i = 0; i < count; i++) len += of[i].iov_len;
    bool ok = pwritev(it->fd, of, count, (off_t)from) == (ssize_t)len;
    for (int i = 0; i < count && !ok; from += of[i++].iov_len)
        if (!put(it, from, of[i].iov_base, of[i].iov_len)) return false;
    return true;
}

bool out_get(const output *it, uint64_t from, uint8_t *bytes, size_t len) {
    if (it->is_pipe) return memcpy(bytes, it->window + from % it->window_len, len);
    return read_at(it->fd, from, bytes, len) == len || !file_fault(it->part);
}

/* Has the disk begin with a range of the file, so that less is left to out_finish. */
void out_write_back(const output *it, uint64_t from, uint64_t len) {
    if (!it->is_pipe) sync_file_range(it->fd, (off_t)from, (off_t)len, SYNC_FILE_RANGE_WRITE);
}

/* Writes the next bytes to a pipe; of a file nothing is to be done. So little at a time that a pipe
 * takes it as soon as it takes something: nobody may read it for ever. */
bool out_pass(output *it, const uint8_t *bytes, size_t len) {
    struct pollfd to = {.fd = STDOUT_FILENO, .events = POLLOUT};
    while (it->is_pipe && len) {
        if (atomic_load(&it->is_over)) return false;
        if (poll(&to, 1, NAP_MS) <= 0) continue;
        const ssize_t n = write(STDOUT_FILENO, bytes, least(len, PIPE_LEN));
        if (n < 0 && (errno == EINTR || errno == EAGAIN)) continue;
        if (n <= 0) return !file_fault("standard output");
        bytes += n;
        len -= (size_t)n;
    }
    return true;
}

/* Has the file on the disk and renames it to OUT. A folder that can't be opened or flushed, so that
 * the new name is on the disk as well, is left as it is. */
bool out_finish(output *it) {
    if (it->is_pipe) return true;
    if (it->served_as && it->total > BW_CHUNK_LEN) keep_parents(it);
    if (it->is_there && fchown(it->fd, it->was.st_uid, it->was.st_gid))
        errno = 0; /* as far as it is allowed */
    if (fchmod(it->fd, it->mode) || ftruncate(it->fd, (off_t)it->total) || fsync(it->fd) ||
        rename(it->part, it->path))
        return !file_fault(it->path);
    close_part(it);
    const int folder = open(it->folder, O_RDONLY | O_DIRECTORY | O_CLOEXEC);
    if (folder < 0) return true;
    fsync(folder);
    close(folder);
    return true;
}

/* --- Parents: byte `at` of the outboard encoding is byte `at` after the blob */

static void put_parents(const output *it, uint64_t at, const uint8_t *bytes, size_t len) {
    if (!len || it->is_pipe || atomic_load(&it->is_full)) return;
    const bool ok = write_at(it->fd, it->total + at, bytes, len) == len;
    for (size_t i = 0; i < len && ok && it->served_as; i += BW_PARENT_LEN)
        shelf_mark_parent(at + i);
}

/* Keeps the parents of an accepted slice that weren't known. A pipe keeps only those above units,
 * as does a file where there is no room for others: that ends no fetch. */
void out_learn(const output *it, known *above, const slice *of) {
    static _Thread_local uint8_t bytes[GROUP_NODES * BW_PARENT_LEN];
    uint64_t at = 0;
    size_t used = 0; /* of those that follow each other, which are written at once */
    for (size_t i = 0; i < of->count; i++) {
        const bw_placed *node = &of->nodes[i];
        if (node->kind != BW_NODE_PARENT || !know(above, node, of->found[i])) continue;
        if (node->outboard_at != at + used) {
            put_parents(it, at, bytes, used);
            at = node->outboard_at;
            used = 0;
        }
        memcpy(bytes + used, of->found[i], BW_PARENT_LEN);
        used += BW_PARENT_LEN;
    }
    put_parents(it, at, bytes, used);
}
