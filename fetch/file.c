#include "http.h"

#include <stdarg.h>

static size_t move(bool writes, int fd, uint64_t at, char *bytes, size_t len) {
    size_t done = 0;
    errno = 0;
    for (ssize_t n = 1; done < len && n; done += n > 0 ? (size_t)n : 0) {
        const off_t from = (off_t)(at + done);
        n = writes ? pwrite(fd, bytes + done, len - done, from)
                   : pread(fd, bytes + done, len - done, from);
        if (n < 0 && errno != EINTR) break;
        errno = 0;
    }
    return done;
}

/* How many bytes were moved, before a fault, which errno tells, or the file's end: it is 0 then. */
size_t read_at(int fd, uint64_t at, void *bytes, size_t len) {
    return move(false, fd, at, bytes, len);
}

size_t write_at(int fd, uint64_t at, const void *bytes, size_t len) {
    return move(true, fd, at, (void *)bytes, len);
}

bool source_new(source *it, const char *url, kind as, unsigned most) {
    *it = (source){.kind = as, .fd = -1, .most = most, .url = url_tailed(url, "")};
    it->shown = it->url ? url_shown(it->url) : NULL;
    it->is_local = it->url && url_is_local(it->url);
    return it->shown;
}

void source_free(source *it) {
    if (it->fd >= 0) close(it->fd);
    free(it->url);
    free(it->shown);
    free(it->moved);
}

/* Why it failed last, and whether that may pass. A stranger may have written some of it. */
void source_note(source *it, bool is_far, const char *format, ...) {
    va_list words;
    va_start(words, format);
    vsnprintf(it->why, sizeof it->why, format, words);
    va_end(words);
    for (char *at = it->why; *at; at++)
        if (*at < ' ' || *at > '~') *at = '?';
    it->is_far = is_far;
}

/* How many bytes of the pieces are lacking. */
uint64_t pieces_lacking(const piece *list, size_t count) {
    uint64_t sum = 0;
    for (size_t i = 0; i < count; i++) sum += list[i].len - list[i].have;
    return sum;
}

bool are_whole(const pieces *of) { return !pieces_lacking(of->list, of->count); }

void leg_unlink(leg *it) {
    leg **at = &it->hub->legs;
    while (*at != it) at = &(*at)->next;
    *at = it->next;
    it->runs = false;
}

void leg_end_with(leg *it, leg_end as) {
    leg_unlink(it);
    if (it->is_cut) return;
    it->of->live--;
    it->tell(it, as);
}

static void read_pieces(job *of) {
    leg *it = of->with;
    if (it->fd < 0) it->fd = open(it->of->url, O_RDONLY | O_CLOEXEC | O_NONBLOCK);
    it->error = it->fd < 0 ? errno : 0;
    for (piece *to = it->wanted->list; to < it->wanted->list + it->wanted->count && !it->error;
         to++) {
        const uint64_t at = it->of->base + to->at + to->have;
        to->have += read_at(it->fd, at, to->bytes + to->have, to->len - to->have);
        if (!piece_is_whole(to)) it->error = errno ? errno : -1;
    }
}

static void was_read(job *of) {
    leg *it = of->with;
    source *from = it->of;
    if (from->fd < 0) from->fd = it->fd;
    else if (it->fd >= 0 && it->fd != from->fd) close(it->fd);
    it->fd = -1;
    it->is_local = false;
    it->at_end = it->error == -1;
    if (it->error)
        source_note(from, false, "%s", it->at_end ? "it ends before" : strerror(it->error));
    for (size_t i = 0; i < it->wanted->count; i++) from->bytes += it->wanted->list[i].have;
    leg_end_with(it, it->error ? LEG_SHORT : LEG_ALL);
}

/* Reads a local file. */
void leg_read(leg *it) {
    it->is_local = true;
    it->has_news = false;
    it->fd = it->of->fd;
    it->job = (job){.run = read_pieces, .done = was_read, .with = it};
    pool_post(&it->hub->reading, &it->job);
}
