/* What is printed: progress, why it failed, and what came from each mirror. */
#include "fetch.h"

#include <poll.h>
#include <stdarg.h>

static const double KIB = 1024, MIB = 1048576;

/* Prints a line, and returns the status. */
int say(int status, const char *format, ...) {
    va_list rest;
    va_start(rest, format);
    fputs("bw-fetch: ", stderr);
    vfprintf(stderr, format, rest);
    fputc('\n', stderr);
    va_end(rest);
    return status;
}

int no_memory(void) { return say(NO_MEMORY, "out of memory"); }

int file_fault(const char *path) { return say(FILE_FAULT, "%s: %s", path, strerror(errno)); }

static void print_peer(fetch *f, const peer *it) {
    const char *became = fetch_has_left_out(f, it) ? "; left out"
                         : it->rank == LAST        ? "; asked last"
                                                   : "";
    fprintf(stderr, "bw-fetch: %s: %" PRIu64 " bytes, %" PRIu64 " of them false; ", it->at.shown,
            it->at.bytes, it->at.wrong);
    if (it->at.kind != OUTBOARD)
        fprintf(stderr, "%" PRIu64 " groups taken, %" PRIu64 " refused; ", it->good, it->bad);
    fprintf(stderr, "%u faults%s%s%s\n", it->at.faults, became, *it->at.why ? ": " : "",
            it->at.why);
}

/* --- JSON */

/* How many bytes a character takes in UTF-8 (RFC 3629, section 4). 0: it is none. */
static int utf8_len(const unsigned char *at) {
    static const struct {
        unsigned char from, to, next_from, next_to;
        int len;
    } rows[] = {{0xc2, 0xdf, 0x80, 0xbf, 2}, {0xe0, 0xe0, 0xa0, 0xbf, 3},
                {0xe1, 0xec, 0x80, 0xbf, 3}, {0xed, 0xed, 0x80, 0x9f, 3},
                {0xee, 0xef, 0x80, 0xbf, 3}, {0xf0, 0xf0, 0x90, 0xbf, 4},
                {0xf1, 0xf3, 0x80, 0xbf, 4}, {0xf4, 0xf4, 0x80, 0x8f, 4}};
    if (*at < 0x80) return 1;
    for (size_t i = 0; i < sizeof rows / sizeof *rows; i++) {
        if (*at < rows[i].from || *at > rows[i].to) continue;
        int len = at[1] >= rows[i].next_from && at[1] <= rows[i].next_to ? 2 : 0;
        while (len && len < rows[i].len) len = (at[len] & 0xc0) == 0x80 ? len + 1 : 0;
        return len;
    }
    return 0;
}

/* A byte that is of no character is put as U+FFFD. */
static void put_text(FILE *to, const char *text) {
    fputc('"', to);
    for (int len; *text; text += len ? len : 1) {
        const unsigned char c = (unsigned char)*text;
        len = utf8_len((const unsigned char *)text);
        if (!len) fputs("\\ufffd", to);
        else if (c < 0x20) fprintf(to, "\\u%04x", c);
        else fprintf(to, c == '"' || c == '\\' ? "\\%.*s" : "%.*s", len, text);
    }
    fputc('"', to);
}

static void put_peers(FILE *to, fetch *f, const char *name, const peer *from, const peer *end) {
    fprintf(to, ",\"%s\":[", name);
    for (const peer *it = from; it != end; it = it->next) {
        fputs(it == from ? "{\"url\":" : ",{\"url\":", to);
        put_text(to, it->at.shown);
        fprintf(to, ",\"bytes\":%" PRIu64 ",\"false\":%" PRIu64, it->at.bytes, it->at.wrong);
        fprintf(to, ",\"taken\":%" PRIu64 ",\"refused\":%" PRIu64, it->good, it->bad);
        fprintf(to, ",\"faults\":%u,\"http\":%ld,\"left_out\":%s,\"reason\":", it->at.faults,
                it->at.code, fetch_has_left_out(f, it) ? "true" : "false");
        put_text(to, it->at.why);
        fputc('}', to);
    }
    fputc(']', to);
}

static void print_json(fetch *f) {
    FILE *to = f->out.is_pipe ? stderr : stdout;
    const uint64_t lacking = f->status ? least(f->chunks_open * BW_CHUNK_LEN, f->total) : 0;
    fputs("{\"out\":", to);
    put_text(to, f->name);
    fprintf(to, ",\"status\":%d,\"length\":", f->status);
    if (f->is_settled) fprintf(to, "%" PRIu64 ",\"lacking\":%" PRIu64, f->total, lacking);
    else fputs("null,\"lacking\":null", to);
    put_peers(to, f, "mirrors", f->peers, f->lines);
    put_peers(to, f, "outboards", f->lines, NULL);
    fputs("}\n", to);
    fflush(to);
}

/* --- At the end */

static void print_why(const fetch *f) {
    const bool lacks = f->status == LACKING || f->status == UNREACHED;
    const uint64_t chunks = chunks_of(f->total), claimed = f->claimed_above, most = f->set->most;
    if (f->status == INTERRUPTED) say(0, "interrupted");
    if (f->asks_nobody && f->status == LACKING) say(0, "%s doesn't have the root", f->name);
    else if (lacks && f->is_settled)
        say(0, "unfinished: %" PRIu64 " KiB of %" PRIu64 " are lacking", f->chunks_open, chunks);
    else if (lacks && !f->asks_nobody) say(0, "no mirror certifies a length");
    if (lacks && !f->is_settled && claimed)
        say(0, "%" PRIu64 " bytes were claimed, and --max is %" PRIu64, claimed, most);
    if (f->status == UNREACHED) say(0, "the network failed, or the time was up: try again later");
    if (f->status == NO_MEMORY) no_memory();
    if (f->is_settled && f->out.fd >= 0)
        say(0, "what came is kept in %s, for the next run", f->out.part);
}

void report_end(fetch *f) {
    const bool lacks = !f->asks_nobody && (f->status == LACKING || f->status == UNREACHED);
    const char *name = f->is_one_of_many ? f->name : "";
    for (const peer *it = f->peers; it && (f->set->verbose || lacks); it = it->next)
        print_peer(f, it);
    if (f->status) print_why(f);
    if (f->set->json) print_json(f);
    if (f->status || f->set->quiet) return;
    fprintf(stderr, "ok %" PRIu64 "%s%s\n", f->total, *name ? " " : "", name);
}

/* --- Progress */

/* Ten times a second at most, and at the end. Nobody has to read what goes to a descriptor. */
void report_progress(fetch *f, bool is_last) {
    const options *o = f->set;
    const uint64_t now = now_ms();
    if (!f->is_settled || !f->unit_count || (!is_last && now - f->shown_at < 100)) return;
    f->shown_at = now;
    const double all = (double)f->total / MIB, left = (double)f->chunks_open / KIB;
    const double took = (double)(now - f->began) / 1000, had = all > left ? all - left : 0;
    const double rate = took > 0 ? had / took : 0;
    struct pollfd to = {.fd = o->progress, .events = POLLOUT};
    if (o->progress >= 0 && poll(&to, 1, 0) > 0)
        dprintf(o->progress,
                "{\"have\":%.0f,\"length\":%" PRIu64 ",\"rate\":%.0f,\"seconds\":%.1f}\n",
                had * MIB, f->total, rate * MIB, took);
    if (o->progress >= 0 || o->quiet || f->is_one_of_many || !isatty(STDERR_FILENO)) return;
    unsigned live = 0, last = 0;
    for (peer *m = f->peers; m != f->lines; m = m->next) {
        const bool in = m->is_in && m->at.faults < o->retries;
        live += in;
        last += in && m->rank == LAST;
    }
    fprintf(
        stderr,
        "\r%.1f of %.1f MiB  %.1f MiB/s  %.0f s left  %u of %zu mirrors, %u of them last \033[K%s",
        had, all, rate, rate > 0 ? left / rate : 0, live, f->mirror_count, last,
        is_last ? "\n" : "");
}
