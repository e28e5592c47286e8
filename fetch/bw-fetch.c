/* bw-fetch [OPTION ..] ROOT OUT URL ..: gathers a blob from mirrors that nobody trusts, over HTTP,
 * by its BLAKE3 root.
 *
 * It isn't proved. That status 0 means that the bytes that went to OUT have the root rests on one
 * proved call, a hasher over these bytes. docs/FETCH.md says more. */
#include "fetch.h"

#include <getopt.h>
#include <malloc.h>
#include <poll.h>
#include <signal.h>
#include <sys/resource.h>

static const double DAYS = 1e9;

enum { TOGETHER = 8, NAP_MS = 20, HANGS_MS = 300 };

static hub all;
static fetch *running[TOGETHER];
static FILE *manifest;
static char *text; /* a line of it */
static size_t room;
static int worst;
static bool has_output; /* standard output wasn't closed */
static volatile sig_atomic_t interrupted, has_hung_up;

/* --- What is to be fetched */

static int add_url(fetch *f, const char *url, kind as) {
    if (f->mirror_count == MIRRORS_MOST) return usage("at most 1000 mirrors");
    peer *m = fetch_add(f, url, as, NULL);
    if (!m) return no_memory();
    if (as != PLAIN || !f->has_own_lines) return DONE;
    char *line = url_tailed(url, ".obao");
    if (line) m->line = fetch_add(f, line, OUTBOARD, NULL);
    free(line);
    return m->line ? DONE : no_memory();
}

static int add_mirror(void *with, char *url) {
    url[strcspn(url, " \t")] = 0;
    return add_url(with, url, url_is_combined(url) ? COMBINED : PLAIN);
}

/* Makes a fetch of what the command line, or a line of a manifest, has. */
static int make_fetch(fetch **f, char **argv) {
    if (!argv[0] || !argv[1]) return usage("ROOT OUT URL ..");
    if (given.manifest && !strcmp(argv[1], "-")) return usage("OUT in a manifest is a file");
    if (!strcmp(argv[1], "-") && !has_output) {
        errno = EBADF;
        return file_fault("standard output");
    }
    if (!strcmp(argv[1], "-") && given.serve) return usage("a pipe can't be served");
    int status = fetch_new(f, &all, &given, argv[0], argv[1]);
    if (status) return status;
    (*f)->has_own_lines = !given.outboards;
    (*f)->is_one_of_many = given.manifest;
    for (const mirror *it = given.named; it < given.named + given.named_count && !status; it++)
        status = add_url(*f, it->url, it->as);
    for (char **url = argv + 2; *url && !status; url++) status = add_mirror(*f, *url);
    if (given.mirrors_file && !status) status = each_line(given.mirrors_file, add_mirror, *f);
    for (size_t i = 0; i < given.peer_count && !status; i++) {
        if ((*f)->mirror_count == MIRRORS_MOST) return usage("at most 1000 mirrors");
        status = peers_add(*f, given.peers[i], false);
    }
    if (!status) status = peers_read(*f, true);
    const bool needs_none = (*f)->mirror_count || given.check || given.serve || given.peers_file;
    return status || needs_none ? status : usage("there is no URL");
}

/* The status of several is that of the worst. */
static void note(int status) {
    static const int badness[] = {0, 2, 3, 5, 6, 7, 1, 4}; /* of each, as they are numbered */
    if (badness[status] > badness[worst]) worst = status;
}

static void drop(fetch **f) {
    fetch_free(*f);
    *f = NULL;
}

/* Fills a free place with the next line that can be begun. */
static void start_next(fetch **f) {
    while (manifest && !*f && !interrupted) {
        char *argv[MIRRORS_MOST + 4] = {0}, *line = next_line(manifest, &text, &room);
        size_t n = 0;
        if (!line) {
            if (ferror(manifest)) note(file_fault(given.manifest));
            fclose(manifest);
            manifest = NULL;
            return;
        }
        while (n < MIRRORS_MOST + 3 && (argv[n] = strtok(n ? NULL : line, " \t"))) n++;
        const int status = make_fetch(f, argv);
        note(status);
        if (!status) continue;
        say(status, "%s: the line of %s is left out", given.manifest, argv[argv[1] ? 1 : 0]);
        drop(f);
    }
}

/* --- While it runs */

static void on_signal(int number) {
    (void)number;
    interrupted = 1;
}

static void on_hangup(int number) {
    (void)number;
    has_hung_up = 1;
}

/* A second signal ends the program at once. One that is ignored stays so. A file that may not
 * become longer is a fault like others. */
static void watch_signals(void) {
    static const int ends[] = {SIGINT, SIGTERM, SIGHUP};
    for (size_t i = 0; i < sizeof ends / sizeof *ends; i++) {
        struct sigaction act = {.sa_handler = on_signal, .sa_flags = (int)SA_RESETHAND}, before;
        if (!sigaction(ends[i], NULL, &before) && before.sa_handler != SIG_IGN)
            sigaction(ends[i], &act, NULL);
    }
    signal(SIGPIPE, SIG_IGN);
    signal(SIGXFSZ, SIG_IGN);
}

/* Moves a fetch on, and prints what is told of it. Whether it has ended. */
static bool turn_one(fetch *f, uint64_t now) {
    const bool was_on = f->status == GOES_ON, is_over = fetch_turn(f, now),
               ends = is_over && !f->is_told;
    if (was_on || ends) report_progress(f, ends);
    if (!ends) return is_over;
    report_end(f);
    note(f->status);
    f->is_told = true;
    f->ended = now;
    return true;
}

/* Whether something is under way, which is to be looked at again at *wake. */
static bool turn_all(uint64_t *wake) {
    const uint64_t now = now_ms();
    bool some = false;
    *wake = now + 1000;
    serve_turn(now);
    const bool rereads = has_hung_up;
    has_hung_up = 0;
    for (fetch **f = running; f < running + TOGETHER; f++) {
        start_next(f);
        if (!*f) continue;
        some = true;
        if (interrupted) fetch_stop(*f, INTERRUPTED);
        if (rereads && (*f)->status == GOES_ON) peers_read(*f, true);
        const bool is_over = turn_one(*f, now);
        *wake = least(*wake, is_over ? now + NAP_MS : (*f)->wake);
        if (is_over && fetch_is_quiet(*f)) drop(f);
        else if (is_over && now - (*f)->ended > HANGS_MS) {
            *f = NULL; /* a read hangs, and uses it until the process ends */
            all.ghosts++;
        }
    }
    return some;
}

/* What is closed is opened, so that no file and no socket gets the number of a standard stream. */
static void open_standard(void) {
    has_output = fcntl(STDOUT_FILENO, F_GETFD) >= 0;
    for (int fd = 0; fd < 3; fd++)
        if (fcntl(fd, F_GETFD) < 0 && open("/dev/null", O_RDWR) != fd) _exit(FILE_FAULT);
}

static void allow_descriptors(void) {
    struct rlimit most;
    if (getrlimit(RLIMIT_NOFILE, &most)) return;
    most.rlim_cur = most.rlim_max;
    setrlimit(RLIMIT_NOFILE, &most);
}

/* Serves what is whole, until a signal or until the time is up. */
static void serve_on(bool has_mirror) {
    const double wanted = given.serve_for, seconds = wanted >= 0 ? wanted : has_mirror ? 0 : DAYS;
    const uint64_t until = now_ms() + (uint64_t)(seconds * 1000);
    for (uint64_t now = now_ms(); !interrupted && now < until; now = now_ms()) {
        serve_turn(now);
        poll(NULL, 0, NAP_MS);
    }
}

int main(int argc, char **argv) {
    open_standard();
    watch_signals();
    allow_descriptors();
    mallopt(M_MMAP_THRESHOLD, UNIT_LEN); /* an exchange's memory goes back to the system */
    const int status = read_options(argc, argv);
    if (given.peers_file) signal(SIGHUP, on_hangup);
    if (status) return status == GOES_ON ? DONE : status;
    if (given.serve && (given.manifest || given.check))
        return usage("--serve is for one file that is fetched or there");
    if (given.manifest && argc > optind) return usage("--manifest has all files");
    if (given.manifest && !(manifest = fopen(given.manifest, "re")))
        return file_fault(given.manifest);
    if (!hub_new(&all, &given.set)) return no_memory();
    worst = given.manifest ? DONE : make_fetch(&running[0], argv + optind);
    if (!worst && given.serve)
        worst = serve_start(given.serve, running[0]->out.root, given.serve_rate);
    const bool has_mirror = !worst && running[0] && (running[0]->mirror_count || given.peers_file);
    if (worst) drop(&running[0]);
    for (uint64_t wake; turn_all(&wake);) hub_wait(&all, wake);
    fflush(stdout);
    if (!worst && given.serve) serve_on(has_mirror);
    serve_end();
    if (!hub_free(&all)) _exit(worst);
    shelf_close();
    return worst;
}
