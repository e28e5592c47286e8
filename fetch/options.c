#include "fetch.h"

#include <ctype.h>
#include <getopt.h>

static const double DAYS = 1e7, MAX_MOST = INT64_MAX / 2 - 511, RATE_MOST = INT64_MAX / 2000;

options given = {.connections = 2,
                 .retries = 5,
                 .patience = 300,
                 .most = (uint64_t)1 << 34,
                 .progress = -1,
                 .serve_for = -1,
                 .origin_last = 5,
                 .set = {.stall = 5, .agent = "bw-fetch"}};

int usage(const char *what) { return say(USAGE, "usage: %s (bw-fetch --help tells more)", what); }

/* --- What an option's word is */

/* Digits, and a suffix K, M or G. */
static bool read_number(const char *digits, uint64_t most, uint64_t *n) {
    char *end;
    errno = 0;
    *n = strtoull(digits, &end, 10);
    unsigned by = *end == 'K' ? 10 : *end == 'M' ? 20 : *end == 'G' ? 30 : 0;
    bool fits =
        isdigit((unsigned char)*digits) && !errno && *n <= most >> by && !(by ? end[1] : *end);
    *n <<= fits ? by : 0;
    return fits;
}

static bool read_seconds(const char *text, double least, double most, double *seconds) {
    char *end;
    *seconds = strtod(text, &end);
    return isdigit((unsigned char)*text) && !*end && *seconds >= least && *seconds <= most;
}

static int add_header(void *unused, char *line) {
    struct curl_slist *more = curl_slist_append(given.set.headers, line);
    (void)unused;
    if (more) given.set.headers = more;
    return more ? DONE : no_memory();
}

static int add_named(const char *url, kind as) {
    mirror *more = realloc(given.named, (given.named_count + 1) * sizeof *more);
    if (!more) return no_memory();
    given.named = more;
    given.outboards += as == OUTBOARD;
    more[given.named_count++] = (mirror){url, as};
    return DONE;
}

static int add_peer(const char *url) {
    const char **more = realloc(given.peers, (given.peer_count + 1) * sizeof *more);
    if (!more) return no_memory();
    given.peers = more;
    more[given.peer_count++] = url;
    return DONE;
}

/* --- The options */

static bool is_help, is_version;

typedef struct row {
    const char *name, *what; /* the name is followed by what its word is */
    enum {
        FLAG,
        CHOICE,
        TEXT,
        NUMBER,
        SECONDS,
        PERIOD,
        A_PEER,
        URL_OF,
        A_HEADER,
        HEADERS_IN,
        A_DESCRIPTOR
    } form;
    char letter;
    void *to;
    double least, most; /* of a number; least: what a choice is, or of what kind a URL */
} row;

static const row rows[] = {
    {"bao URL", "a mirror of the combined encoding, whatever its name; may be given again", URL_OF,
     .least = COMBINED},
    {"plain URL", "a mirror of the plain file, whatever its name; may be given again", URL_OF,
     .least = PLAIN},
    {"outboard URL", "where the outboard encoding is, in place of URL.obao; may be given again",
     URL_OF, .least = OUTBOARD},
    {"mirrors FILE", "more URLs, one a line; # begins a comment", TEXT, .to = &given.mirrors_file},
    {"manifest FILE", "many files: a line for each, ROOT OUT URL .., where OUT is a file", TEXT,
     .to = &given.manifest},
    {"serve PORT", "serves over HTTP what is verified of OUT; at 127.0.0.1, unless it is ADDR:PORT",
     TEXT, .to = &given.serve},
    {"serve-for SECONDS",
     "how long it serves once OUT is whole, or forever (0; without any URL forever)", PERIOD, 0,
     &given.serve_for, 0, DAYS},
    {"serve-rate BYTES", "serves at most so many a second, all together", NUMBER, 0,
     &given.serve_rate, 1, RATE_MOST},
    {"peer URL",
     "another bw-fetch that serves this blob, finished or not; /ROOT.bao may be left out; may be "
     "given again",
     A_PEER, .to = NULL},
    {"peers-file FILE", "more of them, one a line; read again when it changes, or on SIGHUP", TEXT,
     .to = &given.peers_file},
    {"origin-last SECONDS", "how long other mirrors aren't asked for what peers have or get (5)",
     SECONDS, 0, &given.origin_last, 0, DAYS},
    {"check", "asks no network, and tells whether OUT has the root", FLAG, .to = &given.check},
    {"connections N", "connections for each mirror, 1 to 8 (2)", NUMBER, 'c', &given.connections, 1,
     8},
    {"retries N", "failures in a row until a mirror is left out for a while (5)", NUMBER, 0,
     &given.retries, 1, 100},
    {"patience SECONDS",
     "how long it goes on while nothing comes, if the network is to blame (300)", SECONDS, 0,
     &given.patience, 0, DAYS},
    {"stall SECONDS", "how long a mirror may give less than 1 KiB a second (5)", SECONDS, 0,
     &given.set.stall, 0.1, 3600},
    {"max-time SECONDS", "how long one file may take", SECONDS, 0, &given.max_time, 0, DAYS},
    {"max BYTES", "the longest blob that is accepted (16G)", NUMBER, 0, &given.most, 0, MAX_MOST},
    {"limit-rate BYTES", "at most so many a second, all together", NUMBER, 0, &given.set.limit_rate,
     1, RATE_MOST},
    {"key-file FILE", "a file with the key of keyed hashing: 64 hexadecimal digits", TEXT,
     .to = &given.key_file},
    {"context TEXT", "derives the key from TEXT, the name of its use, in place of --key-file", TEXT,
     .to = &given.context},
    {"header LINE", "a header for each mirror's own server; may be given again", A_HEADER,
     .letter = 'H'},
    {"header-file FILE", "such headers, one a line", HEADERS_IN, .to = NULL},
    {"netrc", "user and password from ~/.netrc, for each mirror's own server", FLAG,
     .to = &given.set.netrc},
    {"user-agent TEXT", "what it calls itself (bw-fetch)", TEXT, .to = &given.set.agent},
    {"cacert FILE", "the authorities to trust, in place of the system's", TEXT,
     .to = &given.set.authorities},
    {"cert FILE", "a client's certificate, for each mirror's own server", TEXT,
     .to = &given.set.certificate},
    {"cert-key FILE", "its private key", TEXT, .to = &given.set.key},
    {"no-check-certificate", "accepts any certificate; the root still decides about the bytes",
     FLAG, .to = &given.set.unchecked},
    {"proxy URL", "a proxy to go through", TEXT, .to = &given.set.proxy},
    {"ipv4", "uses IPv4 alone", CHOICE, '4', &given.set.family, CURL_IPRESOLVE_V4, 0},
    {"ipv6", "uses IPv6 alone", CHOICE, '6', &given.set.family, CURL_IPRESOLVE_V6, 0},
    {"allow-private", "a redirect may lead from a public address to a private one", FLAG,
     .to = &given.set.allow_private},
    {"progress FD", "progress in JSON to a descriptor; json for standard error", A_DESCRIPTOR,
     .to = &given.progress},
    {"json",
     "what came from each mirror, in JSON, to standard output, or standard error if OUT is -", FLAG,
     .to = &given.json},
    {"quiet", "prints only why it failed", FLAG, 'q', .to = &given.quiet},
    {"verbose", "prints each fault, and at the end what came from each mirror", FLAG, 'v',
     .to = &given.verbose},
    {"version", "prints the version", FLAG, .to = &is_version},
    {"help", "prints this", FLAG, 'h', .to = &is_help},
};

enum { ROWS = sizeof rows / sizeof *rows };

static const char before[] =
    "usage: bw-fetch [OPTION ..] ROOT OUT URL ..\n"
    "       bw-fetch [OPTION ..] --manifest FILE\n"
    "       bw-fetch --check ROOT OUT\n"
    "       bw-fetch --serve [ADDR:]PORT ROOT OUT\n\n"
    "Gathers the blob with the BLAKE3 hash ROOT (64 hexadecimal digits) from mirrors that nobody "
    "trusts, and\nwrites it to OUT, or to standard output where OUT is -. A URL (http, https or a "
    "local path) whose path ends\n"
    "in .bao has the combined encoding; any other has the plain file, beside its outboard encoding "
    "URL.obao.\n\n";

static const char after[] =
    "\nStatuses: 0 done; 1 the mirrors lack or falsify some of it; 2 usage; 3 a file can't be read "
    "or written;\n4 out of memory; 5 what was written doesn't have the root; 6 the network failed, "
    "or time was up: try later;\n7 interrupted. After any but 0, OUT.part.fetch keeps what came, "
    "and the next run goes on with it.\n";

static void print_help(void) {
    fputs(before, stdout);
    for (const row *it = rows; it < rows + ROWS; it++) {
        printf(it->letter ? "  -%c, " : "      ", it->letter);
        printf("--%-16s  %s\n", it->name, it->what);
    }
    fputs(after, stdout);
}

static int take(const row *it, char *text) {
    const bool is_json = it->form == A_DESCRIPTOR && !strcmp(text, "json");
    uint64_t *number = it->to, n = STDERR_FILENO;
    bool ok = true;
    switch (it->form) {
    case FLAG: *(bool *)it->to = true; break;
    case CHOICE: *(long *)it->to = (long)it->least; break;
    case TEXT: *(const char **)it->to = text; break;
    case NUMBER:
        ok = read_number(text, (uint64_t)it->most, number) && *number >= (uint64_t)it->least;
        break;
    case PERIOD:
        *(double *)it->to = it->most;
        ok = !strcmp(text, "forever") || read_seconds(text, it->least, it->most, it->to);
        break;
    case SECONDS: ok = read_seconds(text, it->least, it->most, it->to); break;
    case URL_OF: return add_named(text, (kind)it->least);
    case A_PEER: return add_peer(text);
    case A_HEADER: return add_header(NULL, text);
    case HEADERS_IN: return each_line(text, add_header, NULL);
    case A_DESCRIPTOR:
        ok = is_json || (read_number(text, INT32_MAX, &n) && fcntl((int)n, F_GETFD) >= 0);
        *(int *)it->to = (int)n;
    }
    return ok ? DONE : usage("an option's number is out of its range");
}

static int take_all(int argc, char **argv) {
    struct option all[ROWS + 1] = {{0}};
    char names[ROWS][24];
    for (int i = 0; i < ROWS; i++) {
        const bool has_word = strchr(rows[i].name, ' ');
        snprintf(names[i], sizeof names[i], "%.*s", (int)strcspn(rows[i].name, " "), rows[i].name);
        all[i] =
            (struct option){names[i], has_word, NULL, rows[i].letter ? rows[i].letter : -2 - i};
    }
    for (int found, i; (found = getopt_long(argc, argv, "c:H:46qvh", all, NULL)) != -1;) {
        for (i = 0; i < ROWS && all[i].val != found; i++) continue;
        if (i == ROWS) return usage("an option isn't known, or lacks its word");
        const int status = take(&rows[i], optarg);
        if (status) return status;
        if (is_help) print_help();
        const int version = BW_VERSION;
        if (is_version)
            printf("bw-fetch %d.%d.%d\n", version / 10000, version / 100 % 100, version % 100);
        if (is_help || is_version) return fflush(stdout) || ferror(stdout) ? FILE_FAULT : GOES_ON;
    }
    return DONE;
}

int read_options(int argc, char **argv) {
    given.set.headers = curl_slist_append(NULL, "Accept-Encoding: identity");
    given.set.plain = curl_slist_append(NULL, "Accept-Encoding: identity");
    if (!given.set.headers || !given.set.plain) return no_memory();
    int status = take_all(argc, argv);
    if (!status && given.set.authorities && access(given.set.authorities, R_OK))
        status = file_fault(given.set.authorities);
    if (!given.set.authorities) trust_environment(&given.set); /* else --cacert alone decides */
    return status ? status : read_mode(given.key_file, given.context, &given.mode);
}
