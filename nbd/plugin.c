/* nbdkit's side of it. */
#include "../fetch/words.h"
#include "nbd.h"

#define NBDKIT_API_VERSION 2
#include <nbdkit-plugin.h>

#define THREAD_MODEL NBDKIT_THREAD_MODEL_PARALLEL

enum { SECONDS_MOST = 3600, CONNECTIONS_MOST = 16 };

static options given = {.cache = 256 << 20,
                        .readahead = 8 << 20,
                        .connections = 4,
                        .how = {.stall = 5, .agent = "nbdkit-berylwool"}};
static bool has_root;
static const char *key_file, *context;

void core_say(const char *format, ...) {
    va_list args;
    va_start(args, format);
    nbdkit_vdebug(format, args);
    va_end(args);
}

bool core_is_over(void) { return nbdkit_nanosleep(0, 1) < 0; }

/* --- Parameters */

static int refuse(const char *key, const char *why) {
    nbdkit_error("%s: %s", key, why);
    return -1;
}

int usage(const char *what) {
    nbdkit_error("%s", what);
    return -1;
}

int file_fault(const char *path) { return refuse(path, strerror(errno)); }

static int take_root(const char *value) {
    has_root = read_hash(value, given.root);
    return has_root ? 0 : refuse("root", "a root has 64 hexadecimal digits");
}

static int add(const char *key, const char *url, char **to, unsigned *count) {
    if (strncasecmp(url, "http://", 7) && strncasecmp(url, "https://", 8))
        return refuse(key, "an address begins with http:// or https://");
    if (*count == NAMES_MOST) return refuse(key, "there are more than 32");
    to[*count] = strdup(url);
    return to[(*count)++] ? 0 : refuse(key, "out of memory");
}

static int add_url(void *unused, char *url) {
    (void)unused;
    return add("url", url, given.urls, &given.url_count);
}

static int add_outboard(const char *url) {
    return add("outboard", url, given.outboards, &given.outboard_count);
}

static int take_size(const char *key, const char *value, uint64_t *to) {
    const int64_t size = nbdkit_parse_size(value);
    if (size < 0) return refuse(key, "a size is a number, perhaps with K, M or G");
    *to = (uint64_t)size;
    return 0;
}

static int take_connections(const char *value) {
    if (nbdkit_parse_unsigned("connections", value, &given.connections)) return -1;
    const bool is_in = given.connections && given.connections <= CONNECTIONS_MOST;
    return is_in ? 0 : refuse("connections", "1 to 16 for each mirror");
}

static int take_patience(const char *value) {
    char *end;
    const double seconds = given.how.stall = strtod(value, &end);
    const bool ok = end != value && !*end && seconds >= .1 && seconds <= SECONDS_MOST;
    return ok ? 0 : refuse("patience", "0.1 to 3600 seconds");
}

static int take(const char *key, const char *value) {
    if (!strcmp(key, "root")) return take_root(value);
    if (!strcmp(key, "url")) return add_url(NULL, (char *)value);
    if (!strcmp(key, "outboard")) return add_outboard(value);
    if (!strcmp(key, "mirrors")) return each_line(value, add_url, NULL);
    if (!strcmp(key, "cache")) return take_size(key, value, &given.cache);
    if (!strcmp(key, "readahead")) return take_size(key, value, &given.readahead);
    if (!strcmp(key, "connections")) return take_connections(value);
    if (!strcmp(key, "patience")) return take_patience(value);
    const char **text = !strcmp(key, "key-file") ? &key_file : &context;
    if (text == &context && strcmp(key, "context"))
        return refuse(key, "there is no such parameter");
    *text = value;
    return 0;
}

static int check(void) {
    unsigned plain = 0;
    for (unsigned i = 0; i < given.url_count; i++) plain += !url_is_combined(given.urls[i]);
    const unsigned pairs = plain * given.outboard_count;
    if (!has_root) return refuse("root", "the blob's hash is needed");
    if (!given.url_count) return refuse("url", "a mirror is needed");
    if (plain && !given.outboard_count)
        return refuse("outboard", "needed beside a plain file, which is each url that has no .bao");
    if (given.url_count - plain + pairs > HOLDERS_MOST)
        return refuse("outboard", "more than 64 pairs of a plain file and an outboard encoding");
    trust_environment(&given.how);
    return read_mode(key_file, context, &given.mode);
}

#define HELP                                                                                       \
    "root=HEX          (required) the blob's BLAKE3 hash, 64 hexadecimal digits\n"                 \
    "url=URL           (required) a mirror: http or https, of the combined encoding if its path\n" \
    "                  ends in .bao, else of the plain file; may be given again\n"                 \
    "outboard=URL      where the outboard encoding is, needed beside a plain file; may be given\n" \
    "                  again\n"                                                                    \
    "mirrors=FILE      more urls, one a line; # begins a comment\n"                                \
    "key-file=FILE     the key of keyed hashing: 64 hexadecimal digits\n"                          \
    "context=TEXT      derivation of keys for the use that TEXT names, in place of key-file\n"     \
    "cache=SIZE        memory for what was read and what comes (256M)\n"                           \
    "readahead=SIZE    how much is asked for ahead of reads in order (8M)\n"                       \
    "connections=N     for each mirror, 1 to 16 (4)\n"                                             \
    "patience=SECONDS  how long a mirror may give less than 1 KiB a second; another is asked\n"    \
    "                  beside it after a fifth of that (5)"

static void dump(void) {
    const uint32_t version = bw_version();
    printf("berylwool_library=%u.%u.%u\n", version / 10000, version / 100 % 100, version % 100);
    printf("berylwool_libcurl=%s\n", curl_version_info(CURLVERSION_NOW)->version);
    printf("berylwool_window=%u\n", (unsigned)UNIT_LEN);
}

/* --- Reading */

static int start(void) {
    const int error = core_start(&given);
    if (!error) return 0;
    nbdkit_set_error(error);
    nbdkit_error("what talks to the mirrors can't be started: %s", strerror(error));
    return -1;
}

static int fail(int error, const char *what) {
    const char *why = error == EIO         ? "no mirror has all of it"
                      : error == ESHUTDOWN ? "nbdkit ends, or the client has gone"
                                           : strerror(error);
    nbdkit_set_error(error);
    nbdkit_error("%s: %s", what, why);
    return -1;
}

static void *begin(int readonly) {
    uint64_t len;
    const int error = core_length(&len);
    (void)readonly;
    if (!error) return NBDKIT_HANDLE_NOT_NEEDED;
    fail(error, "the last chunk of a blob with this root, which certifies its length");
    return NULL;
}

static int64_t size(void *unused) {
    uint64_t len = 0;
    const int error = core_length(&len);
    (void)unused;
    return error ? fail(error, "the length") : (int64_t)len;
}

static int read_blob(void *unused, void *out, uint32_t len, uint64_t at, uint32_t flags) {
    const int error = core_read(at, out, len);
    char what[80];
    (void)unused, (void)flags;
    snprintf(what, sizeof what, "%u bytes from %" PRIu64 " on", (unsigned)len, at);
    return error ? fail(error, what) : 0;
}

static int read_ahead(void *unused, uint32_t len, uint64_t at, uint32_t flags) {
    (void)unused, (void)flags;
    core_ahead(at, len);
    return 0;
}

static int yes(void *unused) {
    (void)unused;
    return 1;
}

static int caches(void *unused) {
    (void)unused;
    return NBDKIT_CACHE_NATIVE;
}

static int blocks(void *unused, uint32_t *smallest, uint32_t *best, uint32_t *largest) {
    (void)unused;
    *smallest = 1;
    *best = GROUP_LEN;
    *largest = UINT32_MAX;
    return 0;
}

static struct nbdkit_plugin plugin = {
    .name = "berylwool",
    .version = "0.2.0",
    .longname = "verified blob from untrusted mirrors",
    .description = "Reads a blob while it is fetched from mirrors that nobody trusts: each byte is "
                   "verified under the blob's BLAKE3 hash.",
    .magic_config_key = "url",
    .config = take,
    .config_complete = check,
    .config_help = HELP,
    .dump_plugin = dump,
    .after_fork = start,
    .cleanup = core_stop,
    .open = begin,
    .get_size = size,
    .block_size = blocks,
    .can_multi_conn = yes,
    .can_cache = caches,
    .cache = read_ahead,
    .pread = read_blob,
};

NBDKIT_REGISTER_PLUGIN(plugin)
