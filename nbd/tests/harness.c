/* The plugin without nbdkit: reads at random, compared with a file.
 *
 *     harness ROOT FILE THREADS READS SEED CACHE READAHEAD CONNECTIONS PATIENCE (url=|outboard=)URL
 * ..
 *
 * With REFUSE=N in the environment, the Nth allocation from the start on is refused. With REFUSE=0
 * one is refused in each read, at a number that is drawn; a read that fails for want of memory is
 * read again then, and has to succeed. The status is 0 where no byte was another than the file's,
 * and no such read failed again. The last line says how many reads failed otherwise. */
#include "../nbd.h"

#include <stdarg.h>

enum { REFUSED_OF = 60, REFUSED_US = 3000 };

static int file;
static unsigned long reads, seed;
static uint64_t len;
static bool refuses;
static atomic_long countdown;
static atomic_int again; /* reads that are tried again: nothing is refused meanwhile */
static atomic_uint wrong, without_memory, failed;
static options given = {.how = {.agent = "harness"}};

/* --- Allocations */

void *__real_malloc(size_t size);
void *__real_calloc(size_t count, size_t size);
void *__real_realloc(void *at, size_t size);

/* Others get ahead of who is refused. */
static bool is_refused(void) {
    const bool is =
        !atomic_load(&again) && atomic_load(&countdown) > 0 && atomic_fetch_sub(&countdown, 1) == 1;
    if (is) usleep(REFUSED_US);
    return is;
}

void *__wrap_malloc(size_t size) { return is_refused() ? NULL : __real_malloc(size); }
void *__wrap_calloc(size_t count, size_t size) {
    return is_refused() ? NULL : __real_calloc(count, size);
}
void *__wrap_realloc(void *at, size_t size) {
    return is_refused() ? NULL : __real_realloc(at, size);
}

/* --- */

void core_say(const char *format, ...) {
    va_list args;
    if (!getenv("SAY")) return;
    va_start(args, format);
    vfprintf(stderr, format, args);
    fputc('\n', stderr);
    va_end(args);
}

bool core_is_over(void) { return false; }

static void look(uint64_t at, uint8_t *bytes, uint8_t *wanted, size_t count) {
    int error = core_read(at, bytes, count);
    if (error == ENOMEM) without_memory++;
    if (error == ENOMEM && !refuses) return;
    if (error == ENOMEM) {
        again++;
        error = core_read(at, bytes, count);
        again--;
        wrong += error != 0;
    }
    if (error) {
        failed++;
        return;
    }
    if (read_at(file, at, wanted, count) != count || memcmp(bytes, wanted, count)) wrong++;
}

/* Half of the reads are in the first MiB, where all threads meet. */
static void *reader(void *number) {
    enum { MOST = 200000 };
    unsigned state = (unsigned)(size_t)number;
    static _Thread_local uint8_t bytes[MOST], wanted[MOST];
    for (unsigned long i = 0; i < reads; i++) {
        const uint64_t drawn = (uint64_t)rand_r(&state) << 20 ^ (uint64_t)rand_r(&state);
        const uint64_t at = rand_r(&state) % 2 ? drawn % len : drawn % least(len, UNIT_LEN);
        const size_t count = least(1 + (size_t)rand_r(&state) % MOST, len - at);
        if (refuses) atomic_store(&countdown, 1 + rand_r(&state) % REFUSED_OF);
        if (rand_r(&state) % 16 == 0) core_ahead(at, count);
        look(at, bytes, wanted, count);
    }
    return NULL;
}

static bool is_named(const char *word, const char *name, char **to, unsigned *count) {
    const size_t skip = strlen(name);
    if (strncmp(word, name, skip)) return false;
    to[(*count)++] = (char *)word + skip;
    return true;
}

int main(int argc, char **argv) {
    enum { ROOT = 1, FILE_AT, THREADS, READS, SEED, CACHE, AHEAD, CONNECTIONS, PATIENCE, URLS };
    const char *refuse = getenv("REFUSE");
    pthread_t threads[64];
    if (argc <= URLS) return 2;
    for (int i = 0; i < BW_HASH_LEN; i++) sscanf(argv[ROOT] + 2 * i, "%2hhx", &given.root[i]);
    file = open(argv[FILE_AT], O_RDONLY);
    const size_t count = strtoul(argv[THREADS], NULL, 10);
    reads = strtoul(argv[READS], NULL, 10);
    seed = strtoul(argv[SEED], NULL, 10);
    given.cache = strtoull(argv[CACHE], NULL, 10);
    given.readahead = strtoull(argv[AHEAD], NULL, 10);
    given.connections = (unsigned)strtoul(argv[CONNECTIONS], NULL, 10);
    given.how.stall = strtod(argv[PATIENCE], NULL);
    for (int i = URLS; i < argc; i++)
        if (!is_named(argv[i], "url=", given.urls, &given.url_count))
            is_named(argv[i], "outboard=", given.outboards, &given.outboard_count);
    if (refuse) atomic_store(&countdown, strtol(refuse, NULL, 10));
    refuses = refuse && !atomic_load(&countdown);
    int error = core_start(&given);
    if (!error) error = core_length(&len);
    if (error == ENOMEM && refuse && !refuses) return 0;
    for (size_t i = 0; i < count && !error; i++)
        if (pthread_create(&threads[i], NULL, reader, (void *)(seed * 64 + i + 1))) return 2;
    for (size_t i = 0; i < count && !error; i++) pthread_join(threads[i], NULL);
    core_stop();
    printf("length %" PRIu64 ", without memory %u, failed %u, wrong %u: %s\n", len,
           (unsigned)without_memory, (unsigned)failed, (unsigned)wrong, strerror(error));
    return error || wrong;
}
