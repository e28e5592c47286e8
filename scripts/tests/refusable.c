/* Stands below the kit's three functions over malloc, and refuses one allocation, or all from one
   on.

   AT    which one of them in the process, counted from 1
   ON    if it is there, all from that one on
   MET   the file that is made where one was refused */
#include <fcntl.h>
#include <stdatomic.h>
#include <stdlib.h>
#include <unistd.h>

static atomic_long asked;

static int is_refused(void) {
    const char *at = getenv("AT"), *met = getenv("MET");
    if (!at || !met) return 0;
    long left = atomic_fetch_add(&asked, 1) + 1 - atol(at);
    if (left < 0 || (left > 0 && !getenv("ON"))) return 0;
    close(open(met, O_WRONLY | O_CREAT, 0666));
    return 1;
}

void *refusable_malloc(size_t size) { return is_refused() ? 0 : malloc(size); }

void *refusable_realloc(void *old, size_t size) { return is_refused() ? 0 : realloc(old, size); }
