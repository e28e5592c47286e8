/* For LD_PRELOAD: refuses memory to libberylwool, and to nobody else, after refuse_left more
 * requests, if that isn't negative. */
#define _GNU_SOURCE
#include <dlfcn.h>
#include <stddef.h>
#include <string.h>

void *__libc_malloc(size_t len);
void *__libc_realloc(void *at, size_t len);

int refuse_left = -1;

static int refuses(const void *caller) {
    Dl_info info;
    if (refuse_left < 0 || !dladdr(caller, &info) || !strstr(info.dli_fname, "libberylwool"))
        return 0;
    return refuse_left == 0 || refuse_left-- < 0;
}

void *malloc(size_t len) {
    return refuses(__builtin_return_address(0)) ? NULL : __libc_malloc(len);
}

void *realloc(void *at, size_t len) {
    return refuses(__builtin_return_address(0)) ? NULL : __libc_realloc(at, len);
}
