/* /usr/bin/bao_gather of the Debian package: becomes the build of bao_gather for this processor's
 * level. PROGRAMS is the folder of the builds. */
#include <stdio.h>
#include <unistd.h>

int main(int argc, char **argv) {
    (void)argc;
    __builtin_cpu_init();
    if (__builtin_cpu_supports("x86-64-v3")) execv(PROGRAMS "/x86-64-v3/bao_gather", argv);
    execv(PROGRAMS "/x86-64/bao_gather", argv);
    perror("bao_gather: " PROGRAMS);
    return 3;
}
