/* Runs a program, and writes to TOLD how it ended: its status, or minus the signal that ended it,
   and the most KiB of memory that it had at once.

   usage: peak TOLD SECONDS BYTES FILES PROGRAM WORD ..

   The program has so many seconds, so many bytes of addresses and so many open files at once; 0 is
   no limit of its own. Linux counts with a program what its process had before. So this one starts
   it, which has next to nothing. */
#define _GNU_SOURCE
#include <stdio.h>
#include <stdlib.h>
#include <sys/resource.h>
#include <sys/wait.h>
#include <unistd.h>

static void limit(int what, const char *most) {
    struct rlimit both = {strtoull(most, 0, 10), strtoull(most, 0, 10)};
    if (both.rlim_cur && setrlimit(what, &both)) _exit(127);
}

int main(int count, char **words) {
    if (count < 6) return 2;
    pid_t child = fork();
    if (child == 0) {
        alarm((unsigned)atoi(words[2]));
        limit(RLIMIT_AS, words[3]);
        limit(RLIMIT_NOFILE, words[4]);
        execv(words[5], words + 5);
        _exit(127);
    }
    int status;
    struct rusage used;
    if (child < 0 || wait4(child, &status, 0, &used) != child) return 1;
    FILE *told = fopen(words[1], "w");
    if (!told) return 1;
    int ended = WIFEXITED(status) ? WEXITSTATUS(status) : -WTERMSIG(status);
    return fprintf(told, "%d %ld\n", ended, used.ru_maxrss) < 0 || fclose(told) ? 1 : 0;
}
