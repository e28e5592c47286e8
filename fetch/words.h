/* What words and files of a command line say. A status is 0, or what `usage` or `file_fault`
 * return, which each program has: they tell what is wrong. */
#ifndef BW_FETCH_WORDS_H
#define BW_FETCH_WORDS_H

#include "http.h"

int usage(const char *what);
int file_fault(const char *path);

bool read_hash(const char *digits, uint8_t hash[BW_HASH_LEN]);
char *next_line(FILE *from, char **text, size_t *room);
int each_line(const char *path, int (*take)(void *, char *), void *with);
int read_mode(const char *key_file, const char *context, bw_mode *mode);
void trust_environment(settings *it);

#endif
