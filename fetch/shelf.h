/* What is verified of the blob and on the disk: a mark for each chunk and each parent, set after
 * the node was accepted under the root and its bytes were written. There is one shelf, for the blob
 * that is served. */
#ifndef BW_FETCH_SHELF_H
#define BW_FETCH_SHELF_H

#include "fetch.h"

enum { SELF_LEN = 16 };

/* A bit for each of what is counted. None is taken back but by shelf_open, when nobody marks. */
typedef _Atomic uint64_t marks;

typedef struct shelf_of {
    pthread_rwlock_t lock;    /* held to read the files, and to change what follows but the marks */
    int blob, parents;        /* descriptors, or -1: there are no parents */
    uint64_t base;            /* where the outboard encoding begins in its file */
    uint64_t total, opened;   /* opened: how often, which tells one file from the next */
    atomic_bool is_certified; /* the length is: what is marked is served */
    marks *chunks, *nodes, *groups; /* nodes: parents, as they follow each other; groups: whole */
    marks coming[COMING_MOST];      /* 1 + unit */
    char root[2 * BW_HASH_LEN + 1], self[SELF_LEN + 1];
    uint64_t rate;
} shelf_of;

extern shelf_of shelf;

bool are_marked(marks *of, uint64_t first, uint64_t end);

#endif
