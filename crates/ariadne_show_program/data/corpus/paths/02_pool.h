#include <stdlib.h>

static inline void give_back(char *it) {
    free(it);
}

static inline void outer(char *it) {
    give_back(it);
}

#define RELEASE(p) free(p)
