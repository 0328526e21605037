#include <stdlib.h>
#include <stdio.h>

void twice(int flag) {
    char *p = malloc(10);
    if (flag)
        free(p);
    free(p);
}

static void drop(int *p) {
    free(p);
}

int after(void) {
    int *p = malloc(sizeof *p);
    if (!p) return 1;
    drop(p);
    return *p;
}

void leak(int n) {
    char *p = malloc(10);
    if (n > 3)
        return;
    free(p);
}

int unchecked(void) {
    int *p = malloc(4);
    *p = 3;
    free(p);
    return 0;
}
