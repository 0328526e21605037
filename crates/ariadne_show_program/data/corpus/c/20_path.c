#include <stdlib.h>
int f(int n) {
    char *p = malloc(10);
    if (n > 3)
        free(p);
    p[0] = 1;
    free(p);
    int a[3] = {0};
    return a[n] / (n - n) + a[5];
}
