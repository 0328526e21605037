#include <stdio.h>
struct fruit { int weight; int größe; };
int weigh(struct fruit *p, const char *é) {
    int x = p->wieght + p->größ, y;
    if (y = x) printf(é);
    /* é */ return x
}
unsigned long length(void) { return strlen("é"); }
