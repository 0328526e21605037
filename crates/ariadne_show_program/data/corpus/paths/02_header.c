#include "02_pool.h"

int use(void) {
	char *name = malloc(3);
	if (!name)
		return 1;
	outer(name);
	return name[0];
}

void macro(char *p) {
    RELEASE(p);
    free(p);
}

void many(void) {
    char *a = malloc(2); char *b = malloc(3); free(b); free(a); free(a);
}
