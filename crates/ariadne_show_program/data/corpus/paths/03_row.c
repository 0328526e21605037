#include <stdlib.h>
int f(void) { char *p = malloc(10);                                                 free(p);                                        free(p); return 0; }
