#include <stdlib.h>

int weigh(int *pear)
{
	char *light = malloc(1);
    int heavy[2] = { 1, 2 };
    if (pear == NULL) { }
    /* é */ return heavy[0] / 0 + *pear;
}
