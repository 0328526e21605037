#include <stdlib.h>

static void release(char *p) { free(p); }

int leak(int n)
{
	char *p = malloc(n);
	if (!p)
		return -1;
	if (n > 10)
		return 0;
	release(p);
	free(p); /* 漢字 */ free(p);
	return 1;
}
