#include <stdio.h>

static int weigh(int pears)
{
	/* é */ int unused;
    printf("%s\n", pears);
	/* é */ return pear;
}

int main(void)
{
    weigh("one");
    return 0
}
