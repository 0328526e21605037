#include <stdio.h>

static int weigh(int pears)
{
    /* a */ int unused;
    return pear;
}

int main()
{
	return weigh("one");
}
