#include "pears.h"
int weigh( int pear ) {
	if(pear) return 1;
    return (int)2.0;
}
