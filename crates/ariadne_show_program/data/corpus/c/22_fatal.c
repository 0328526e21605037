#include "nothing.h"
int never;
