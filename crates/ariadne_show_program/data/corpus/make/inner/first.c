#include "shared.h"
int first(void) {
    int unused;
    return shared("a");
}
