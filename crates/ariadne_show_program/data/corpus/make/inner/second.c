#include "shared.h"
int second(void) {
    return shared(1) + missing;
}
