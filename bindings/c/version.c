/* The version of a library that is built with it, beside the heap or without one. */
#include "sewarqo.h"

const char *sewarqo_version(void) { return SEWARQO_VERSION; }
