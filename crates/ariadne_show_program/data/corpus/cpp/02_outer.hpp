#include "02_inner.hpp"
inline int outer(int x) { return inner(x, nope); }
