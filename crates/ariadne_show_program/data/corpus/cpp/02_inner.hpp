inline int inner(int x) { return x + missing; }
#define CALL(f, x) f(x, x)
