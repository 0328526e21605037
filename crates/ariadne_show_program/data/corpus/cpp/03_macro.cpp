#define LESS(a, b) ((a) < (b))
#define BOTH(a, b, c) (LESS(a, b) && LESS(b, c))
struct Point { int x, y; };
bool f(Point p, int i) {
    return BOTH(1, p, i);
}
int g(int unused) { return LESS(1u, -1); }
