static int never() { return 1; }
#pragma GCC diagnostic error "-Wunused-variable"
int f(int a, int b) {
    int c;
    int only_once;
    unsigned u = 3;
    if (a < u) { }
    for (int i = 0; i < 3; i++);
    switch (b) {
    case 1:
        a = 2;
    case 2:
        a = 3;
    }
    return c + a == 1 ? 2 : 3;
}
