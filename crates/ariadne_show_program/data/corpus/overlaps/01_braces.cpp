bool g(int a) { if (a) return true; else return false; }

int both(int first, int second) {
    if (first == 0) if (second) return 1; else return 2;
    return second;
}
