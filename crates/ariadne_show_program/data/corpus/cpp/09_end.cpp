struct Open {
    int x;
    void f() {
        if (x) {
            x = 1;