class Last {
    void f() {
        int x = 1;