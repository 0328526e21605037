class Parse {
    void call() {
        int 漢字 = 1
        return;
    }
}
