template <class F, class T> auto call(F f, T it) -> decltype(f(it)) { return f(it); }
struct Counter {
    template <class T> Counter &add(T it) {
        [this, it]() { total += *it; }();
        return *this;
    }
    int total = 0;
};
int main() {
    call([](int *p) { return *p; }, 2.5);
    return Counter().add(1).total;
}
