template <typename T> struct Box {
    T inner;
    int size() const { return inner.size(); }
};
template <typename T> int twice(const T &it) { return 2 * Box<T>{it}.size(); }
int main() {
    return twice(3) + twice(4L);
}
