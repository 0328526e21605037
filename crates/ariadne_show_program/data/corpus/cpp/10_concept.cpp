template <class T> concept Sized = requires(T it) { it.size(); };
template <Sized T> int length(const T &it) { return it.size(); }
int main() {
    return length(5);
}
