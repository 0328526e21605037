template <class T> concept Sized = requires(T it) { it.size(); it.begin(); };

template <Sized T> void show(T) {}

int main() {
    show(1);
    show('a');
}
