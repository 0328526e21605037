struct A { int a; int b; A(int x) : b(x), a(x) {} };

struct Base {};

struct B : Base {
    int first;
    int second;
    B(int x) :
        second(x),
        first(x),
        Base() {}
};
