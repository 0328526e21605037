// Members that are initialized in another order than they are declared in.
struct Fruit {
    Fruit() : weight(1), /* größer */ price(2), name(nullptr) {}
    int price;
    const char *name;
    int weight;
};

struct Pear : Fruit {
    Pear() : ripe(true), Fruit() { unknown(); }
    bool ripe;
};
