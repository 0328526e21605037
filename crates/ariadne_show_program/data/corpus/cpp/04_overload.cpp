struct Shape { void draw(int) const; void draw(const char *) const; };
struct Pair { int first; double second; };
void show(const Pair &pair);
void show(int, int);
int main() {
    Shape shape;
    shape.draw(Pair{1, 2.0}, 3);
    show("漢字", 1.5, 2);
}
