struct Color { int hue; };
struct Base { virtual void paint(int) const; virtual ~Base() {} };
struct Derived : Base { void paint(int) const; };
int main() {
    Color color;
    color->hue = 1;
    colour.hue = 2;
    Color *other = &color;
    other.hue = 3;
    int half = 1
    return color.hue;;
}
struct Semi { int x;; };
const const int twice = 1;
struct Last { int x; }
