struct Color { int hue; };
int paint(struct Color *color) {
    printf("%d", color->hue);
    return color.hue + color->hew;
}
int half(int n) {
    int most = n / 2
    return most;
}
static inline int wrong(int x) { return x == 1 & 2; }
