#define SHOW "%s and %d"
int printf(const char *, ...);
struct pair { int a, b; };
int f(struct pair p, double d, const char *漢字) {
	printf("%d %s", d,	p.a);
    printf(SHOW, 1, 漢字);
    return p + d * 2;
}
int g(struct pair *p) {
    return f(*p
             , 1.0,
             p->a + 1);
}
