#define PASTE(a, b) a##b
#define NAME(x) PASTE(x, _t) y
struct s { int colour; };

int f(struct s *p)
{
	NAME(foo);
	return PASTE(ab, c) + p->PASTE(col, or);
}
