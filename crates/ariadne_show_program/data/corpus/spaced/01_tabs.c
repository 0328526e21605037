struct s { int colour; };

int f(int a)
{
	int x = a + "s" * 2;
		return  x	+ "q" * 3;
}

int g(struct s *p) { return p->color; }
int h(struct s *p) { /* ä 漢 */ return p->color }
