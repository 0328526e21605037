struct s { int colour; };

int f(int a)
{
	if (a = 1)
		return 2;
	switch (a) {
	case 1:
		a = 2;
	case 2: /* ä 漢 */ if (a = 3) return 3;
	}
	return 0;
}
