#include <vector>
#define CHECK(x) do { if (!(x)) fail(#x); } while (0)
#define TWICE(x) x; x
void fail(const char *what);
int main()
{
	std::vector<int> list;
	TWICE(CHECK(list));
	CHECK(list.sizee() > 0);
}
