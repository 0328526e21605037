#include "07_names.hpp"
int main() {
    const char *s = "漢字 é"; int x = s; /* é */ auto y = s * "日本";
	/* tab	 */	names::grüße(1, "ä");
	return	x + (s	/ 2);
}
