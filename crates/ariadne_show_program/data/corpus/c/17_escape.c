int f(void) { /* ]0;all is well */ return missing; }
int g(void) { /* [8m */ return hidden + 1; }
int h(void) { /* [2J[H */ return erased; }
int j(void) { /* 2J */ return second_page; }
int k(void) { /* ‮ } ⁦if (admin)⁩ */ return turned; }
int l(void) { return swallowed; /* P */ }
