struct pear { int weight;; };
int whole(double é) { const const int n = (int)é; if ((n == 3)) return 1; return n; }
