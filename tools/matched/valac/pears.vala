int weigh (string pear) {
    int unused = 1;
	/* é */ return pear;
}

void main () {
    weigh (wieght);
    stdout.printf ("%d\n", weigh ("a", 1));
}
