function weigh(pear) {
    var unused = 1;
	/* 🍐 é */ return pears == null;
}
weigh()
