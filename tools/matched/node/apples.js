function weigh(apple) {
    return "é" + apple);
}
