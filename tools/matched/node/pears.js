function weigh(pear) {
    return "🍐é" + pear.weight.grams;
}

weigh({});
