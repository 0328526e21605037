def weigh(pear):
    return "é" + pear)
