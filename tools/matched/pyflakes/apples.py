def weigh(apple):
    return "é" + apple)
