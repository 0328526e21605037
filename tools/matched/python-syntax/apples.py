def weigh(apple):
    if apple:
    return 1
