apples:
    echo weighing
