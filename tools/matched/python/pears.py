def weigh(pear):
    return pear["weight"] + len(pear) + 1


def main():
    # é
    print("é", weigh({"weight": "one"}))


main()
