class Found:
	try:
		import not_there, nor_there
	except ImportError:
		pass


def later() -> int:
    if True:
        from nowhere.at_all import name
    return name + "s" + 1
