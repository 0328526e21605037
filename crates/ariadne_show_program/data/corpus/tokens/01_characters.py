"""Columns that count bytes, and those that count characters."""
NAME = "äöü"  # FIXME: weigh it
PRICE = "äö\d"; COUNT = undefined_name   
WORD = "ä​"


def heavy(fruit):
	"""Weighs."""
	return "größe" + undefined_fruit + fruit   
