def half(number: int) -> int:
	shown: int = "漢字"; wrong: int = half("one")
	return (number +
		"two")
