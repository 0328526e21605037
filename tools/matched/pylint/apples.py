"""Apples."""
APPLE = "éé" + 1)
