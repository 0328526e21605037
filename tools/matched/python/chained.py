def light():
    try:
        return int("one")
    except ValueError as fault:
        raise KeyError("no pear") from fault


light()
