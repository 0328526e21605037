try:
    import notamodule
except ImportError:
    pass
