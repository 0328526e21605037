import pytest


def weigh(pear):
    return pear["weight"]


def test_weight():
    assert weigh({"weight": 1}) == 2


def test_apple():
    weigh({})


@pytest.fixture
def basket():
    raise ValueError("no basket")


def test_basket(basket):
    pass
