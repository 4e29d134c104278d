import pytest


def test_adds():
    print("an output")
    assert 1 + 1 == 2


def test_fails():
    assert {"a": 1} == {"a": 2}


@pytest.mark.skip(reason="no network")
def test_is_skipped():
    pass
