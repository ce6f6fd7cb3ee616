"""Where the tests find the package and the program."""

import os
import sys

import pytest

HERE = os.path.dirname(os.path.abspath(__file__))
TOP = os.path.dirname(os.path.dirname(HERE))
sys.path[:0] = [HERE, os.path.dirname(HERE)]
BUILT = os.path.join(TOP, "crates", "liskevar", "out", "liskevar")
# tests never build the program: that takes hours
if "LISKEVAR_PROGRAM" not in os.environ and os.path.exists(BUILT):
    os.environ["LISKEVAR_PROGRAM"] = BUILT


def pytest_configure(config):
    config.addinivalue_line("markers", "program: wants the built program")


def pytest_collection_modifyitems(items):
    if "LISKEVAR_PROGRAM" in os.environ:
        return
    for item in items:
        if item.get_closest_marker("program"):
            item.add_marker(pytest.mark.skip(reason="the program isn't built (crates/liskevar/out/liskevar)"))


@pytest.fixture
def examples():
    return os.path.join(TOP, "examples")


@pytest.fixture
def write(tmp_path):
    """Writes a file of some text and gives its path."""

    def work(name, text):
        path = tmp_path / name
        path.write_bytes(text if isinstance(text, bytes) else text.encode())
        return str(path)

    return work
