"""Where the program and the package are that the tests try: --program and --library, by default out/cats and out/library."""
import pathlib
import sys

import pytest

ROOT = pathlib.Path(__file__).resolve().parent.parent.parent


def pytest_addoption(parser):
    parser.addoption("--program", default=ROOT / "out/cats", type=pathlib.Path, help="the program cats")
    parser.addoption("--library", default=ROOT / "out/library", type=pathlib.Path, help="the folder with libcats.so and the package")


def pytest_configure(config):
    """The tests import the package from the folder of the library."""
    for option in ("--program", "--library"):
        if not config.getoption(option).exists():
            raise pytest.UsageError(f"{option} {config.getoption(option)}: there is no such file or folder")
    sys.path.insert(0, str(config.getoption("--library").absolute()))


@pytest.fixture(scope="session")
def root():
    """The top of the repository."""
    return ROOT


@pytest.fixture(scope="session")
def program(request):
    return request.config.getoption("--program").absolute()


@pytest.fixture(scope="session")
def library(request):
    return request.config.getoption("--library").absolute()


@pytest.fixture(scope="session")
def cases(program, tmp_path_factory):
    """Each call on each file of examples, and on random texts, with what the program answers."""
    from beside import cases_of
    from texts import made_texts

    files = sorted((ROOT / "examples").glob("*.cats"))
    return cases_of(program, tmp_path_factory.mktemp("texts"), [*(file.read_bytes() for file in files), *made_texts()])
