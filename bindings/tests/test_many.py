"""`duplicates` answers what the program does, on the examples and on random texts."""
import pathlib

import pytest
from beside import run_program, write_texts
from texts import BIDS, made_texts

import yinchaku


def is_refused(path):
    return next(yinchaku.sizes(path, 3)).fault is not None


@pytest.fixture(scope="module")
def paths(root, tmp_path_factory):
    made = write_texts(tmp_path_factory.mktemp("many"), made_texts())
    return [*sorted(root.glob("examples/*.cats")), *map(pathlib.Path, made)]


def test_duplicates(program, paths):
    judged = [path for path in paths if not is_refused(path)]
    printed = run_program(program, ["duplicates", *map(str, judged)]).out.decode()
    found = yinchaku.duplicates(judged)
    assert "\n".join("".join(f"{path}\n" for path in group) for group in found) == printed and len(found) > 50
    groups = yinchaku.duplicates(iter(judged), all=True)
    assert [group for group in groups if len(group) > 1] == found
    assert sorted(path for group in groups for path in group) == sorted(judged) and len(groups) > len(found)
    assert yinchaku.duplicates([]) == yinchaku.duplicates([BIDS]) == [] and yinchaku.duplicates([BIDS], all=True) == [(BIDS,)]


def test_duplicates_raise_what_is_refused(tmp_path):
    """The exception has the text as it was given."""
    for refused, error in ((b"no file", yinchaku.RefusedText), (tmp_path / "no file", yinchaku.RefusedText), (BIDS, yinchaku.StepLimit)):
        (tmp_path / "no file").write_bytes(b"no file")
        with pytest.raises(error) as raised:
            yinchaku.duplicates([b"goods 1\nbids 0\ndummy 0\n", refused], total=1)
        assert raised.value.source is refused
    with pytest.raises(FileNotFoundError):
        yinchaku.duplicates([BIDS, tmp_path / "none"])
    for texts in ("examples", [BIDS.decode()], BIDS.decode()):
        with pytest.raises(TypeError):
            yinchaku.duplicates(texts)
