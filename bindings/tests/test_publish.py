"""`publish` writes the canonical text of each auction once, whole or not at all, and replaces nothing."""
import errno
import os
import pathlib
import shutil
import stat
import threading

import pytest
from beside import run_program
from texts import BIDS

import yinchaku

TINY = b"goods 2\nbids 2\ndummy 0\n0 3 0 #\n1 0.0000001 1 #\n"
SAME = b"goods 2\nbids 1\ndummy 0\n% the same\n0 3.0 0 #\n"
OTHER = b"goods 2\nbids 1\ndummy 0\n0 4 0 #\n"


@pytest.fixture
def folder(tmp_path):
    """Subfolders that use the same names, and a name with a line feed."""
    for path, text in {"a/0000.txt": OTHER, "a/line\nfeed": b"no file", "b/0000.txt": TINY, "b/c/0000.txt": SAME}.items():
        (tmp_path / "given" / path).parent.mkdir(parents=True, exist_ok=True)
        (tmp_path / "given" / path).write_bytes(text)
    return tmp_path / "given"


def texts_below(folder):
    return {str(path.relative_to(folder)): path.read_bytes() for path in folder.rglob("*") if path.is_file()}


def test_publish(folder, tmp_path):
    to = tmp_path / "new" / "texts"
    rows = list(yinchaku.publish(folder, to, round=True))
    assert [row.file for row in rows] == [folder / name for name in ("a/0000.txt", "a/line\nfeed", "b/0000.txt", "b/c/0000.txt")]
    assert [row[1:] for row in rows] == [
        (pathlib.Path("a/0000.txt"), None, 2, 1, 1, 0, 0, None),
        (None, None, None, None, None, None, None, "line 1: Header"),
        (pathlib.Path("b/0000.txt"), None, 2, 2, 1, 1, 1, None),
        (None, folder / "b/0000.txt", 2, 1, 1, 0, 0, None),
    ]
    assert texts_below(to) == {"a/0000.txt": yinchaku.normalise(OTHER), "b/0000.txt": yinchaku.normalise(SAME)}
    mask = os.umask(0)
    os.umask(mask)
    assert stat.S_IMODE((to / "a/0000.txt").stat().st_mode) == 0o666 & ~mask


@pytest.mark.parametrize("every", [False, True])
def test_the_table_of_the_program(program, folder, tmp_path, every):
    """The program prints the same columns and rows, and writes the same texts."""
    (tmp_path / "by_program/b").mkdir(parents=True)
    (tmp_path / "by_program/b/c").write_bytes(b"mine")
    shutil.copytree(tmp_path / "by_program", tmp_path / "by_package")
    words = ["--round", "--total-steps", "1", *["--all"] * every, tmp_path / "by_program", folder, folder / "none"]
    header, *lines = run_program(program, ["publish", *map(str, words)]).out.decode().splitlines()
    rows = list(yinchaku.publish([folder, folder / "none"], tmp_path / "by_package", total=1, round=True, all=every))
    assert header.split("\t") == list(yinchaku.PublishRow._fields)
    assert [line.split("\t") for line in lines] == [[printed_cell(cell) for cell in row] for row in rows] and len(rows) == 5
    assert texts_below(tmp_path / "by_program") == texts_below(tmp_path / "by_package")


def printed_cell(cell):
    return "" if cell is None else yinchaku.errors.shown_path(cell) if isinstance(cell, pathlib.Path) else str(cell)


def test_all(folder, tmp_path):
    rows = list(yinchaku.publish(iter([folder / "b"]), str(tmp_path / "texts"), round=True, all=True))
    assert [(str(row.text), row.same_as) for row in rows] == [("0000.txt", None), ("c/0000.txt", folder / "b/0000.txt")]
    assert texts_below(tmp_path / "texts") == dict.fromkeys(("0000.txt", "c/0000.txt"), yinchaku.normalise(SAME))


def test_files_that_are_refused(folder, tmp_path):
    """They have rows as those of `sizes`, and the others go on."""
    (folder / "b/bids").write_bytes(BIDS)
    rows = list(yinchaku.publish([folder / "none", folder / "b"], tmp_path / "texts", total=1))
    sizes = list(yinchaku.sizes([folder / "none", folder / "b"], total=1))
    assert [(row.goods, row.bids, row.fault) for row in rows if row.fault] == [(row.goods, row.bids, row.fault) for row in sizes if row.fault]
    assert [row.fault and row.fault[:10] for row in rows] == ["cannot ope", "line 5: To", "step limit", None]
    assert texts_below(tmp_path / "texts") == {"c/0000.txt": yinchaku.normalise(SAME)}


@pytest.mark.parametrize("given, fault", [(SAME, None), (TINY, "line 5: TooFine")])
def test_a_file_is_read_once(tmp_path, given, fault):
    os.mkfifo(tmp_path / "fifo")
    writer = threading.Thread(target=(tmp_path / "fifo").write_bytes, args=(given,))
    writer.start()
    rows = list(yinchaku.publish(tmp_path / "fifo", tmp_path / "texts"))
    writer.join()
    assert [(row.text is None, row.fault) for row in rows] == [(fault is not None, fault)]


@pytest.mark.parametrize("named", [["a", "b"], ["a/0000.txt", "b/0000.txt"], ["b", "b"]])
def test_texts_of_one_path(folder, tmp_path, named):
    with pytest.raises(ValueError, match="0000.txt"):
        yinchaku.publish([folder / name for name in named], tmp_path / "texts")
    assert not (tmp_path / "texts").exists()


def test_a_text_below_another_one(folder, tmp_path):
    (folder / "c").write_bytes(OTHER)
    with pytest.raises(ValueError, match="below that of"):
        yinchaku.publish([folder / "c", folder / "b"], tmp_path / "texts")
    with pytest.raises(ValueError, match="below the folder"):
        yinchaku.publish(folder / "none" / "..", tmp_path / "texts")
    assert not (tmp_path / "texts").exists()


def test_nothing_is_replaced(folder, tmp_path):
    """A path at which something is, be it a link that leads nowhere."""
    for make in (lambda path: path.write_bytes(b"mine"), lambda path: path.symlink_to("nowhere"), lambda path: path.mkdir()):
        to = tmp_path / f"texts{len(list(tmp_path.iterdir()))}"
        (to / "b").mkdir(parents=True)
        make(to / "b/0000.txt")
        with pytest.raises(FileExistsError, match="it exists already"):
            yinchaku.publish(folder, to)
        assert [path.name for path in to.rglob("*")] == ["b", "0000.txt"]


@pytest.mark.parametrize("below", ["", "/texts"])
def test_what_is_no_folder(folder, tmp_path, below):
    with pytest.raises(NotADirectoryError, match="not a folder"):
        yinchaku.publish(folder, f"{folder / 'a/0000.txt'}{below}")
    assert (folder / "a/0000.txt").read_bytes() == OTHER


def test_no_link_is_followed(folder, tmp_path):
    """A link to a folder may lead out, and a file is no folder: such texts are not written, and the others are."""
    (tmp_path / "outside").mkdir()
    (tmp_path / "texts/b").mkdir(parents=True)
    (tmp_path / "texts/a").symlink_to(tmp_path / "outside")
    (tmp_path / "texts/b/c").write_bytes(b"mine")
    rows = list(yinchaku.publish(folder, tmp_path / "texts", all=True, round=True))
    assert [row.fault for row in rows] == ["cannot write: not a folder", "line 1: Header", None, "cannot write: not a folder"]
    assert list((tmp_path / "outside").iterdir()) == []
    assert texts_below(tmp_path / "texts") == {"b/0000.txt": yinchaku.normalise(SAME), "b/c": b"mine"}


def test_what_comes_meanwhile_stays(folder, tmp_path):
    rows = yinchaku.publish(folder / "a", tmp_path / "texts")
    (tmp_path / "texts/0000.txt").write_bytes(b"mine")
    assert next(rows).fault == "cannot write: it exists already"
    assert texts_below(tmp_path / "texts") == {"0000.txt": b"mine"}


def test_texts_that_cannot_be_written(folder, tmp_path, monkeypatch):
    """No part of one stays, and the others go on."""
    def fail(_):
        monkeypatch.undo()
        raise OSError(errno.ENOSPC, "No space left on device")

    monkeypatch.setattr(os, "fsync", fail)
    rows = list(yinchaku.publish(folder, tmp_path / "texts", round=True))
    assert [row.fault for row in rows] == ["cannot write: no space", "line 1: Header", None, None]
    assert rows[0].text is None and (rows[0].goods, rows[0].bids, rows[0].kept) == (2, 1, 1)
    assert texts_below(tmp_path / "texts") == {"b/0000.txt": yinchaku.normalise(SAME)}


def test_what_is_no_path(tmp_path):
    for given in (OTHER, [OTHER], "given", ["given"], [yinchaku.read(OTHER)]):
        with pytest.raises(TypeError):
            yinchaku.publish(given, tmp_path / "texts")
    with pytest.raises(ValueError):
        yinchaku.publish(tmp_path, tmp_path / "texts", -1)
    assert not (tmp_path / "texts").exists()
