"""Folders, lists of files of which some are refused, and files by gzip."""
import gzip
import os
import pathlib

import pytest
from beside import run_program
from functions import OF_TEXT
from texts import BIDS

import yinchaku

NAMES = ["b", "a.txt", "a/b", "a/c/d", "a b", "A", "\N{LATIN SMALL LETTER E WITH ACUTE}", "t\tn\n\\", "\N{LINE SEPARATOR}"]


@pytest.fixture
def folder(tmp_path):
    """A folder of files, two of which are refused, with what is left out: links, a FIFO and an empty folder."""
    top = tmp_path / "folder"
    for number, name in enumerate(NAMES):
        (top / name).parent.mkdir(parents=True, exist_ok=True)
        (top / name).write_bytes(BIDS.replace(b"3", b"%d" % (number // 2 + 1)))
    (top / "a/c/wrong").write_bytes(BIDS[:-2])
    (top / "no file").write_bytes(b"")
    (top / "empty").mkdir()
    (top / "link").symlink_to("b")
    (top / "folders").symlink_to("a")
    (top / "there").symlink_to("nowhere")
    os.mkfifo(top / "fifo")
    return top


def test_sizes_of_folders(program, folder, tmp_path):
    """The rows of the program, in its order. A link to a folder is one, and a path that is not there has a row."""
    (tmp_path / "linked").symlink_to("folder")
    given = [folder, tmp_path / "linked", folder / "empty", folder / "b", tmp_path / "none", BIDS]
    rows = list(yinchaku.sizes(given))
    printed = run_program(program, ["sizes", *map(str, given[:-1])]).out.decode()
    wanted = [line.split("\t") for line in printed.splitlines()[1:]]
    found = [["" if it is None else str(it) for it in row] for row in rows]
    assert [row[:9] for row in found[:-1]] == [row[:9] for row in wanted] and found[-1][8:] == ["", ""] and len(rows) == 2 * len(NAMES) + 7
    assert [yinchaku.errors.shown_path(row.file) for row in rows[:-1]] == [row[9] for row in wanted]
    assert list(yinchaku.sizes(folder)) == list(yinchaku.sizes(iter([folder]))) == rows[: len(NAMES) + 2]


def test_sizes_are_made_when_they_are_taken(folder):
    """Wrong limits are refused at once."""
    rows = yinchaku.sizes([BIDS, "no text"], round=True)
    assert next(rows)[:3] == (2, 2, 2) and iter(rows) is rows
    with pytest.raises(TypeError):
        next(rows)
    for words in ({"steps": -1}, {"total": 0}, {"round": "no"}):
        with pytest.raises(ValueError):
            yinchaku.sizes([BIDS], **words)
    assert [row.fault for row in yinchaku.sizes([BIDS], 0)] == ["step limit of 0 at bid 0: 0"] and next(yinchaku.sizes(BIDS, 0)).or_bids == 2


def test_duplicates_of_folders(program, folder):
    """The groups of the program, with what is refused beside them."""
    refused = []
    groups = yinchaku.duplicates([folder, BIDS, b"no file", folder / "none"], refused=refused)
    printed = run_program(program, ["duplicates", folder]).out.decode()
    found = ["\n".join(yinchaku.errors.shown_path(it) for it in group if it is not BIDS) for group in groups]
    assert found == printed[:-1].split("\n\n")
    assert [given for given, _ in refused] == [folder / "a/c/wrong", folder / "no file", b"no file", folder / "none"]
    assert list(map(str, dict(refused[:2]).values())) == [f"{folder}/a/c/wrong:5:7: NoEnd", f"{folder}/no file:1:1: Missing"]
    assert [type(error) for _, error in refused[2:]] == [yinchaku.RefusedText, FileNotFoundError] and refused[2][1].path is None
    with pytest.raises(yinchaku.RefusedText, match="^.*/a/c/wrong:5:7: NoEnd$") as raised:
        yinchaku.duplicates(folder)
    assert raised.value.source == raised.value.path == folder / "a/c/wrong"


def test_what_cannot_be_looked_at(folder, monkeypatch):
    """A folder below it that cannot be read is one of the files, and is refused."""
    own = os.scandir

    def scandir(path):
        if str(path).endswith("/c"):
            raise PermissionError(13, "no", path)
        return own(path)

    monkeypatch.setattr(os, "scandir", scandir)
    faults = {row.file.name: row.fault for row in yinchaku.sizes(folder)}
    assert faults["c"].startswith("cannot open: ") and "d" not in faults


def test_names_that_are_not_utf_8(tmp_path):
    (tmp_path / os.fsdecode(b"\xff")).write_bytes(b"no file")
    with pytest.raises(yinchaku.RefusedText) as refused:
        yinchaku.duplicates(tmp_path)
    assert str(refused.value) == rf"{tmp_path}/\xff:1:1: Header"


@pytest.mark.parametrize("call", OF_TEXT.values(), ids=OF_TEXT)
def test_gzip(call, tmp_path):
    """A file is known by its first bytes, and may have several parts. Bytes that are given are a text as they are."""
    path = tmp_path / "text"
    for packed in (gzip.compress(BIDS), gzip.compress(BIDS[:9]) + gzip.compress(BIDS[9:])):
        path.write_bytes(packed)
        assert call(path) == call(BIDS)
        with pytest.raises(yinchaku.RefusedText):
            call(packed)
    path.write_bytes(gzip.compress(BIDS + b"x"))
    with pytest.raises(yinchaku.RefusedText) as refused:
        call(path)
    assert str(refused.value) == f"{path}:6:1: ExtraBid" or refused.value.kind == "NotANumber"


def test_damaged_gzip(tmp_path):
    path, packed = tmp_path / "text", gzip.compress(BIDS)
    for damaged in (packed[:-9], packed[:9], packed[:20] + b"\xff\xff" + packed[22:], packed[:-6] + b"xxxxxx", packed + b"x"):
        path.write_bytes(damaged)
        with pytest.raises(OSError):
            yinchaku.read(path)
        assert next(yinchaku.sizes(path)).fault.startswith("cannot open: ")


def test_much_that_is_packed(tmp_path, monkeypatch):
    """No more is unpacked than a text that is too long has."""
    monkeypatch.setattr(yinchaku._texts, "UNPACKED", 1_000)
    monkeypatch.setattr(yinchaku._texts, "PIECE", 300)
    path = tmp_path / "text"
    path.write_bytes(gzip.compress(BIDS + b"%" * 10_000))
    assert yinchaku.read(path).text == BIDS + b"%" * (1_000 - len(BIDS))


def test_a_folder_is_no_text(folder):
    for call in (yinchaku.read, yinchaku.check, pathlib.Path.read_bytes):
        with pytest.raises(IsADirectoryError):
            call(folder)
