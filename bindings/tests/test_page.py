"""The examples of docs/PYTHON.md and docs/RECIPES.md print what the page shows."""
import os
import pathlib
import re
import subprocess
import sys

import pytest

PAGES = [pathlib.Path(__file__).resolve().parent.parent.parent / f"docs/{name}.md" for name in ("PYTHON", "RECIPES")]

# dask warns of workers that take long to end, as they do on a machine with other work.
QUIET = {"DASK_LOGGING__DISTRIBUTED": "error"}

# A fenced block: its language, the package that it needs, if any, and its text.
BLOCK = re.compile(r"^```(\w+) ?(\w*)\n(.*?)^```\n", re.M | re.S)


def examples():
    """Each block of Python: the package that it needs, its script, and the block of text after it, which it prints."""
    for page in PAGES:
        blocks = BLOCK.findall(page.read_text())
        for at, (language, needed, script) in enumerate(blocks):
            if language == "python":
                assert blocks[at + 1][0] == "text"
                yield pytest.param(needed, script, blocks[at + 1][2], id=f"{page.stem}, block {at}")


@pytest.mark.parametrize("needed, script, shown", examples())
def test_page(needed, script, shown, root, library, tmp_path):
    if needed:
        pytest.importorskip(needed)
    (tmp_path / "examples").symlink_to(root / "examples")
    ran = subprocess.run(
        [sys.executable, "-B", "-c", script], cwd=tmp_path, env={**os.environ, **QUIET, "PYTHONPATH": str(library)},
        stdin=subprocess.DEVNULL, stdout=subprocess.PIPE, stderr=subprocess.STDOUT, universal_newlines=True,
    )
    assert ran.stdout == shown


def test_there_are_examples():
    assert len(list(examples())) >= 4
