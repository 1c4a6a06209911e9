"""The rows of a table, made when they are read, and how they are shown."""
from __future__ import annotations

import html
import importlib
from typing import Any, Callable, Iterator, List, Sequence, Tuple, TypeVar, Union, overload

Row = TypeVar("Row", bound=Tuple[Any, ...], covariant=True)

# So many rows are shown of each end, and so many characters of a row or a cell.
END, WIDTH = 3, 120


class Rows(Sequence[Row]):
    """The rows of a table. The lines of the table are kept, and a row is made of its line when it is read.

    It is equal to the list of its rows, and `list(rows)` makes that. `repr` and notebooks show the first and the last three rows.
    """

    def __init__(self, lines: Sequence[bytes], row_of: Callable[[bytes], Row], fields: Tuple[str, ...]) -> None:
        self._lines, self._row_of, self._fields = lines, row_of, fields

    def __len__(self) -> int:
        return len(self._lines)

    def __iter__(self) -> Iterator[Row]:
        return map(self._row_of, self._lines)

    @overload
    def __getitem__(self, at: int) -> Row: ...

    @overload
    def __getitem__(self, at: slice) -> Rows[Row]: ...

    def __getitem__(self, at: Union[int, slice]) -> Union[Row, Rows[Row]]:
        if isinstance(at, slice):
            return Rows(self._lines[at], self._row_of, self._fields)
        return self._row_of(self._lines[at])

    def __eq__(self, other: object) -> bool:
        if isinstance(other, (Rows, list)):
            return list(self) == list(other)
        return NotImplemented

    def to_pandas(self) -> Any:
        """A pandas.DataFrame of the rows. Prices stay exact, and a column of ints is one of ints beside nothing too."""
        pandas = importlib.import_module("pandas")
        return pandas.DataFrame(list(self), columns=list(self._fields)).convert_dtypes()

    def _shown(self, show: Callable[[Any], str], between: str) -> List[str]:
        """What is shown of the first and the last rows."""
        if len(self) <= 2 * END:
            return list(map(show, self))
        return [*map(show, self[:END]), between, *map(show, self[-END:])]

    def __repr__(self) -> str:
        return "\n ".join([f"<Rows: {len(self)}", *self._shown(lambda row: shortened(repr(row)), "..")]) + ">"

    def _repr_html_(self) -> str:
        """A table, for notebooks."""
        head = "".join(f"<th>{html.escape(name)}</th>" for name in self._fields)
        rows = self._shown(html_row, f'<tr><td colspan="{len(self._fields)}">..</td></tr>')
        return f"<table><caption>Rows: {len(self)}</caption><thead><tr>{head}</tr></thead><tbody>{''.join(rows)}</tbody></table>"


def shortened(text: str) -> str:
    return text if len(text) <= WIDTH else text[:WIDTH] + ".."


def html_row(row: Tuple[Any, ...]) -> str:
    return f"<tr>{''.join(f'<td>{html.escape(shortened(cell_text(cell)))}</td>' for cell in row)}</tr>"


def cell_text(cell: Any) -> str:
    """A cell as the program prints it."""
    if cell is None:
        return ""
    return " ".join(map(str, cell)) if isinstance(cell, tuple) else str(cell)
