"""Rows as CSV, and rows and lines as pandas data frames.

In a data frame whole numbers stay exact, names stay text, and numbers with fractions are Decimal objects.
"""
import csv
import io
from decimal import Decimal
from importlib import import_module
from typing import Any, Iterable, List, Sequence, Type

Kinds = Sequence[Type[Any]]  # the class of each column: str, or a kind of int or Decimal


def csv_of_rows(columns: Sequence[str], rows: Iterable[Sequence[Any]]) -> str:
    """Rows as CSV with a header. A missing value is an empty field, and a number has no exponent."""
    text = io.StringIO()
    writer = csv.writer(text, lineterminator="\n")
    writer.writerow(columns)
    writer.writerows([format(it, "f") if isinstance(it, Decimal) else it for it in row] for row in rows)
    return text.getvalue()


def frame_of_rows(columns: Sequence[str], kinds: Kinds, rows: Iterable[Sequence[Any]]) -> Any:
    """A data frame of rows of objects. A row may lack its last columns."""
    pandas, count = import_module("pandas"), len(columns)
    cells = list(zip(*((*row, *[None] * (count - len(row))) for row in rows))) or [()] * count
    return pandas.DataFrame({name: _column(pandas, kind, values) for name, kind, values in zip(columns, kinds, cells)})


def _column(pandas: Any, kind: Type[Any], cells: Sequence[Any]) -> Any:
    """A column. Its type is int64 for whole numbers, Int64 if one is missing, and object if one is too large, and otherwise."""
    if issubclass(kind, int):
        try:
            if None in cells:
                return pandas.Series(pandas.array([None if it is None else int(it) for it in cells], dtype="Int64"))
            return pandas.Series([int(it) for it in cells], dtype="int64")
        except (OverflowError, TypeError):
            pass
    return pandas.Series(list(cells), dtype=object)


def text_column(cells: Sequence[Any]) -> Any:
    """A column of texts. Some may be missing."""
    return _column(import_module("pandas"), str, cells)


def frame_of_lines(columns: Sequence[str], kinds: Kinds, lines: Sequence[bytes], has_word: bool) -> Any:
    """The same as `frame_of_rows` for lines as the program prints them, which pandas reads by itself.

    Raises ValueError or ArithmeticError if pandas cannot read them exactly.
    """
    pandas = import_module("pandas")
    commas = lines[0].count(b",") if lines else 0
    names: List[str] = ["word"] * has_word + list(columns)
    content = b"\n".join(lines)
    if not lines or commas >= len(names) or content.count(b",") != commas * len(lines):
        raise ValueError("lines of different lengths")
    there = names[has_word : commas + 1]
    types = {name: "int64" if issubclass(kind, int) else object for name, kind in zip(there, kinds)}
    frame = pandas.read_csv(
        io.BytesIO(content), header=None, names=names[: commas + 1], usecols=there, dtype=types, na_filter=False,
        quoting=csv.QUOTE_NONE, lineterminator="\n", skip_blank_lines=False, encoding="utf-8",
    )
    for name, kind in zip(columns, kinds):
        if name not in types:
            frame[name] = _column(pandas, kind, [None] * len(lines))
        elif issubclass(kind, int) and frame[name].dtype != "int64":
            raise OverflowError(f"a number in {name} is too large")
        elif not issubclass(kind, (int, str)):
            frame[name] = pandas.Series([kind(it) for it in frame[name]], dtype=object)
    return frame
