"""Lines of span as aligned tables, as JSON lines, or as CSV with a header."""
import argparse
import json
from decimal import Decimal
from typing import Any, Callable, Dict, Iterable, Iterator, List, Mapping, NamedTuple, Optional, Sequence

from span_margin._amounts import Amount, ExactAmount
from span_margin._errors import ProgramError
from span_margin._frames import csv_of_rows
from span_margin._inputs import set_record_in
from span_margin._lines import FORMS, Form, values_of
from span_margin._streams import REJECTED, Arguments, Ended, read_file, read_input, write_output


CURRENCY = "currency"  # the last column of lines with amounts
Currencies = Mapping[str, str]  # the currency of each parameter set, by its id


class Row(NamedTuple):
    """A line: its word, its form, and the values of its fields as they are printed. `currency` is None if it is unknown."""

    word: str
    form: Form
    values: List[Any]
    currency: Optional[str]

    def named(self) -> Dict[str, Any]:
        """The values by the names of their fields, and the currency of amounts."""
        values = dict(zip(self.form.columns, self.values))
        return {**values, CURRENCY: self.currency} if self.form.has_amounts else values


# --- Reading ---


def currencies_of(names: Iterable[str]) -> Currencies:
    """The currencies of the sets in these parameter files. Ends the command if a file is none, or if two have the same id and differ."""
    found: Dict[str, str] = {}
    for name in names:
        of_file = set_record_in(read_file(name, "parameter set"))
        if of_file is None:
            raise Ended(REJECTED, f"{name} is not a parameter set: it does not begin with a SET record")
        set_id, currency = of_file
        if found.setdefault(set_id, currency) != currency:
            raise Ended(REJECTED, f"the files of --params have the set {set_id} in {found[set_id]} and in {currency}")
    return found


def rows_of(data: bytes, major: Optional[int], only: Sequence[str], currencies: Currencies) -> Iterator[Row]:
    """The rows of the lines, or of the lines whose word is in `only`. Ends the command at the first line that span does not print."""
    *lines, rest = data.decode("utf-8", "replace").split("\n")
    if rest:
        raise Ended(REJECTED, "the last line does not end with a line feed: the input was cut off")
    for number, line in enumerate(lines, 1):
        try:
            form, values = values_of(line)
        except ProgramError:
            message = f"line {number} is not a line of a statement, an explanation or orders: {ascii(line)[:100]}"
            raise Ended(REJECTED, message) from None
        word = line.partition(",")[0]
        if not only or word in only:
            set_id = values[form.columns.index("set")]
            yield Row(word, form, [shown(value, major) for value in values], currencies.get(set_id))


def shown(value: Any, major: Optional[int]) -> Any:
    """A value as it is printed: a whole number or text. Amounts are in major units if the digits of the minor unit are given."""
    if major is not None and isinstance(value, (Amount, ExactAmount)):
        value = value.major(major)
    return f"{value:f}" if isinstance(value, Decimal) else value


# --- Writing ---


def as_json(rows: Iterable[Row]) -> str:
    return "".join(json.dumps({"line": row.word, **row.named()}) + "\n" for row in rows)


def as_csv(rows: Iterable[Row]) -> str:
    found: List[Dict[str, Any]] = [{"line": row.word, **row.named()} for row in rows]
    columns = list(dict.fromkeys(column for row in found for column in row)) or ["line"]
    columns.sort(key=CURRENCY.__eq__)  # (which only puts the currency last)
    return csv_of_rows(columns, ([row.get(column) for column in columns] for row in found))


def as_tables(rows: Iterable[Row]) -> str:
    of: Dict[str, List[Row]] = {}
    for row in rows:
        of.setdefault(row.word, []).append(row)
    return "\n".join(table(it) for it in of.values())


def table(rows: Sequence[Row]) -> str:
    """An aligned table of lines of one kind: numbers on the right, text on the left."""
    form, count = rows[0].form, max(len(row.values) for row in rows)
    columns, kinds = list(form.columns[:count]), list(form.kinds[:count])
    cells = [[str(value) for value in row.values] + [""] * (count - len(row.values)) for row in rows]
    if form.has_amounts:
        columns, kinds = [*columns, CURRENCY], [*kinds, str]
        cells = [[*line, row.currency or ""] for line, row in zip(cells, rows)]
    widths = [max(map(len, column)) for column in zip(columns, *cells)]
    lines = []
    for line in (columns, *cells):
        padded = [cell.ljust(width) if kind is str else cell.rjust(width) for kind, cell, width in zip(kinds, line, widths)]
        lines.append("  ".join(padded).rstrip() + "\n")
    return "".join(lines)


# --- The command ---


def add_params(parser: Arguments) -> None:
    parser.add_argument("--params", action="append", default=[], metavar="FILE",
                        help="a parameter file, whose currency the amounts of its set have; may be repeated (default: it is unknown)")


def add_options(parser: Arguments) -> None:
    major_help = "print amounts in major units, with this many decimals: 2 if 100 cents are a dollar"
    parser.add_argument("--major", type=int, choices=range(10), metavar="DIGITS", help=major_help)
    only_help = "print only lines of this kind, such as R; may be repeated"
    parser.add_argument("--only", action="append", default=[], choices=list(filter(None, FORMS)), metavar="KIND", help=only_help)
    add_params(parser)


def convert(write: Callable[[Iterable[Row]], str], chosen: argparse.Namespace) -> None:
    """Reads lines of span from standard input, and writes them in another format."""
    currencies = currencies_of(chosen.params)
    write_output("output", write(rows_of(read_input("input"), chosen.major, chosen.only, currencies)).encode())
