"""Answers that are computed from what the program printed: objects that are also tables, as CSV, JSON and data frames."""
import json
from dataclasses import dataclass, fields
from typing import Any, Callable, Dict, List, NamedTuple, Optional, Sequence, Tuple, Type

from span_margin._amounts import AMOUNTS, Amount, currency_of
from span_margin._frames import Kinds, csv_of_rows, frame_of_rows
from span_margin._lines import Line, Shown


class Table(NamedTuple):
    """The columns of a table, their classes, and the rows. None is a missing value. A column of the class `object` may have amounts."""

    columns: Sequence[str]
    kinds: Kinds
    rows: List[Sequence[Any]]

    def with_currency(self, currency: Optional[str]) -> "Table":
        """If the table may have amounts, the same with a last column `currency`, which is missing if amounts of rows are."""
        if not {Amount, object} & {*self.kinds}:
            return self
        rows = [(*row, currency if Amount in self.kinds or has_amount(row) else None) for row in self.rows]
        return Table([*self.columns, "currency"], [*self.kinds, str], list(rows))


Make = Callable[[], Table]


@dataclass(frozen=True)
class Answer(Line, Shown):
    """An answer that is computed from what the program printed, as `help` of its class says. It cannot be changed."""

    def _tables(self) -> Dict[str, Make]:
        """What makes the tables, by their kinds, the default first."""
        raise NotImplementedError

    @property
    def currency(self) -> Optional[str]:
        """The currency of the amounts, such as "USD". None if it is unknown."""
        return currency_of(vars(self).values())

    def to_dict(self) -> Dict[str, Any]:
        """The fields by their names, and the currency. Objects in fields are dicts too, and tuples lists."""
        return {**super().to_dict(), "currency": self.currency}

    def _table(self, of: Optional[str]) -> Table:
        tables = self._tables()
        kind = next(iter(tables)) if of is None else of
        if kind not in tables:
            raise ValueError(f"unknown kind {kind!r}; the kinds are {', '.join(tables)}")
        return tables[kind]().with_currency(self.currency)

    def to_json(self) -> str:
        """The fields as JSON text. Numbers with fractions are strings, so that no digit is lost."""
        return json.dumps(self.to_dict(), default=str)

    def to_csv(self, of: Optional[str] = None) -> str:
        """One table as CSV with a header. A missing value is an empty field. Raises ValueError if there is no such kind."""
        table = self._table(of)
        return csv_of_rows(table.columns, table.rows)

    def to_pandas(self, of: Optional[str] = None) -> Any:
        """One table as a pandas data frame. Raises ValueError if there is no such kind, and ImportError if pandas is not installed."""
        return frame_of_rows(*self._table(of))


def has_amount(row: Sequence[Any]) -> bool:
    """Whether a row has an amount, and not only counts, deltas and words."""
    return any(isinstance(it, AMOUNTS) for it in row)


def cells_of(line: Any, names: Sequence[str]) -> Tuple[Any, ...]:
    """The fields of an object with these names, in this order."""
    return tuple(getattr(line, name) for name in names)


def names_of(make: Type[Line]) -> List[str]:
    """The names of the fields of a class."""
    return [field.name for field in fields(make)]
