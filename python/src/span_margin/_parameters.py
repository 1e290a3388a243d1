"""Parameter sets made of the rows of tables: the file that the program reads, and the row from which each fault of it comes."""
import os
from collections import abc
from dataclasses import dataclass
from typing import Any, Dict, Iterable, List, Mapping, NamedTuple, Optional, Protocol, Sequence, Set, Tuple, Union

from span_margin._calls import faults
from span_margin._columns import LEGS, SET, Reading, Round, Table, leg_columns, tables_of
from span_margin._errors import ParametersError, visible
from span_margin._lines import Fault
from span_margin._inputs import replace

# The column that a rule is about. C7, C8, and C2 in an INTER record are about a leg, C9 is about all legs.
_OF_RULE = {
    "C1": "commodity",
    "C2": "commodity",
    "C3": "contract",
    "C4": "tier",
    "C5": "first_month",
    "C6": "first_month",
    "C10": "priority",
    "C11": "month",
}


class DataFrame(Protocol):
    """A data frame, such as a pandas.DataFrame."""

    def to_dict(self, orient: Any) -> Any:
        """With "records": a list of a dict for each row."""


Rows = Union[Iterable[Union[Mapping[str, object], Sequence[object]]], DataFrame]


@dataclass(frozen=True)
class RowFault:
    """One fault of a parameter set, with the row that it comes from.

    table   the table: commodities, contracts, arrays, tiers, intra_spreads, spot_months, inter_spreads; set for the set itself
    source  the source that the call that added the row named, by default the table
    row     the number of the row, from 1, among the rows that the call added
    code    the code, such as P6; empty for NoArray, NoContract and SecondArray, which are found before there is a file
    name    its name, such as BadNumber
    field   the column; None if the fault is about more than one
    value   the value of the row in that column
    """

    table: str
    source: str
    row: int
    code: str
    name: str
    field: Optional[str] = None
    value: object = None

    def __str__(self) -> str:
        what = f"{self.code} {self.name}".strip()
        where = "" if self.field is None else f" in {self.field}: {_shown(self.value)}"
        return visible(f"{self.source} row {self.row}: {what}{where}")


class ParameterSetError(ParametersError):
    """A parameter set has faults. `faults` lists them with their rows, the text has a line for each, and `line` is the first line of
    `span faults`."""

    def __init__(self, faults: Sequence[RowFault], line: str = "") -> None:
        super().__init__(line, 3)
        self.faults = list(faults)
        self.args = (self.faults, line)

    def __str__(self) -> str:
        return "\n".join(map(str, self.faults))


class _Place(NamedTuple):
    """Where a row comes from."""

    table: str
    source: str
    row: int

    def __str__(self) -> str:
        return visible(f"{self.source} row {self.row}")


class _Cell(NamedTuple):
    """A field of a record: its text in the file, and the value in the row."""

    text: str
    value: object
    place: _Place


class _Record(NamedTuple):
    """A record: the row that it comes from, and its fields by column, in the order of the record."""

    place: _Place
    cells: Dict[str, _Cell]

    def text(self, column: str) -> str:
        return self.cells[column].text

    def fault(self, code: str, name: str, column: Optional[str]) -> RowFault:
        """A fault of this record, at the row that the column comes from."""
        if column is None:
            return RowFault(*self.place, code, name)
        cell = self.cells[column]
        return RowFault(*cell.place, code, name, column, cell.value)


class ParameterSet:
    """A parameter set that is made of rows, as docs/USE.md shows. Calls such as `margin` accept it as a parameter file.

    Each `add_` method takes rows in the order of the records: dicts by column, rows of `csv.DictReader` or `sqlite3`, sequences in the
    order of the columns, or a data frame. A value is text, an int or a Decimal. It is written as it is, and the program checks it. An
    unknown or missing column raises ValueError, and a value of another type TypeError; then the call adds nothing. All methods have these
    arguments:

    source  what faults name as the source of these rows, such as the name of a file
    round   to how many decimals floats are rounded, in all columns or by column: half to even, from the text that repr gives. Without it
            a float raises TypeError
    major   the number of decimals of amounts in major units, such as 2 if the rows have dollars and the file needs cents. By default
            amounts are in minor units, as in the file
    """

    def __init__(self, id: str, currency: str, *, version: int = 1) -> None:
        if version not in (1, 2):
            raise ValueError(f"a set has version 1 or 2, not {version!r}")
        self._tables = tables_of(version)
        self._rows: Dict[str, List[_Record]] = {name: [] for name in self._tables}
        self._calls: Dict[str, int] = {name: 0 for name in self._tables}
        values = {"id": id, "version": version, "currency": currency}
        self._set = _record(_Place("set", "set", 1), values, SET, Reading())

    def add_commodities(self, rows: Rows, *, source: Optional[str] = None, round: Round = None, major: int = 0) -> None:
        """Adds combined commodities: commodity, minimum_rate, method."""
        self._add("commodities", rows, source, Reading(round, major))

    def add_contracts(self, rows: Rows, *, source: Optional[str] = None, round: Round = None, major: int = 0) -> None:
        """Adds contracts: contract, commodity, type, month, delta, scale, v1 to v16, and under version 2 value.

        If rows have only contract, commodity, type, month and scale, the other columns come from the row of `add_arrays` for the contract.
        """
        self._add("contracts", rows, source, Reading(round, major))

    def add_arrays(self, rows: Rows, *, source: Optional[str] = None, round: Round = None, major: int = 0) -> None:
        """Adds risk arrays of contracts that are added without one: contract, delta, v1 to v16, and under version 2 value."""
        self._add("arrays", rows, source, Reading(round, major))

    def add_tiers(self, rows: Rows, *, source: Optional[str] = None, round: Round = None, major: int = 0) -> None:
        """Adds tiers: commodity, tier, first_month, last_month."""
        self._add("tiers", rows, source, Reading(round, major))

    def add_intra_spreads(self, rows: Rows, *, source: Optional[str] = None, round: Round = None, major: int = 0) -> None:
        """Adds intracommodity spreads: commodity, priority, rate, and for each of two to four legs tier1, side1, ratio1, and so on.

        A leg whose three fields are empty is left out.
        """
        self._add("intra_spreads", rows, source, Reading(round, major))

    def add_spot_months(self, rows: Rows, *, source: Optional[str] = None, round: Round = None, major: int = 0) -> None:
        """Adds spot months: commodity, month, spread_rate, outright_rate."""
        self._add("spot_months", rows, source, Reading(round, major))

    def add_inter_spreads(self, rows: Rows, *, source: Optional[str] = None, round: Round = None, major: int = 0) -> None:
        """Adds intercommodity spreads: priority, basis_points, and for each of two to four legs commodity1, side1, ratio1, and so on.

        A leg whose three fields are empty is left out.
        """
        self._add("inter_spreads", rows, source, Reading(round, major))

    def to_bytes(self) -> bytes:
        """The parameter file, which the program has not checked. Raises ParameterSetError if a contract has no array, or the reverse."""
        return _bytes_of(self._records())

    __bytes__ = to_bytes

    def check(self) -> None:
        """Runs `span faults` on the parameter file. Raises ParameterSetError if there is a fault."""
        self._checked()

    def write(self, path: Union[str, "os.PathLike[str]"]) -> None:
        """Writes the parameter file if it has no fault. Otherwise raises ParameterSetError, and leaves an old file as it is.

        The file gets its name only when it is complete.
        """
        replace(path, self._checked())

    def _add(self, table: str, rows: Any, source: Optional[str], reading: Reading) -> None:
        """Adds the rows of a call, or none of them."""
        call = self._calls[table] + 1
        source = source or (table if call == 1 else f"{table} (call {call})")
        if hasattr(rows, "to_dict"):
            rows = rows.to_dict("records")
        added = [_record(_Place(table, source, number), row, self._tables[table], reading) for number, row in enumerate(rows, 1)]
        self._rows[table] += added
        self._calls[table] = call

    def _records(self) -> List[Tuple[Table, _Record]]:
        """The records of the file, in their order."""
        records = [(SET, self._set)]
        for name, table in self._tables.items():
            rows = self._with_arrays() if name == "contracts" else [] if name == "arrays" else self._rows[name]
            records += ((table, it) for it in rows)
        return records

    def _with_arrays(self) -> List[_Record]:
        """The contracts, each with its array. Raises ParameterSetError if one has none or two, or if an array has no contract."""
        contracts, found = self._rows["contracts"], []
        arrays: Dict[str, _Record] = {}
        names = {it.text("contract") for it in contracts}
        whole = {it.text("contract") for it in contracts if "delta" in it.cells}
        for array in self._rows["arrays"]:
            name = array.text("contract")
            if name not in names:
                found.append(array.fault("", "NoContract", "contract"))
            elif name in whole or name in arrays:
                found.append(array.fault("", "SecondArray", "contract"))
            else:
                arrays[name] = array
        columns = self._tables["contracts"].columns
        joined = []
        for contract in contracts:
            name = contract.text("contract")
            if "delta" not in contract.cells and name not in arrays:
                found.append(contract.fault("", "NoArray", "contract"))
            else:
                joined.append(_joined(contract, arrays.get(name, contract), columns))
        if found:
            raise ParameterSetError(found)
        return joined

    def _checked(self) -> bytes:
        """The parameter file, in which the program finds no fault."""
        records = self._records()
        content = _bytes_of(records)
        found = list(faults(content))
        if found:
            known = _Known(self._rows)
            raise ParameterSetError([_row_fault(it, *records[it.record - 1], known) for it in found], found[0].line)
        return content


# --- From a row to a record ---


def _record(place: _Place, row: object, table: Table, reading: Reading) -> _Record:
    """The record of a row. Raises ValueError for wrong columns, and TypeError for an unusable row or value. The text names the row."""
    try:
        values = _values(row, table)
    except (TypeError, ValueError) as error:
        raise _at(f"{place}:", error) from None
    cells = {}
    for column, value in values.items():
        try:
            cells[column] = _Cell(reading.text_of(value, column, table.columns[column]), value, place)
        except (TypeError, ValueError) as error:
            raise _at(f"{place}: {column}", error) from None
    return _Record(place, _without_empty_legs(cells))


def _at(where: str, error: Exception) -> Exception:
    """An error of a row. Its text names the row."""
    return (TypeError if isinstance(error, TypeError) else ValueError)(f"{where} {error}")


def _values(row: Any, table: Table) -> Dict[str, object]:
    """The values of a row by column, in the order of a layout of the table."""
    if hasattr(row, "keys"):
        values = dict(row)
        return {column: values[column] for column in table.layout_of(list(values))}
    if isinstance(row, (str, bytes)) or not isinstance(row, abc.Sequence):
        raise TypeError(f"is of type {type(row).__name__}; a row is a dict or a sequence of fields")
    return dict(zip(table.layout_of_length(len(row)), row))


def _joined(contract: _Record, array: _Record, columns: Iterable[str]) -> _Record:
    """A contract with the fields of its array, in the order of the record. (The array may be the contract itself.)"""
    cells = {**array.cells, **contract.cells}
    return _Record(contract.place, {column: cells[column] for column in columns})


def _without_empty_legs(cells: Dict[str, _Cell]) -> Dict[str, _Cell]:
    """The cells of a record without legs whose three fields are empty."""
    legs = [leg_columns(first, leg) for first in ("tier", "commodity") for leg in LEGS if f"{first}{leg}" in cells]
    empty = {column for leg in legs if not any(cells[column].text for column in leg) for column in leg}
    return {column: cell for column, cell in cells.items() if column not in empty}


# --- From records to a file ---


def _bytes_of(records: Iterable[Tuple[Table, _Record]]) -> bytes:
    """The file of these records."""
    lines = (",".join([table.record, *(_quoted(it.text) for it in record.cells.values())]) for table, record in records)
    # What cannot be encoded becomes a backslash escape. The program rejects it, since no name and no number has a backslash.
    return "".join(f"{line}\n" for line in lines).encode("utf-8", "backslashreplace")


def _quoted(text: str) -> str:
    """A field as it is in the file: with quotes if it needs them."""
    if not any(character in text for character in ',"\r\n'):
        return text
    return '"' + text.replace('"', '""') + '"'


# --- From a fault to a column ---


class _Known:
    """The commodities and the tiers of the set, for rules about legs."""

    def __init__(self, rows: Dict[str, List[_Record]]) -> None:
        self.commodities: Set[str] = {it.text("commodity") for it in rows["commodities"]}
        self._rows = rows["tiers"]

    def has_tier(self, commodity: str, tier: str) -> bool:
        return any(it.text("commodity") == commodity and int(it.text("tier")) == int(tier) for it in self._rows)


def _row_fault(fault: Fault, table: Table, record: _Record, known: _Known) -> RowFault:
    """A fault of the program, at its row and column."""
    return record.fault(fault.code, fault.name, _column_of(fault.code, table, record, known))


def _column_of(code: str, table: Table, record: _Record, known: _Known) -> Optional[str]:
    """The column that a fault of a record is about; None if there is no such column."""
    if code in ("P5", "P6", "P7"):
        wrong = [column for column, cell in record.cells.items() if table.columns[column].has(code, cell.text)]
        if code == "P7" and "value" in record.cells:
            wrong.append("value")  # of a future: it must be 0, and has another value in the range
        return wrong[0] if wrong else None
    if code in ("C7", "C8") or code == "C2" and table.record == "INTER":
        return _column_of_leg(code, table, record, known)
    return _OF_RULE.get(code)


def _column_of_leg(code: str, table: Table, record: _Record, known: _Known) -> Optional[str]:
    """The first column of the leg that breaks C2, C7 or C8."""
    seen: Set[Tuple[str, ...]] = set()
    is_intra = table.record == "INTRA"
    for column in (it for it in record.cells if it[:-1] == ("tier" if is_intra else "commodity")):
        text = record.text(column)
        leg = (str(int(text)), record.text(f"side{column[-1]}")) if is_intra else (text,)
        if code == "C2" and text not in known.commodities:
            return column
        if code == "C7" and not known.has_tier(record.text("commodity"), text):
            return column
        if code == "C8" and leg in seen:
            return column
        seen.add(leg)
    return None


def _shown(value: object) -> str:
    """A value on one line, shortened."""
    text = repr(value) if isinstance(value, str) else str(value)
    return text if len(text) <= 60 else text[:57] + "..."
