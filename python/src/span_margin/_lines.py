"""The lines that the program prints, as frozen dataclasses with a field for each field of the line.

Amounts are in minor units of the currency of the parameter set, quantities in contracts, deltas and spreads in deltas. Months are six
digits, yyyymm. In every line of a statement, explanation or order, `set` is the id of the parameter set under which it was computed.
"""
import hashlib
import json
import os
import re
from dataclasses import dataclass
from decimal import Decimal
from functools import lru_cache
from typing import Any, ClassVar, Dict, Iterable, List, Mapping, NamedTuple, Optional, Pattern, Sequence, Tuple, Type, Union, get_type_hints

from span_margin._amounts import UNKNOWN, Amount, ExactAmount, Money, currency_of
from span_margin._errors import ProgramError, match_fault
from span_margin._frames import Kinds, csv_of_rows, frame_of_lines, frame_of_rows, text_column
from span_margin._inputs import replace
from span_margin._program import text_of


class Shown:
    """A result that notebooks show as HTML."""

    def _repr_html_(self) -> str:
        from span_margin.report._notebook import html_of  # (which takes long, and only notebooks need)

        return html_of(self)


class Printed(Shown):
    """What the program printed, without a change: `bytes(result)`."""

    _kinds: ClassVar[Mapping[str, str]]  # the kinds of tables, the default first, and the words of their lines
    _money: Money = UNKNOWN
    currency: Any = None  # of the amounts, such as "USD"; None if it is unknown

    def __bytes__(self) -> bytes:
        raise NotImplementedError

    @property
    def text(self) -> str:
        """What the program printed, as text."""
        return text_of(bytes(self))

    @property
    def sha256(self) -> str:
        """The SHA-256 checksum of what the program printed, in hexadecimal digits, as `sha256sum` prints it."""
        return hashlib.sha256(bytes(self)).hexdigest()

    def write(self, path: Union[str, "os.PathLike[str]"]) -> None:
        """Writes what the program printed to a file, which gets its name only when it is complete and on the disk."""
        replace(path, bytes(self))

    def to_dicts(self) -> List[Dict[str, Any]]:
        """A dict for each item, with its parts as dicts inside. Whole numbers are int, and numbers with fractions Decimal."""
        raise NotImplementedError

    def to_json(self) -> str:
        """The dicts as JSON text. Numbers with fractions are strings, so that no digit is lost."""
        return json.dumps(self.to_dicts(), default=str)

    def to_pandas(self, of: Optional[str] = None) -> Any:
        """A pandas data frame with a row for each line of one kind. The page PYTHON.md lists the kinds.

        Raises ValueError if there is no such kind, and ImportError if pandas is not installed.
        """
        return self._frame(self._word(of))

    def to_csv(self, of: Optional[str] = None) -> str:
        """A table of the same rows and columns as CSV with a header. A missing value is an empty field.

        Raises ValueError if there is no such kind.
        """
        columns, _, rows = self._table(self._word(of))
        return csv_of_rows(columns, rows)

    def _word(self, of: Optional[str]) -> str:
        """The word of the lines of a kind."""
        kind = next(iter(self._kinds)) if of is None else of
        if kind not in self._kinds:
            raise ValueError(f"unknown kind {kind!r}; the kinds are {', '.join(self._kinds)}")
        return self._kinds[kind]

    def _table(self, word: str) -> Tuple[Sequence[str], Kinds, Iterable[Sequence[Any]]]:
        """The columns of the lines of one word, their classes and the rows. None is a missing value."""
        form, kinds = FORMS[word], [kind for _, kind in _classes(word, self._money)]
        added: List[Any] = [self.currency] if form.has_amounts else []

        def row(line: bytes) -> List[Any]:
            values = values_of(text_of(line), self._money, None if word else "")[1]
            return [*values, *[None] * (len(kinds) - len(values)), *added]

        return (*form.columns, *["currency"] * len(added)), (*kinds, *[str] * len(added)), map(row, self._lines_of(word))

    def _frame(self, word: str) -> Any:
        """A data frame of the lines of one word."""
        lines = self._lines_of(word)
        wrong = next((line for line in lines if not _line_form(word).fullmatch(line)), None)
        if wrong is not None:
            raise unreadable(text_of(wrong))
        try:
            return self._read_frame(word, lines)
        except (ValueError, ArithmeticError):  # what only Python reads exactly
            return frame_of_rows(*self._table(word))

    def _read_frame(self, word: str, lines: Sequence[bytes]) -> Any:
        """The same, read by pandas, which is fast. Raises ValueError or ArithmeticError if pandas cannot read the lines exactly."""
        form = FORMS[word]
        frame = frame_of_lines(form.columns, [kind for _, kind in _classes(word, self._money)], lines, bool(word))
        if form.has_amounts:
            frame["currency"] = text_column([self.currency] * len(lines))
        return frame

    def _lines_of(self, word: str) -> List[bytes]:
        """The lines of one word, without their ends."""
        front = f"{word},".encode() if word else b""
        return [line for line in bytes(self).split(b"\n")[:-1] if line.startswith(front)]


@dataclass(frozen=True)
class Line:
    """A line, or an object made of lines."""

    def to_dict(self) -> Dict[str, Any]:
        """The fields by their names. Objects in fields are dicts too, and tuples lists."""
        values = [(name, getattr(self, name)) for name in self.__dataclass_fields__]
        return {name: _plain(value) if isinstance(value, (Line, tuple)) else value for name, value in values}


@dataclass(frozen=True)
class Priced(Line):
    """A line with amounts."""

    @property
    def currency(self) -> Optional[str]:
        """The currency of the amounts, such as "USD". None if it is unknown."""
        return currency_of(vars(self).values())

    def to_dict(self) -> Dict[str, Any]:
        """The fields by their names, and the currency. Tuples are lists."""
        return {**super().to_dict(), "currency": self.currency}


@dataclass(frozen=True)
class OneLine(Printed, Line):
    """A line that is a result by itself: a table with one row."""

    def __bytes__(self) -> bytes:
        (word,) = self._kinds.values()
        cells = (getattr(self, column) for column in FORMS[word].columns)
        return (",".join((word, *(str(cell) for cell in cells if cell is not None))) + "\n").encode()

    def to_dicts(self) -> List[Dict[str, Any]]:
        return [self.to_dict()]


def _plain(value: Any) -> Any:
    if isinstance(value, Line):
        return value.to_dict()
    return [_plain(it) for it in value] if isinstance(value, tuple) else value


@dataclass(frozen=True)
class CommodityMargin(Priced):
    """An R line: the requirement of an account in one commodity. No amount is negative.

    scan_risk, active_scenario                the largest loss of the sixteen scenarios, and the number of its scenario, 1 to 16
    intracommodity_charge, delivery_charge    charges for calendar spreads, and for months near delivery
    credit                                    the intercommodity credit, which is subtracted
    minimum                                   the short option minimum
    requirement                               what the account must post for this commodity
    """

    account: str
    set: str
    commodity: str
    scan_risk: Amount
    active_scenario: int
    intracommodity_charge: Amount
    delivery_charge: Amount
    credit: Amount
    minimum: Amount
    requirement: Amount


@dataclass(frozen=True)
class AccountTotal(Priced, OneLine):
    """A T line: the total of an account. Under a set of version 1, value, due and excess are None.

    total    the sum of the requirements
    value    the option value, negative if short options are worth more
    due      total minus value, but at least 0
    excess   value minus total, but at least 0
    """

    account: str
    set: str
    total: Amount
    value: Optional[Amount] = None
    due: Optional[Amount] = None
    excess: Optional[Amount] = None
    _kinds = {"accounts": "T"}


@dataclass(frozen=True)
class Held(Priced):
    """A HELD line: a contract that the account holds. `type` is F, C or P; `value` is None under a set of version 1."""

    account: str
    set: str
    commodity: str
    contract: str
    type: str
    month: str
    quantity: int
    value: Optional[Amount] = None


@dataclass(frozen=True)
class Sums(Priced):
    """A SUMS line: the losses in scenarios 1 to 16. Gains are negative."""

    account: str
    set: str
    commodity: str
    sums: Tuple[Amount, ...]


@dataclass(frozen=True)
class Scan(Priced):
    """A SCAN line. `paired_scenario` has the same price move and the other volatility; scenarios 15 and 16 are each their own pair. The
    credit is a part of `price_risk`."""

    account: str
    set: str
    commodity: str
    scan_risk: Amount
    active_scenario: int
    paired_scenario: int
    price_risk: ExactAmount


@dataclass(frozen=True)
class Month(Line):
    """A MONTH line: the delta of a month, and the part of it that no calendar spread used."""

    account: str
    set: str
    commodity: str
    month: str
    delta: Decimal
    left: Decimal


@dataclass(frozen=True)
class Intra(Priced):
    """An INTRA line: calendar spreads that formed. `long_side` is A or B, `rate` the charge for one spread."""

    account: str
    set: str
    commodity: str
    priority: int
    long_side: str
    spreads: Decimal
    rate: Amount
    charge: ExactAmount


@dataclass(frozen=True)
class Spot(Priced):
    """A SPOT line: the deltas near delivery that spreads used and that they left, with their rates."""

    account: str
    set: str
    commodity: str
    month: str
    used: Decimal
    spread_rate: Amount
    left: Decimal
    outright_rate: Amount
    charge: ExactAmount


@dataclass(frozen=True)
class Inter(Line):
    """An INTER line: spreads with other commodities. `basis_points` is the credit rate; 10000 is all of the price risk."""

    account: str
    set: str
    commodity: str
    priority: int
    long_side: str
    spreads: Decimal
    delta_used: Decimal
    basis_points: int


@dataclass(frozen=True)
class Credit(Priced):
    """A CREDIT line. `weight` is the sum over the INTER lines of deltas used times basis points."""

    account: str
    set: str
    commodity: str
    price_risk: ExactAmount
    net_delta: Decimal
    weight: Decimal


@dataclass(frozen=True)
class Short(Priced):
    """A SHORT line: short calls and puts in contracts, how they are counted (SUM or MAX), and the minimum for one contract."""

    account: str
    set: str
    commodity: str
    short_calls: int
    short_puts: int
    method: str
    rate: Amount


@dataclass(frozen=True)
class Change(Priced):
    """A CHANGE line: the requirement of a commodity before and after an order. `change` is after minus before."""

    order: str
    account: str
    set: str
    commodity: str
    before: Amount
    after: Amount
    change: Amount


@dataclass(frozen=True)
class OrderTotal(Priced):
    """An ORDER line: the total of the account before and after an order, and the amount due under a set of version 2."""

    order: str
    account: str
    set: str
    before: Amount
    after: Amount
    change: Amount
    due_before: Optional[Amount] = None
    due_after: Optional[Amount] = None
    due_change: Optional[Amount] = None


@dataclass(frozen=True)
class Position(Line):
    """A position record: the net quantity of an account in a contract, negative if it is short."""

    account: str
    contract: str
    quantity: int


@dataclass(frozen=True)
class Fault(Line):
    """A fault line: one fault of a file.

    line     the line as it is printed, such as `positions: B1 UnknownContract at record 2 account Y`
    file     the file that has the fault: `parameters` or `positions`
    code     the code, such as B1
    name     its name, such as UnknownContract
    record   the number of the record, from 1; 0 if the parameter file has no record
    account  the account that the line names, or None
    """

    line: str
    file: str
    code: str
    name: str
    record: int
    account: Optional[str]


@dataclass(frozen=True)
class SetCounts(OneLine):
    """An OK line: an accepted parameter set, and how many records of each kind it has."""

    set: str
    commodities: int
    contracts: int
    tiers: int
    intras: int
    spots: int
    inters: int
    _kinds = {"sets": "OK"}


# The forms of fields. A name is any visible text, since it is only shown.
_NAME = r"([!-+\--~]{1,64})"
_COUNT = r"(0|[1-9][0-9]{0,39})"
_WHOLE = r"(0|-?[1-9][0-9]{0,39})"
_DECIMAL = r"(?!-0(?:,|$))(-?(?:0|[1-9][0-9]{0,39})(?:\.[0-9]{0,39}[1-9])?)"
_MONTH = r"([0-9]{6})"
_SIDE = r"([AB])"
_SCENARIO = r"(1[0-6]|[1-9])"
_HEAD = (_NAME, _NAME, _NAME)  # account, set, commodity
Fields = Tuple[Any, ...]  # the texts of the fields of a line; None for fields that it lacks under a set of version 1


class Form(NamedTuple):
    """The form of the lines of one word, and how they become objects.

    make                     the class of the objects
    columns, kinds, fields   the names, the classes and the forms of the fields
    least                    the least number of fields
    """

    make: Type[Line]
    columns: Tuple[str, ...]
    kinds: Tuple[Type[Any], ...]
    fields: Tuple[str, ...]
    least: int

    @property
    def has_amounts(self) -> bool:
        """Whether the lines have amounts, which are in a currency."""
        return issubclass(self.make, Priced)

    def pattern(self, begin: int = 0) -> str:
        """The form of the fields from this one on."""
        more = self.fields[self.least :]
        return ",".join(self.fields[begin : self.least]) + (f"(?:,{','.join(more)})?" if more else "")


def _form(make: Type[Line], *fields: str) -> Form:
    hints = get_type_hints(make)
    names = tuple(make.__dataclass_fields__)
    columns, kinds = names, tuple(Amount if hints[name] == Optional[Amount] else hints[name] for name in names)
    if make is Sums:  # each sum has its own column
        columns, kinds = (*names[:-1], *(f"sum_{number}" for number in range(1, 17))), (*kinds[:-1], *[Amount] * 16)
    return Form(make, columns, kinds, fields, len(columns) - sum(hints[name] == Optional[Amount] for name in names))


FORMS: Dict[str, Form] = {
    "R": _form(CommodityMargin, *_HEAD, _COUNT, _SCENARIO, *[_COUNT] * 5),
    "T": _form(AccountTotal, _NAME, _NAME, _COUNT, _WHOLE, _COUNT, _COUNT),
    "HELD": _form(Held, *_HEAD, _NAME, "([FCP])", _MONTH, _WHOLE, _WHOLE),
    "SUMS": _form(Sums, *_HEAD, *[_WHOLE] * 16),
    "SCAN": _form(Scan, *_HEAD, _COUNT, _SCENARIO, _SCENARIO, _DECIMAL),
    "MONTH": _form(Month, *_HEAD, _MONTH, _DECIMAL, _DECIMAL),
    "INTRA": _form(Intra, *_HEAD, _COUNT, _SIDE, _DECIMAL, _COUNT, _DECIMAL),
    "SPOT": _form(Spot, *_HEAD, _MONTH, _DECIMAL, _COUNT, _DECIMAL, _COUNT, _DECIMAL),
    "INTER": _form(Inter, *_HEAD, _COUNT, _SIDE, _DECIMAL, _DECIMAL, _COUNT),
    "CREDIT": _form(Credit, *_HEAD, _DECIMAL, _DECIMAL, _DECIMAL),
    "SHORT": _form(Short, *_HEAD, _COUNT, _COUNT, "(SUM|MAX)", _COUNT),
    "CHANGE": _form(Change, _NAME, *_HEAD, _COUNT, _COUNT, _WHOLE),
    "ORDER": _form(OrderTotal, _NAME, _NAME, _NAME, _COUNT, _COUNT, _WHOLE, _COUNT, _COUNT, _WHOLE),
    "OK": _form(SetCounts, _NAME, *[_COUNT] * 6),
    "": _form(Position, _NAME, _NAME, _WHOLE),  # records of positions have no word
}


# Lines that may have no field that is an amount. They keep the currency by themselves. (Others do not, since that takes memory.)
_WITH_MONEY = (Held, Sums)


@lru_cache(maxsize=None)
def _fields_form(word: str) -> Pattern[str]:
    """The form of the fields after a word. (These forms are made when they are needed, since that takes long.)"""
    return re.compile(FORMS[word].pattern())


@lru_cache(maxsize=None)
def _own_form(word: str) -> Optional[Pattern[str]]:
    """The form of the fields after account, set and commodity in a line of a commodity."""
    return re.compile(FORMS[word].pattern(3)) if FORMS[word].columns[2] == "commodity" else None


@lru_cache(maxsize=None)
def _line_form(word: str) -> Pattern[bytes]:
    """The form of a whole line."""
    return re.compile((f"{word}," * bool(word) + FORMS[word].pattern()).encode())


def fields_of(line: str, word: Optional[str] = None) -> Tuple[str, Fields]:
    """The word of a line, and the texts of its fields after the word. `word` is "" for a record of positions, which has none.

    Raises ProgramError if the program prints no such line. Each line of the program is read here or in `own_fields_of`.
    """
    rest = line
    if word is None:
        word, _, rest = line.partition(",")
        word = word or "no word"
    found = _fields_form(word).fullmatch(rest) if word in FORMS else None
    if not found:
        raise unreadable(line)
    return word, found.groups()


def own_fields_of(line: str, head: str) -> Optional[Tuple[str, Fields]]:
    """The word of a line of a commodity, and its fields after account, set and commodity, if these are `head`, which has commas.

    None if they are not, or if the program prints no such line. Long explanations are read by this, since it is fast.
    """
    word, _, rest = line.partition(",")
    form = _own_form(word) if word in FORMS else None
    found = form.fullmatch(rest, len(head)) if form and rest.startswith(head) else None
    return (word, found.groups()) if found else None


@lru_cache(maxsize=None)
def _classes(word: str, money: Money) -> Tuple[Tuple[int, Type[Any]], ...]:
    """The index and the class of each field. Amounts have the class of the currency."""
    own: Dict[Type[Any], Type[Any]] = {Amount: money.amount, ExactAmount: money.exact}
    return tuple((at, own.get(kind, kind)) for at, kind in enumerate(FORMS[word].kinds))


@lru_cache(maxsize=None)
def _converters(word: str, money: Money) -> Tuple[Tuple[int, Type[Any]], ...]:
    return tuple((at, kind) for at, kind in _classes(word, money) if kind is not str)


def values_of(line: str, money: Money = UNKNOWN, word: Optional[str] = None) -> Tuple[Form, List[Any]]:
    """The form of a line, and the values of its fields after the word. `word` is "" for a record of positions, which has none.

    Raises ProgramError if the program prints no such line.
    """
    word, fields = fields_of(line, word)
    form, values = FORMS[word], list(fields)
    if values[-1] is None:
        del values[form.least :]
    count = len(values)
    for at, convert in _converters(word, money):
        if at < count:
            values[at] = convert(values[at])
    return form, values


def unreadable(line: str) -> ProgramError:
    """The error of a line that the program does not print."""
    return ProgramError(f"this package does not know this line of span: {line[:200]}")


def object_of(line: str, money: Money = UNKNOWN, word: Optional[str] = None) -> Any:
    """The object of one line. Raises ProgramError if the program prints no such line."""
    form, values = values_of(line, money, word)
    if form.make is Sums:
        values[3:] = [tuple(values[3:])]
    made = object.__new__(form.make)  # (`__init__` is slow for frozen classes; fields that the line lacks have their defaults)
    object.__setattr__(made, "__dict__", dict(zip(form.make.__dataclass_fields__, values)))
    if form.make in _WITH_MONEY:
        vars(made)["_money"] = money
    return made


def fault_of(line: str) -> Fault:
    """The fault of a fault line. Raises ProgramError for another line."""
    found = match_fault(line)
    if not found or not found["record"]:
        raise ProgramError(f"this package does not know this fault line: {line[:200]}")
    return Fault(line, found["file"], found["code"], found["name"], int(found["record"]), found["account"])
