"""The columns of the tables of a parameter set, and the text that a field of the file has for a value of a row.

The forms and ranges here find the column that a fault is about. Whether there is a fault is decided by the program alone.
"""
import math
import operator
import re
from dataclasses import dataclass
from decimal import ROUND_HALF_EVEN, Context, Decimal
from typing import Callable, Dict, List, Mapping, NamedTuple, Optional, Tuple, Union

Round = Union[int, Mapping[str, int], None]

# No float has so many digits, so quantize is exact except for the rounding that was asked for.
_ROUNDING = Context(prec=1000, rounding=ROUND_HALF_EVEN)
_PLAIN = re.compile(r"(-?)([0-9]+)(?:\.([0-9]+))?")


class Form(NamedTuple):
    """What the text of a field has to be: its form, and its range if it is a number."""

    pattern: re.Pattern[str]
    in_range: Optional[Callable[[str], bool]] = None  # None: the field is not a number
    is_amount: bool = False

    def has(self, code: str, text: str) -> bool:
        """Whether a text has the fault P5, P6 or P7."""
        is_formed = bool(self.pattern.fullmatch(text))
        if self.in_range is None:
            return code == "P5" and not is_formed
        return code == "P6" and not is_formed or code == "P7" and is_formed and not self.in_range(text)


def _word(pattern: str) -> Form:
    return Form(re.compile(pattern))


def _number(pattern: str, least: str, most: str, is_amount: bool = False) -> Form:
    low, high = Decimal(least), Decimal(most)
    return Form(re.compile(pattern), lambda text: low <= Decimal(text) <= high, is_amount)


_WHOLE, _FRACTION = "-?[0-9]{1,18}", r"-?[0-9]{1,6}(\.[0-9]{1,4})?"
NAME, CURRENCY, METHOD, TYPE, SIDE = map(_word, ("[A-Z0-9_-]{1,16}", "[A-Z]{3}", "SUM|MAX", "[FCP]", "[AB]"))
MONTH = Form(re.compile("[0-9]{6}"), lambda text: bool(re.fullmatch("(19|2[0-9])[0-9]{2}(0[1-9]|1[0-2])", text)))
VERSION, TIER, PRIORITY = _number(_WHOLE, "1", "2"), _number(_WHOLE, "1", "32"), _number(_WHOLE, "1", "9999")
AMOUNT = _number(_WHOLE, "0", "100000000", is_amount=True)
LOSS = _number(_WHOLE, "-100000000", "100000000", is_amount=True)
BASIS_POINTS = _number(_WHOLE, "0", "10000")
DELTA, SCALE = _number(_FRACTION, "-1", "1"), _number(_FRACTION, "0.0001", "10")
RATIO = _number(_FRACTION, "0.0001", "1000")

Columns = Dict[str, Form]
LEGS = (1, 2, 3, 4)


class Table(NamedTuple):
    """A table: the kind of its records, and the columns that a row may have, in the order of the record.

    The layouts of a table are in rising order, each with all columns of those before it.
    """

    record: str
    layouts: Tuple[Columns, ...]

    @property
    def columns(self) -> Columns:
        return self.layouts[-1]

    def layout_of(self, names: List[object]) -> Columns:
        """The smallest layout that has all these columns. Raises ValueError if none has, or if a column of it is missing."""
        if None in names:
            raise ValueError("has more fields than the header")
        for name in names:
            if name not in self.columns:
                raise ValueError(f"unknown column {name!r}; the columns are {', '.join(self.columns)}")
        layout = next(it for it in self.layouts if all(name in it for name in names))
        missing = [name for name in layout if name not in names]
        if missing:
            raise ValueError(f"no column {', '.join(missing)}")
        return layout

    def layout_of_length(self, length: int) -> Columns:
        """The layout with so many columns. Raises ValueError if there is none."""
        for layout in self.layouts:
            if len(layout) == length:
                return layout
        lengths = " or ".join(str(len(it)) for it in self.layouts)
        raise ValueError(f"has {length} fields in place of {lengths}: {', '.join(self.columns)}")


def leg_columns(first: str, leg: int) -> Tuple[str, str, str]:
    """The columns of a leg. The first one has its tier or its commodity."""
    return f"{first}{leg}", f"side{leg}", f"ratio{leg}"


def _with_legs(columns: Columns, first: str, form: Form) -> Tuple[Columns, ...]:
    """The layouts of a spread with two, three and four legs."""
    layouts = []
    for leg in LEGS:
        columns = {**columns, **dict(zip(leg_columns(first, leg), (form, SIDE, RATIO)))}
        layouts.append(columns)
    return tuple(layouts[1:])


SET = Table("SET", ({"id": NAME, "version": VERSION, "currency": CURRENCY},))


def tables_of(version: int) -> Dict[str, Table]:
    """The tables of a set of this version, in the order of their records in the file. Arrays have no record of their own."""
    losses = {f"v{number}": LOSS for number in range(1, 17)}
    value = {"value": AMOUNT} if version == 2 else {}
    contract = {"contract": NAME, "commodity": NAME, "type": TYPE, "month": MONTH}
    with_array = {**contract, "delta": DELTA, "scale": SCALE, **losses, **value}
    intra = {"commodity": NAME, "priority": PRIORITY, "rate": AMOUNT}
    return {
        "commodities": Table("COMMODITY", ({"commodity": NAME, "minimum_rate": AMOUNT, "method": METHOD},)),
        "contracts": Table("CONTRACT", ({**contract, "scale": SCALE}, with_array)),
        "arrays": Table("", ({"contract": NAME, "delta": DELTA, **losses, **value},)),
        "tiers": Table("TIER", ({"commodity": NAME, "tier": TIER, "first_month": MONTH, "last_month": MONTH},)),
        "intra_spreads": Table("INTRA", _with_legs(intra, "tier", TIER)),
        "spot_months": Table("SPOT", ({"commodity": NAME, "month": MONTH, "spread_rate": AMOUNT, "outright_rate": AMOUNT},)),
        "inter_spreads": Table("INTER", _with_legs({"priority": PRIORITY, "basis_points": BASIS_POINTS}, "commodity", NAME)),
    }


# --- The text of a value ---


@dataclass(frozen=True)
class Reading:
    """How the values of a call are read.

    round  to how many decimals floats are rounded, in all columns or by column; a float in another column is an error
    major  if amounts are in major units, the number of digits that the minor unit has; 0 if they are in minor units, as in the file
    """

    round: Round = None
    major: int = 0

    def __post_init__(self) -> None:
        if self.major < 0:
            raise ValueError(f"major is {self.major}, and must not be negative")

    def text_of(self, value: object, column: str, form: Form) -> str:
        """The text of a field. Raises TypeError for a value that no field can have, and for a float that `round` does not cover."""
        if _is_empty(value):
            return ""
        if isinstance(value, float):
            text = _rounded(value, self._digits(column))
        elif isinstance(value, Decimal):
            text = format(value, "f")
        elif isinstance(value, str):
            text = value
        elif isinstance(value, bool) or not hasattr(value, "__index__"):
            raise TypeError(f"is of type {type(value).__name__}; a field is text, an int or a Decimal")
        else:
            text = str(operator.index(value))
        return _in_minor_units(text, self.major) if form.is_amount else text

    def _digits(self, column: str) -> int:
        digits = self.round.get(column) if isinstance(self.round, Mapping) else self.round
        if digits is None:
            raise TypeError("is a float; give a Decimal or text, or say with round=N to how many decimals it is rounded")
        return digits


def _is_empty(value: object) -> bool:
    """Whether a value means that a field is empty: None, or what a data frame has for a missing value."""
    if isinstance(value, Decimal):
        return value.is_nan()
    if isinstance(value, float):
        return math.isnan(value)
    return value is None or type(value).__name__ in ("NAType", "NaTType")


def _rounded(value: float, digits: int) -> str:
    """The shortest text that reads as this float, as repr has it, rounded half to even, without zeros at its end."""
    if math.isinf(value):
        return str(float(value))
    text = format(_ROUNDING.quantize(Decimal(repr(float(value))), Decimal(1).scaleb(-digits)), "f")
    return text.rstrip("0").rstrip(".") if "." in text else text


def _in_minor_units(text: str, digits: int) -> str:
    """The whole number of minor units of an amount in major units. Another text is returned as it is, and the program rejects it."""
    found = _PLAIN.fullmatch(text)
    if not digits or not found:
        return text
    sign, whole, fraction = found[1], found[2], found[3] or ""
    if fraction[digits:].strip("0"):
        return text
    return sign + ((whole + fraction[:digits].ljust(digits, "0")).lstrip("0") or "0")
