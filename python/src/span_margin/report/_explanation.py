"""What pages show: an explanation that span printed, with the digits of its fields, and the check that its lines are complete."""
from __future__ import annotations

from dataclasses import dataclass
from typing import Callable, Container, Dict, Iterable, List, NamedTuple, NoReturn, Optional, Set, Tuple, TypeVar

from span_margin._cached import cached
from span_margin._errors import ProgramError
from span_margin._lines import Fields, fields_of, own_fields_of


class Rejected(ValueError):
    """The input is not an explanation, its figures do not agree, or other input does not belong to it."""


# --- The fields of lines after account, set and commodity ---


class Held(NamedTuple):
    contract: str
    kind: str
    month: str
    net: str
    value: Optional[str]


class Scan(NamedTuple):
    scan: str
    active: str
    paired: str
    price_risk: str


class Month(NamedTuple):
    month: str
    delta: str
    left: str


class Intra(NamedTuple):
    priority: str
    side: str
    spreads: str
    rate: str
    charge: str


class Spot(NamedTuple):
    month: str
    used: str
    spread_rate: str
    left: str
    outright_rate: str
    charge: str


class Inter(NamedTuple):
    priority: str
    side: str
    spreads: str
    used: str
    points: str


class Credit(NamedTuple):
    price_risk: str
    net: str
    weight: str


class Short(NamedTuple):
    calls: str
    puts: str
    method: str
    rate: str


class Row(NamedTuple):
    scan: str
    active: str
    calendar: str
    delivery: str
    credit: str
    minimum: str
    requirement: str


class Total(NamedTuple):
    """The figures of a T line. It has a total, and three more under a set with option values."""

    total: str
    value: Optional[str]
    due: Optional[str]
    excess: Optional[str]


# The parts of a requirement: the name for bars, and the name in tables. They add up to the requirement if credit is subtracted.
PARTS = {
    "scan": "scan risk",
    "calendar": "calendar",
    "delivery": "delivery",
    "minimum": "minimum adds",
    "credit": "credit",
}


@dataclass
class Commodity:
    """The lines of a commodity of an account, up to its R line."""

    name: str
    held: List[Held]
    sums: Tuple[str, ...]
    scan: Scan
    months: List[Month]
    intras: List[Intra]
    spots: List[Spot]
    inters: List[Inter]
    credit: Credit
    short: Short
    row: Row

    @cached
    def parts(self) -> Tuple[int, ...]:
        """The parts of the requirement, in the order of PARTS. The minimum adds what the other parts lack."""
        row = self.row
        scan, calendar, delivery, credit = int(row.scan), int(row.calendar), int(row.delivery), int(row.credit)
        return scan, calendar, delivery, max(0, int(row.requirement) - (scan + calendar + delivery - credit)), credit


def parts_of(commodities: Iterable[Commodity]) -> Tuple[int, ...]:
    """The sums of the parts of requirements."""
    return tuple(map(sum, zip(*[commodity.parts for commodity in commodities]))) or (0,) * len(PARTS)


@dataclass
class Account:
    """An account with its commodities and its T line."""

    name: str
    commodities: List[Commodity]
    total: Total

    @cached
    def parts(self) -> Tuple[int, ...]:
        """The sums of the parts of its requirements."""
        return parts_of(self.commodities)

    def size(self) -> int:
        """What the account owes: the amount due under a set with option values, and else the total."""
        return int(self.total.total if self.total.due is None else self.total.due)


@dataclass
class Explanation:
    set_id: str
    accounts: List[Account]

    def has_values(self) -> bool:
        return self.accounts[0].total.value is not None

    def ranked(self) -> List[Account]:
        """The accounts, the largest first."""
        return sorted(self.accounts, key=lambda account: (-account.size(), -int(account.total.total)))


# --- Reading ---

TYPES = {"F": "future", "C": "call", "P": "put"}
# The words that may follow a word; "" is the beginning.
FOLLOWS = {word: frozenset(words.split()) for word, words in {
    "": "HELD T",
    "HELD": "HELD SUMS",
    "SUMS": "SCAN",
    "SCAN": "MONTH",
    "MONTH": "MONTH INTRA SPOT INTER CREDIT",
    "INTRA": "INTRA SPOT INTER CREDIT",
    "SPOT": "SPOT INTER CREDIT",
    "INTER": "INTER CREDIT",
    "CREDIT": "SHORT",
    "SHORT": "R",
    "R": "HELD T",
    "T": "HELD T",
}.items()}
EARLIER = "earlier explanation"  # the name in messages for the file of --before


Line = TypeVar("Line")


def lines_of(data: bytes, what: str) -> List[str]:
    """The lines of a whole text, without their ends."""
    if not data:
        raise Rejected(f"the {what} is empty; span prints nothing if it rejects its files")
    try:
        lines = data.decode("ascii").split("\n")
    except UnicodeDecodeError:
        raise Rejected(f"the {what} has bytes outside ASCII") from None
    if lines.pop():
        raise Rejected(f"the {what} is cut off: its last line, {len(lines) + 1}, does not end with a line feed")
    return lines


def fields_at(number: int, line: str, words: Container[str], what: str) -> Tuple[str, Fields]:
    """The word of a line, which is one of `words`, and its other fields."""
    try:
        word, fields = fields_of(line)
    except ProgramError:
        word, fields = "", ()
    if word not in words or not fields:
        raise Rejected(f"line {number} of the {what} is malformed")
    return word, fields


def commodity_of(name: str, lines: Dict[str, List[Fields]]) -> Commodity:
    """A commodity of the fields of its lines, by their word. The order of the lines is checked, so none is missing."""

    def each(word: str, make: Callable[[Fields], Line]) -> List[Line]:
        return [*map(make, lines.get(word, ()))]

    return Commodity(
        name, each("HELD", Held._make), lines["SUMS"][0], Scan._make(lines["SCAN"][0]), each("MONTH", Month._make),
        each("INTRA", Intra._make), each("SPOT", Spot._make), each("INTER", Inter._make), Credit._make(lines["CREDIT"][0]),
        Short._make(lines["SHORT"][0]), Row._make(lines["R"][0]))


class Reader:
    """Reads an explanation line by line. `what` is its name in messages."""

    def __init__(self, what: str) -> None:
        self.what = what
        self.accounts: List[Account] = []
        self.names: Set[str] = set()
        self.set_id = ""
        self.account: Optional[str] = None  # whose T line has not come
        self.commodities: List[Commodity] = []  # of this account
        self.commodity: Optional[str] = None  # whose R line has not come
        self.lines: Dict[str, List[Fields]] = {}  # of this commodity, by their word
        self.head = ""  # account, set and commodity of the line before, with commas
        self.before = ""
        self.values: Optional[bool] = None

    def refuse(self, number: int, text: str) -> NoReturn:
        raise Rejected(f"line {number} of the {self.what} {text}")

    def take(self, number: int, line: str) -> None:
        if self.commodity is not None:
            own = own_fields_of(line, self.head)
            if own:  # a line of the same commodity as the line before it, as most lines are
                self.take_word(number, own[0])
                return self.take_reason(number, own[0], self.commodity, own[1])
        word, fields = fields_at(number, line, FOLLOWS, self.what)
        self.take_word(number, word)
        self.take_set(number, fields[1])
        self.take_account(number, fields[0])
        if word == "T":
            self.take_total(number, fields[0], Total._make(fields[2:]))
        else:
            self.take_commodity(number, fields[2])
            self.head = ",".join(fields[:3]) + ","
            self.take_reason(number, word, fields[2], fields[3:])

    def take_word(self, number: int, word: str) -> None:
        if word not in FOLLOWS[self.before]:
            hint = "; is this a statement, from span margin?" if word == "R" and self.before in ("", "T", "R") else ""
            self.refuse(number, f"is {word}, which is not allowed there{hint}")
        self.before = word

    def take_set(self, number: int, set_id: str) -> None:
        if set_id != self.set_id:
            if self.set_id:
                self.refuse(number, "has another set than the lines before it")
            self.set_id = set_id

    def take_account(self, number: int, name: str) -> None:
        if self.account is None:
            if name in self.names:
                self.refuse(number, f"is for account {name}, whose lines have ended")
            self.names.add(name)
            self.account = name
        elif self.account != name:
            self.refuse(number, f"is for account {name}, but {self.account} has no T line")

    def take_values(self, number: int, has_value: bool) -> None:
        if self.values not in (None, has_value):
            self.refuse(number, "has another version than the lines before it")
        self.values = has_value

    def take_total(self, number: int, name: str, total: Total) -> None:
        self.take_values(number, total.value is not None)
        self.accounts.append(Account(name, self.commodities, total))
        self.account, self.commodities = None, []

    def take_commodity(self, number: int, name: str) -> None:
        if self.commodity is None:
            if any(each.name == name for each in self.commodities):
                self.refuse(number, f"is for commodity {name}, whose lines have ended")
            self.commodity = name
        elif self.commodity != name:
            self.refuse(number, f"is for commodity {name}, but {self.commodity} has no R line")

    def take_reason(self, number: int, word: str, name: str, fields: Fields) -> None:
        """Takes the fields of a line of a commodity after its name."""
        if word == "HELD":
            self.take_values(number, fields[-1] is not None)
        self.lines.setdefault(word, []).append(fields)
        if word == "R":
            self.commodities.append(commodity_of(name, self.lines))
            self.commodity, self.lines = None, {}

    def explanation(self) -> Explanation:
        if self.account is not None:
            raise Rejected(f"the {self.what} is cut off: account {self.account} has no T line")
        return Explanation(self.set_id, self.accounts)


def read_explanation(data: bytes, what: str = "explanation") -> Explanation:
    reader = Reader(what)
    for number, line in enumerate(lines_of(data, what), 1):
        reader.take(number, line)
    return reader.explanation()
