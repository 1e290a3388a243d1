"""What calls return: the bytes that the program printed, and objects for their lines, which are made when they are asked for."""
from dataclasses import FrozenInstanceError, dataclass, fields
from typing import (
    Any, Callable, Dict, Generic, Iterable, Iterator, List, NoReturn, Optional, Sequence, Tuple, Type, TypeVar, Union, cast, overload,
)

from span_margin._amounts import UNKNOWN, Money
from span_margin._cached import cached
from span_margin._errors import ProgramError, visible
from span_margin._frames import Kinds, frame_of_rows, text_column
from span_margin._lines import (
    AccountTotal,
    Change,
    CommodityMargin,
    Credit,
    Fault,
    Held,
    Inter,
    Intra,
    Line,
    Month,
    OrderTotal,
    Position,
    Printed,
    Scan,
    SetCounts,
    Short,
    Spot,
    Sums,
    fault_of,
    object_of,
)
from span_margin._program import text_of

Item = TypeVar("Item")
Kind = TypeVar("Kind")
Reason = TypeVar("Reason", bound=Line)
_STATEMENT = {"commodities": "R", "accounts": "T"}
_EXPLANATION = {
    **_STATEMENT,
    "held": "HELD",
    "sums": "SUMS",
    "scan": "SCAN",
    "months": "MONTH",
    "intras": "INTRA",
    "spots": "SPOT",
    "inters": "INTER",
    "credit": "CREDIT",
    "short": "SHORT",
}
_ORDERS = {"orders": "ORDER", "changes": "CHANGE"}


class Result(Printed, Generic[Item]):
    """The bytes that the program printed, as items in its order. Results are equal if their bytes are, and cannot be changed.

    `len` and iteration are about items, and `result[0]` is the first one. If items have names, `result["NAME"]` is the item with a name,
    and `keys`, `items`, `get` and `in` work as in a dict. A line becomes an object when it is asked for. If it is not a line of the
    program, that raises ProgramError.
    """

    _key: Optional[str] = None  # the attribute of items that is their name

    def __init__(self, printed: bytes, money: Money = UNKNOWN, set_id: Optional[str] = None) -> None:
        own = self.__dict__
        own["_printed"], own["_money"] = printed, money
        if set_id is not None:
            own["_set_id"] = set_id

    _printed: bytes
    _set_id: Optional[str] = None

    @cached
    def _items(self) -> Tuple[Item, ...]:
        raise NotImplementedError

    @property
    def currency(self) -> Optional[str]:
        """The currency of the amounts, such as "USD". None if it is unknown, as of a parameter file that is a pipe."""
        return self._money.currency

    def __bytes__(self) -> bytes:
        return self._printed

    def __len__(self) -> int:
        return len(self._items)

    def __iter__(self) -> Iterator[Item]:
        return iter(self._items)

    @cached
    def _by_name(self) -> Dict[str, Optional[Item]]:
        """The items by their names, and None for a name that two items have."""
        named: Dict[str, Optional[Item]] = {}
        for name, item in self.items():
            named[name] = None if name in named else item
        return named

    @overload
    def __getitem__(self, name: Union[str, int]) -> Item: ...

    @overload
    def __getitem__(self, name: slice) -> Tuple[Item, ...]: ...

    def __getitem__(self, name: Union[str, int, slice]) -> Union[Item, Tuple[Item, ...]]:
        if not isinstance(name, str):
            return self._items[name]
        item = self._by_name[name]
        if item is None:
            raise KeyError(f"several have the name {name}")
        return item

    def __contains__(self, name: object) -> bool:
        return name in self._by_name if isinstance(name, str) and self._key else name in self._items

    def get(self, name: str, default: Optional[Item] = None) -> Optional[Item]:
        """The item with a name, or the default if there is none."""
        return self[name] if name in self else default

    def keys(self) -> List[str]:
        """The names of the items."""
        return [name for name, _ in self.items()]

    def items(self) -> List[Tuple[str, Item]]:
        """The names and the items."""
        if self._key is None:
            raise TypeError(f"the items of {type(self).__name__} have no names")
        return [(getattr(item, self._key), item) for item in self._items]

    def to_dicts(self) -> List[Dict[str, Any]]:
        return [cast(Any, item).to_dict() for item in self._items]

    def __eq__(self, other: object) -> bool:
        if not isinstance(other, Result) or type(other) is not type(self):
            return NotImplemented
        return bytes(self) == bytes(other)

    def __hash__(self) -> int:
        return hash((type(self), bytes(self)))

    def __repr__(self) -> str:
        printed = bytes(self)
        last = visible(text_of(printed[_last_line(printed) :].rstrip(b"\n")))
        return f"<{type(self).__name__} of {_count(printed)} lines{last and ', the last '}{last}>"

    def __reduce__(self) -> Tuple[Any, ...]:
        return type(self), (self._printed, self._money, self._set_id)

    def __setattr__(self, name: str, value: object) -> NoReturn:
        raise FrozenInstanceError(f"cannot assign to field {name!r}")

    def __delattr__(self, name: str) -> NoReturn:
        raise FrozenInstanceError(f"cannot delete field {name!r}")

    def _objects(self, printed: bytes) -> List[Any]:
        """The objects of lines."""
        return [object_of(line, self._money) for line in text_of(printed).split("\n")[:-1]]


class OfSet(Result[Item]):
    """A result under one parameter set."""

    _set_at = 2  # the field of each line that has the id of the set

    @property
    def set(self) -> Optional[str]:
        """The id of the parameter set. None if nothing was printed, and the parameter file was a pipe."""
        first = self._printed[: self._printed.find(b"\n")]
        return text_of(first).split(",")[self._set_at] if first else self._set_id


class Whole(Result[Item]):
    """The lines of one account or of one order. The fields of the last line are attributes of the result."""

    _parts = "commodities"  # what `to_dict` calls the items

    def __bool__(self) -> bool:
        return True

    @cached
    def _last(self) -> Line:
        return cast(Line, object_of(text_of(self._printed[_last_line(self._printed) : -1]), self._money))

    @property
    def _name(self) -> str:
        """The name of the account or of the order."""
        return text_of(self._printed[_last_line(self._printed) : -1].split(b",", 2)[1])

    def to_dict(self) -> Dict[str, Any]:
        """The fields by their names, with a list of the items as dicts."""
        return {**self._last.to_dict(), self._parts: [cast(Any, item).to_dict() for item in self._items]}

    def to_dicts(self) -> List[Dict[str, Any]]:
        return [self.to_dict()]


def _with_fields_of(make: Type[Line]) -> Callable[[Type[Kind]], Type[Kind]]:
    """Makes the fields of the last line attributes of a result, which are read when they are asked for."""

    def add(kind: Type[Kind]) -> Type[Kind]:
        for field in fields(make):
            setattr(kind, field.name, property(lambda self, name=field.name: getattr(self._last, name)))  # type: ignore[misc]
        return kind

    return add


# --- Statements ---


@_with_fields_of(AccountTotal)
class AccountMargin(Whole[CommodityMargin], AccountTotal):
    """The margin of an account: its total, and its requirement in each commodity. `margin["CL"]` is the requirement in CL."""

    _key = "commodity"
    _kinds = _STATEMENT

    @cached
    def _items(self) -> Tuple[CommodityMargin, ...]:
        return tuple(self._objects(self._printed[: _last_line(self._printed)]))

    @property
    def commodities(self) -> Tuple[CommodityMargin, ...]:
        """The requirement in each commodity."""
        return self._items


class Statement(OfSet[AccountMargin]):
    """The margins of accounts. `statement["RIVER-01"]` is one of them."""

    _key = "_name"
    _kinds = _STATEMENT

    @cached
    def _items(self) -> Tuple[AccountMargin, ...]:
        return tuple(AccountMargin(part, self._money) for part in _parts(self._printed, b"T,"))

    @property
    def accounts(self) -> Tuple[AccountMargin, ...]:
        """The margin of each account."""
        return self._items


class Roll(Result[Statement]):
    """The statements of the same positions under a parameter set, `today`, and under the next one, `next`."""

    _key = "roll"
    _kinds = _STATEMENT
    today: Statement
    next: Statement

    def __init__(self, today: Statement, following: Statement) -> None:
        vars(self).update(today=today, next=following, _money=today._money if today._money == following._money else UNKNOWN)

    def __bytes__(self) -> bytes:
        return bytes(self.today) + bytes(self.next)

    def __reduce__(self) -> Tuple[Any, ...]:
        return Roll, (self.today, self.next)

    @cached
    def _items(self) -> Tuple[Statement, ...]:
        return self.today, self.next

    def items(self) -> List[Tuple[str, Statement]]:
        return [("today", self.today), ("next", self.next)]

    def to_dicts(self) -> List[Dict[str, Any]]:
        """A dict for each statement: `roll`, which is "today" or "next", `set`, and `accounts`, a list of dicts."""
        return [{"roll": name, "set": it.set, "accounts": it.to_dicts()} for name, it in self.items()]

    def _table(self, word: str) -> Tuple[Sequence[str], Kinds, Iterable[Sequence[Any]]]:
        """The lines of both statements. The column `roll` says which statement a line belongs to."""
        columns, kinds, _ = super()._table(word)
        rows = ((name, *row) for name, it in self.items() for row in it._table(word)[2])
        return ("roll", *columns), (str, *kinds), rows

    def _read_frame(self, word: str, lines: Sequence[bytes]) -> Any:
        frame = super()._read_frame(word, lines)
        of_lines = [(name, it.currency) for name, it in self.items() for _ in it._lines_of(word)]
        frame.insert(0, "roll", [name for name, _ in of_lines])
        frame["currency"] = text_column([currency for _, currency in of_lines])
        return frame


# --- Explanations ---


@dataclass(frozen=True)
class CommodityExplanation(Line):
    """The reasons for the requirement of an account in a commodity, and the requirement itself: `margin`."""

    account: str
    set: str
    commodity: str
    held: Tuple[Held, ...]
    sums: Sums
    scan: Scan
    months: Tuple[Month, ...]
    intras: Tuple[Intra, ...]
    spots: Tuple[Spot, ...]
    inters: Tuple[Inter, ...]
    credit: Credit
    short: Short
    margin: CommodityMargin


@_with_fields_of(AccountTotal)
class AccountExplanation(Whole[CommodityExplanation], AccountTotal):
    """The reasons for the margin of an account. `explanation["CL"]` has the reasons in CL."""

    _key = "commodity"
    _kinds = _EXPLANATION

    @cached
    def _items(self) -> Tuple[CommodityExplanation, ...]:
        commodities: List[CommodityExplanation] = []
        reasons: List[Line] = []
        for line in self._objects(self._printed[: _last_line(self._printed)]):
            if isinstance(line, CommodityMargin):
                commodities.append(_commodity_explanation(line, reasons))
                reasons = []
            else:
                reasons.append(line)
        return tuple(commodities)

    @property
    def commodities(self) -> Tuple[CommodityExplanation, ...]:
        """The reasons in each commodity."""
        return self._items

    @property
    def margin(self) -> AccountMargin:
        """The margin that is explained."""
        lines = [*self._lines_of("R"), *self._lines_of("T"), b""]
        return AccountMargin(b"\n".join(lines), self._money)


class Explanation(OfSet[AccountExplanation]):
    """The reasons for the margins of accounts. `explanation["RIVER-01"]` has the reasons of one account."""

    _key = "_name"
    _kinds = _EXPLANATION

    @cached
    def _items(self) -> Tuple[AccountExplanation, ...]:
        return tuple(AccountExplanation(part, self._money) for part in _parts(self._printed, b"T,"))

    @property
    def accounts(self) -> Tuple[AccountExplanation, ...]:
        """The reasons for the margin of each account."""
        return self._items


def _commodity_explanation(margin: CommodityMargin, reasons: Sequence[Line]) -> CommodityExplanation:
    """The explanation of a commodity from its R line and the lines in front of it."""
    of: Dict[Type[Line], List[Any]] = {}
    for line in reasons:
        of.setdefault(type(line), []).append(line)

    def all_of(kind: Type[Reason]) -> Tuple[Reason, ...]:
        return tuple(of.get(kind, ()))

    def one_of(kind: Type[Reason]) -> Reason:
        if len(of.get(kind, ())) != 1:
            raise ProgramError(f"span did not print one {kind.__name__.upper()} line of {margin.account} in {margin.commodity}")
        return cast(Reason, of[kind][0])

    return CommodityExplanation(
        margin.account,
        margin.set,
        margin.commodity,
        held=all_of(Held),
        sums=one_of(Sums),
        scan=one_of(Scan),
        months=all_of(Month),
        intras=all_of(Intra),
        spots=all_of(Spot),
        inters=all_of(Inter),
        credit=one_of(Credit),
        short=one_of(Short),
        margin=margin,
    )


# --- Orders ---


@_with_fields_of(OrderTotal)
class TriedOrder(Whole[Change], OrderTotal):
    """What an order would do to the margin of its account. `tried["CL"]` is the change in CL, and raises KeyError if
    there is none."""

    _key = "commodity"
    _kinds = _ORDERS
    _parts = "changes"

    @cached
    def _items(self) -> Tuple[Change, ...]:
        return tuple(self._objects(self._printed[: _last_line(self._printed)]))

    @property
    def changes(self) -> Tuple[Change, ...]:
        """The commodities whose requirement changes."""
        return self._items


class TriedOrders(OfSet[TriedOrder]):
    """What each order would do by itself. `tried["HEDGE"]` is the order HEDGE."""

    _key = "_name"
    _kinds = _ORDERS
    _set_at = 3

    @cached
    def _items(self) -> Tuple[TriedOrder, ...]:
        return tuple(TriedOrder(part, self._money) for part in _parts(self._printed, b"ORDER,"))

    @property
    def orders(self) -> Tuple[TriedOrder, ...]:
        """Each order."""
        return self._items


# --- Faults, positions ---


class Faults(Result[Fault]):
    """All faults of the files, in the order of the program. It is false if there are none."""

    _kinds = {"faults": ""}

    @cached
    def _items(self) -> Tuple[Fault, ...]:
        return tuple(fault_of(line) for line in self.text.split("\n")[:-1])

    @property
    def faults(self) -> Tuple[Fault, ...]:
        """Each fault."""
        return self._items

    def _table(self, word: str) -> Tuple[Sequence[str], Kinds, Iterable[Sequence[Any]]]:
        columns = [field.name for field in fields(Fault)]
        kinds = [int if name == "record" else str for name in columns]
        return columns, kinds, ([getattr(fault, name) for name in columns] for fault in self)

    def _frame(self, word: str) -> Any:
        return frame_of_rows(*self._table(word))


class Positions(OfSet[Position]):
    """All positions of a session, under the set with the id `set`. `bytes(positions)` is a position file."""

    _kinds = {"positions": ""}

    @property
    def set(self) -> Optional[str]:
        return self._set_id

    @cached
    def _items(self) -> Tuple[Position, ...]:
        return tuple(object_of(line, word="") for line in self.text.split("\n")[:-1])

    @property
    def positions(self) -> Tuple[Position, ...]:
        """Each position."""
        return self._items


# --- From bytes ---


def _count(printed: bytes) -> int:
    return printed.count(b"\n")


def _last_line(printed: bytes) -> int:
    """Where the last line begins."""
    return printed.rfind(b"\n", 0, -1) + 1


def _parts(printed: bytes, last: bytes) -> Iterator[bytes]:
    """The lines up to each line of the word `last`, which the last line has."""
    begin = 0
    while begin < len(printed):
        at = begin if printed.startswith(last, begin) else printed.index(b"\n" + last, begin) + 1
        end = printed.index(b"\n", at) + 1
        yield printed[begin:end]
        begin = end


def _checked(printed: bytes, words: Sequence[bytes], last: bytes = b"") -> bytes:
    """What the program printed, after a look at the words of its lines, and at the last line. Raises ProgramError if they are wrong.

    Nothing else of the lines is read, since there may be millions of them.
    """
    known = sum(printed.startswith(word) + printed.count(b"\n" + word) for word in words)
    if printed and not (printed.endswith(b"\n") and printed.startswith(last, _last_line(printed))):
        raise ProgramError(f"what span printed is cut off: {text_of(printed[-200:])}")
    if known != _count(printed):
        wrong = next(line for line in printed.split(b"\n") if not line.startswith(tuple(words)))
        raise ProgramError(f"this package does not know this line of span: {text_of(wrong[:200])}")
    return printed


def _words(kinds: Dict[str, str]) -> List[bytes]:
    return [f"{word},".encode() for word in kinds.values()]


_OF_STATEMENT, _OF_EXPLANATION, _OF_ORDERS = _words(_STATEMENT), _words(_EXPLANATION), _words(_ORDERS)


def _one(printed: bytes, last: bytes) -> bytes:
    """The lines of one account or one order."""
    if not printed or printed.startswith(last) + printed.count(b"\n" + last) != 1:
        raise ProgramError(f"span did not print one line of the word {text_of(last[:-1])}: {text_of(printed[-200:])}")
    return printed


def statement(printed: bytes, money: Money, set_id: Optional[str] = None) -> Statement:
    """A statement from what the program printed. `set_id` is the id of the set if there are no accounts."""
    return Statement(_checked(printed, _OF_STATEMENT, b"T,"), money, set_id)


def account_margin(printed: bytes, money: Money) -> AccountMargin:
    """The margin of one account."""
    return AccountMargin(_one(_checked(printed, _OF_STATEMENT, b"T,"), b"T,"), money)


def roll(printed: bytes, today: Money, following: Money, ids: Sequence[Optional[str]] = (None, None)) -> Roll:
    """The two statements of a roll. Each has the lines of one half of the accounts. `ids` are the ids of the sets if there are none."""
    accounts = [*_parts(_checked(printed, _OF_STATEMENT, b"T,"), b"T,")]
    if len(accounts) % 2:
        raise ProgramError("span printed a statement of a roll with more accounts than the other has")
    half = len(b"".join(accounts[: len(accounts) // 2]))
    return Roll(Statement(printed[:half], today, ids[0]), Statement(printed[half:], following, ids[1]))


def explanation(printed: bytes, money: Money, set_id: Optional[str] = None) -> Explanation:
    """An explanation of accounts."""
    return Explanation(_checked(printed, _OF_EXPLANATION, b"T,"), money, set_id)


def account_explanation(printed: bytes, money: Money) -> AccountExplanation:
    """The explanation of one account."""
    return AccountExplanation(_one(_checked(printed, _OF_EXPLANATION, b"T,"), b"T,"), money)


def tried_order(printed: bytes, money: Money) -> TriedOrder:
    """One evaluated order. This is short, since a session makes very many."""
    last = printed.rfind(b"\n", 0, -1) + 1
    changes = printed.startswith(b"CHANGE,") + printed.count(b"\nCHANGE,")
    if not (printed.startswith(b"ORDER,", last) and printed.endswith(b"\n") and changes + 1 == printed.count(b"\n")):
        raise ProgramError(f"span did not print one order: {text_of(printed[-200:])}")
    return TriedOrder(printed, money)


def tried_orders(printed: bytes, money: Money, set_id: Optional[str] = None) -> TriedOrders:
    """All evaluated orders."""
    return TriedOrders(_checked(printed, _OF_ORDERS, b"ORDER,"), money, set_id)


def tried_orders_of(parts: Sequence[bytes], money: Money) -> TriedOrders:
    """Evaluated orders, each from what the program printed for it."""
    made = tried_orders(b"".join(parts), money)
    for part in parts:
        _one(part, b"ORDER,")
    return made


def _line(printed: bytes, money: Money = UNKNOWN) -> Any:
    """The object of the only line that the program printed. Its bytes are the line."""
    made = object_of(text_of(printed[:-1]), money)
    if bytes(made) != printed:
        raise ProgramError(f"this package does not know this line of span: {text_of(printed[:200])}")
    return made


def set_counts(printed: bytes) -> SetCounts:
    """The counts of an accepted set from its OK line."""
    return cast(SetCounts, _line(_one(_checked(printed, [b"OK,"]), b"OK,")))


def account_total(printed: bytes, money: Money) -> AccountTotal:
    """The total of an account from its T line."""
    return cast(AccountTotal, _line(_one(_checked(printed, [b"T,"]), b"T,"), money))


def faults(printed: bytes) -> Faults:
    """The faults of fault lines."""
    return Faults(_checked(printed, [b"parameters: ", b"positions: "]))


def positions(printed: bytes, set_id: str) -> Positions:
    """The positions of position records."""
    if printed and not printed.endswith(b"\n") or printed.count(b",") != 2 * _count(printed):
        raise ProgramError(f"span did not print positions: {text_of(printed[-200:])}")
    return Positions(printed, UNKNOWN, set_id)
