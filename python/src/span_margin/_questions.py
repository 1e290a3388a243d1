"""The requests of a session: the line of each, the answer that it must have, and the object that the answer becomes."""
from operator import index
from typing import Callable, Generic, Iterable, Iterator, List, Mapping, NamedTuple, Optional, Sequence, Tuple, TypeVar, Union

from span_margin import _results
from span_margin._amounts import Money
from span_margin._channel import OF_ALL, End, Expected, InUse, Key, OfAnyAccounts, Request
from span_margin._errors import RequestError, SpanError, error_of_request
from span_margin._inputs import PARAMETER, Inputs, Source, need_legs, set_record_in
from span_margin._lines import AccountTotal, SetCounts
from span_margin._program import Deadline
from span_margin._results import AccountExplanation, AccountMargin, Positions, Statement, TriedOrder, TriedOrders

Result = TypeVar("Result", covariant=True)
Legs = Mapping[str, int]
# An order to evaluate: its account, its legs, and a name if it has one.
Try = Union[Tuple[str, Legs], Tuple[str, Legs, str]]

NAME = "TRY"  # the name of an order that has none
# The words of the lines of an explanation before its T line.
REASONS = (b"HELD", b"SUMS", b"SCAN", b"MONTH", b"INTRA", b"SPOT", b"INTER", b"CREDIT", b"SHORT", b"R")


class Question(Generic[Result]):
    """A request and what its answer becomes. `changes`: it changes the positions or the parameter set."""

    def __init__(
        self, request: Request, read: Callable[[Request], Union[Result, SpanError]], *, changes: bool = False,
        ended: Callable[[End], SpanError] = End.of_call,
    ) -> None:
        self.request, self._read, self.changes, self._ended = request, read, changes, ended

    def told(self) -> Union[Result, SpanError, ValueError]:
        """The result of the complete request, or the error with which it was rejected or the session ended."""
        if self.request.end:
            return self._ended(self.request.end)
        return self._read(self.request)


class One(Question[Result]):
    """A question of one line."""

    def told(self) -> Union[Result, SpanError, ValueError]:
        request = self.request
        if request.refused and not request.end:
            return error_of_request(request.refused[0], request.lines[0][:-1])
        if request.differs and request.key:
            return ValueError(f"the key {request.key.name!r} is the one of another fill")
        return super().told()


class Explained(NamedTuple):
    """The explanation of an account, and the content of the parameter file under which it was computed."""

    whole: AccountExplanation
    content: bytes


# --- Questions about what the session holds ---


def margins() -> Question[Statement]:
    """The margins of all accounts."""
    request = Request(["MARGIN\n"], [OfAnyAccounts(b"T,", empty=True, most=OF_ALL)])
    return One(request, lambda it: _results.statement(it.answers[0], it.money, it.set))


def margin(account: str) -> Question[AccountMargin]:
    """The margin of an account."""
    line, names = _line("MARGIN", account), _names(account)
    return One(Request([line], [Expected(b"T" + names, (b"\nR" + names,))]), lambda it: AccountMargin(it.answers[0], it.money))


def explanation(account: str) -> Question[AccountExplanation]:
    """The reasons for the margin of an account."""
    return One(_of_explanation(account), lambda it: AccountExplanation(it.answers[0], it.money))


def explained(account: str) -> Question[Explained]:
    """The reasons for the margin of an account, with the parameter file."""
    request = _of_explanation(account)
    request.keeps_content = True
    return One(request, lambda it: Explained(AccountExplanation(it.answers[0], it.money), it.content))


def _of_explanation(account: str) -> Request:
    line, names = _line("EXPLAIN", account), _names(account)
    return Request([line], [Expected(b"T" + names, [b"\n" + word + names for word in REASONS])])


def positions() -> Question[Positions]:
    """The positions of all accounts."""
    request = Request(["POSITIONS\n"], [Expected(b"", None, empty=True, of_set=False, most=OF_ALL)])
    return One(request, lambda it: _results.positions(it.answers[0], it.set))


# --- Orders and fills ---


def tried(account: str, legs: Legs, name: str) -> Question[TriedOrder]:
    """What an order would do to the margin of its account."""
    line, answer = _try(account, legs, name)
    return One(Request([line], [answer]), lambda it: TriedOrder(it.answers[0], it.money))


def all_tried(orders: Iterable[Try]) -> Question[TriedOrders]:
    """What each of many orders would do, or the first error."""
    request, errors = _of_orders(orders)

    def read(request: Request) -> Union[TriedOrders, SpanError]:
        if request.refused or any(errors):
            return next(it for it in _told(request, errors) if isinstance(it, SpanError))
        return TriedOrders(b"".join(request.answers), request.money, request.set)

    return Question(request, read)


def each_tried(orders: Iterable[Try]) -> Question[List[Union[TriedOrder, SpanError]]]:
    """What each of many orders would do, or the error of the order."""
    request, errors = _of_orders(orders)

    def read(request: Request) -> List[Union[TriedOrder, SpanError]]:
        return [TriedOrder(it, request.money) if isinstance(it, bytes) else it for it in _told(request, errors)]

    return Question(request, read)


def _of_orders(orders: Iterable[Try]) -> Tuple[Request, List[Optional[SpanError]]]:
    """A request for all orders that can be one, and for each order None, or the error of one that cannot."""
    lines, expected = [], []
    errors: List[Optional[SpanError]] = []
    for order in orders:
        try:
            line, answer = _try(*order)
        except RequestError as error:
            errors.append(error)
        else:
            errors.append(None)
            lines.append(line)
            expected.append(answer)
    return Request(lines, expected), errors


def _told(request: Request, errors: Iterable[Optional[SpanError]]) -> Iterator[Union[bytes, SpanError]]:
    """For each order the lines of its answer, or its error."""
    sent = iter(range(len(request.lines)))
    for error in errors:
        if error:
            yield error
        else:
            at = next(sent)
            yield error_of_request(request.refused[at], request.lines[at][:-1]) if at in request.refused else request.answers[at]


def filled(account: str, legs: Legs, name: Optional[str]) -> Question[AccountTotal]:
    """Adds quantities to the positions of an account, once if `name` is the name of a key."""
    line = _line("FILL", account, *_pairs(legs))
    key = None if name is None else Key(_need_key(name), _line("FILL", account, *_pairs(dict(sorted(legs.items())))))
    request = Request([line], [Expected(b"T" + _names(account))], key=key)
    return One(request, lambda it: _results.account_total(it.answers[0], it.money), changes=True)


def _need_key(name: str) -> str:
    """The name of a key. Raises an error if it is none: all fills without a name would be the same."""
    if not isinstance(name, str):
        raise TypeError(f"a key is a str, not {type(name).__name__}")
    if not name:
        raise ValueError("a key must not be empty")
    return str(name)


def walked(account: str, blocks: Iterable[Sequence[Tuple[str, int]]]) -> Question[TriedOrders]:
    """Fills the blocks of legs, one after the other, and tells before each fill what each beginning of the block would do."""
    lines, expected = [], []
    for block in blocks:
        pairs = _pairs(dict(block))
        asked = [_try(account, dict(block[:count])) for count in range(1, len(block) + 1)]
        asked.append((_line("FILL", account, *pairs), Expected(b"T" + _names(account))))
        lines += [line for line, _ in asked]
        expected += [answer for _, answer in asked]

    def read(request: Request) -> Union[TriedOrders, SpanError]:
        for at, what in request.refused.items():
            return error_of_request(what, request.lines[at][:-1])
        tried = [answer for line, answer in zip(lines, request.answers) if line.startswith("TRY")]
        return TriedOrders(b"".join(tried), request.money, request.set)

    return Question(Request(lines, expected), read)


# --- Parameter sets ---


def opened(content: bytes, digits: Optional[int], inputs: Inputs) -> Question[SetCounts]:
    """The opening. Its request is not sent: the session answers it when it has read both files."""
    return Question(*_of_set("", content, digits, inputs), ended=End.of_opening)


def used(params: Source, digits: Optional[int], deadline: Deadline, check: Callable[[], None]) -> Question[SetCounts]:
    """Replaces the parameter set. The file made for the request is removed when the session has read it.

    `check` raises an error if the session ends while a file is read.
    """
    inputs = Inputs(deadline, status=None, check=check)
    try:
        content = inputs.content(params, PARAMETER)
        path = inputs.write(content, "params.csv")
        return One(*_of_set(f"SET,{path}\n", content, digits, inputs), changes=True)
    except BaseException:
        inputs.close()
        raise


def _of_set(
    line: str, content: bytes, digits: Optional[int], inputs: Inputs
) -> Tuple[Request, Callable[[Request], SetCounts]]:
    """A request that makes the session read a parameter file with this content, and how its answer is read."""
    found = set_record_in(content)
    used = InUse(found[0], Money(found[1], digits), content) if found else InUse(money=Money(None, digits), content=content)
    expected = Expected(f"OK,{found[0]},".encode() if found else b"OK,", of_set=False)
    return Request([line], [expected], used, inputs.close), lambda it: _results.set_counts(it.answers[0])


# --- Lines ---


def _line(word: str, *fields: str) -> str:
    """A request with these fields. Raises RequestError if a field has a comma or a line end, which would make it another request."""
    line = ",".join((word, *fields))
    if line.count(",") != len(fields) or "\n" in line or "\r" in line:
        field = next(number for number, text in enumerate(fields, 2) if set(text) & set(",\r\n"))
        raise RequestError(f"request: X4 BadName at field {field}")
    return line + "\n"


def _names(*names: str) -> bytes:
    """What follows the word of a line about these names."""
    return f",{','.join(names)},".encode("utf-8", "surrogatepass")


def _pairs(legs: Legs) -> List[str]:
    """The fields of legs."""
    need_legs(legs)
    fields: List[str] = []
    for contract, quantity in legs.items():
        fields += (contract, str(index(quantity) + 0))  # (+ 0, since a bool is an index, and its text is not a number)
    return fields


def _try(account: str, legs: Legs, name: str = NAME) -> Tuple[str, Expected]:
    """The request for an order, and its answer."""
    line = _line("TRY", name, account, *_pairs(legs))
    names = _names(name, account)
    return line, Expected(b"ORDER" + names, (b"\nCHANGE" + names,))
