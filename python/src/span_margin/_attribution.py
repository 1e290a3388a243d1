"""What each position of an account contributes to its margin, in shares that add up to it.

The value of a set of positions is what the program prints for the account that holds exactly these positions. The share of a position is
what it adds to this value, as a mean over all orders in which the positions could have been added: its Shapley value.
"""
import random
from dataclasses import dataclass
from math import factorial, isqrt
from operator import index
from typing import TYPE_CHECKING, Callable, Dict, Iterable, Iterator, List, Mapping, NamedTuple, Optional, Sequence, Tuple

from span_margin import _questions
from span_margin._amounts import Amount
from span_margin._errors import ProgramError
from span_margin._lines import FORMS, Held, Line, Shown, fields_of, unreadable
from span_margin._program import Deadline
from span_margin._questions import Question
from span_margin._results import AccountExplanation, TriedOrders
from span_margin._answers import Answer, Make, Table, cells_of, names_of

if TYPE_CHECKING:
    from span_margin._session import Desk

MOST_EXACT = 12  # up to so many contracts, every set of positions is evaluated
PAIRS = 100  # otherwise so many random orders and their reverses
MOST_LEGS = 64  # of an order or a fill
BLOCK = 8  # legs of a fill of a walk
ORDERS = 512  # that are sent at once
MEASURES = ("total", "due")
LESS_TOTAL = "due_minus_total"  # the column of what is due beyond the total (names of commodities have no small letters)

COMMODITY, CHANGE = map(FORMS["CHANGE"].columns.index, ("commodity", "change"))
TOTAL_CHANGE, DUE_CHANGE = map(FORMS["ORDER"].columns.index, ("change", "due_change"))

Row = Dict[str, int]  # amounts by column


@dataclass(frozen=True)
class Share(Line):
    """What a position contributes.

    share            its part of the total, or of the due; it may be negative. The shares of all positions add up exactly
    standard_error   of the share, rounded up to a whole minor unit; None if the share is exact
    marginal         what closing the position alone would change; it is negative if that frees margin
    parts            the share by commodity: how much of the requirement in each commodity is due to the position. The parts of all
                     positions add up to the requirements. If the due is attributed, the part `due_minus_total` is the position's share of
                     the difference between due and total, which comes from option values
    """

    contract: str
    commodity: str
    quantity: int
    share: Amount
    standard_error: Optional[Amount]
    marginal: Amount
    parts: Mapping[str, Amount]


@dataclass(frozen=True)
class Attribution(Answer, Shown):
    """What each position of an account contributes to its total, or to its due.

    The value of a set of positions is what the program prints for the account that holds exactly these positions. A share is what a
    position adds to this value, as a mean over all orders in which the positions could have been added (its Shapley value). It is exact
    for up to 12 contracts. For more, it is the mean over 100 random orders and their reverses. The running sums of the parts of each
    position are rounded by largest remainder, within commodities that have credits in common, and so are the shares.

    of        what is attributed: total or due
    amount    the total or the due, which the program printed
    orders    of how many random orders a share is the mean; None if it is exact
    seed      the seed of the random orders; None if shares are exact
    columns   the requirements by commodity, which the program printed, and `due_minus_total` if the due is attributed
    shares    a Share for each contract, in the order of the explanation
    """

    account: str
    set: str
    of: str
    amount: Amount
    orders: Optional[int]
    seed: Optional[int]
    columns: Mapping[str, Amount]
    shares: Tuple[Share, ...]

    def __getitem__(self, contract: str) -> Share:
        """The share of a contract. Raises KeyError if the account does not hold it."""
        for share in self.shares:
            if share.contract == contract:
                return share
        raise KeyError(contract)

    @property
    def is_exact(self) -> bool:
        """Whether shares are exact, apart from the rounding to whole minor units."""
        return self.orders is None

    @property
    def positions(self) -> Dict[str, int]:
        """The positions that the shares are for: the quantity of each contract of the account."""
        return {share.contract: share.quantity for share in self.shares}

    @property
    def by_commodity(self) -> Dict[str, Amount]:
        """The sum of the shares of the contracts of each commodity."""
        return self.by({share.contract: share.commodity for share in self.shares})

    def by(self, groups: Mapping[str, str]) -> Dict[str, Amount]:
        """The sums of the shares of groups of contracts. `groups` has the group of each contract.

        Raises ValueError if a contract of the account has no group.
        """
        sums: Dict[str, Amount] = {}
        for share in self.shares:
            if share.contract not in groups:
                raise ValueError(f"{share.contract} has no group")
            group = groups[share.contract]
            sums[group] = share.share + sums.get(group, 0)
        return sums

    def _tables(self) -> Dict[str, Make]:
        """A row for each contract, with its parts as the last columns; and a row for each commodity."""
        return {"shares": self._shares_table, "commodities": self._commodities_table}

    def _shares_table(self) -> Table:
        fields = names_of(Share)[:-1]
        rows = [(self.account, self.set, *cells_of(it, fields), *map(it.parts.__getitem__, self.columns)) for it in self.shares]
        kinds = [str, str, str, str, int] + [Amount] * (3 + len(self.columns))
        return Table(["account", "set", *fields, *self.columns], kinds, list(rows))

    def _commodities_table(self) -> Table:
        rows = [(self.account, self.set, name, amount) for name, amount in self.by_commodity.items()]
        return Table(["account", "set", "commodity", "share"], [str, str, str, Amount], list(rows))


# --- The values of sets of positions ---


class Subject(NamedTuple):
    """An account: what it holds, and the columns of its total or due."""

    account: str
    held: Sequence[Held]
    of: str
    columns: Row

    def legs(self, positions: Iterable[int], sign: int) -> List[Tuple[str, int]]:
        """The legs that open (1) or close (-1) positions, which are given by their indexes."""
        return [(self.held[at].contract, sign * self.held[at].quantity) for at in positions]

    def changes(self, orders: TriedOrders) -> List[Row]:
        """What each order changes, by column. (There are many thousands of them, so they do not become objects.)"""
        rows: List[Row] = []
        row: Row = {}
        for line in orders.text.split("\n")[:-1]:
            word, fields = fields_of(line)
            if word == "CHANGE":
                row[fields[COMMODITY]] = int(fields[CHANGE])
                continue
            if self.of == "due":
                if fields[DUE_CHANGE] is None:
                    raise unreadable(line)
                row[LESS_TOTAL] = int(fields[DUE_CHANGE]) - int(fields[TOTAL_CHANGE])
            rows.append(row)
            row = {}
        return rows


def amount_of(whole: AccountExplanation, of: str) -> Amount:
    """The amount that is attributed, or compared with a target. Raises ValueError if there is none that is called `of`."""
    if of not in MEASURES:
        raise ValueError(f"of is {of!r}, and must be total or due")
    amount = whole.total if of == "total" else whole.due
    if amount is None:
        raise ValueError(f"the parameter set {whole.set} has no option values, so there is no due")
    return amount


def subject_of(whole: AccountExplanation, of: str) -> Subject:
    """An account from its explanation. Raises ValueError if it has no amount `of`."""
    amount = amount_of(whole, of)
    columns = {it.commodity: int(it.margin.requirement) for it in whole}
    if of == "due":
        columns[LESS_TOTAL] = int(amount) - int(whole.total)
    return Subject(whole.account, [held for it in whole for held in it.held], of, columns)


Step = Tuple[int, Row]  # a position, and what adding it changes


def steps_of(order: Sequence[int], changes: Iterable[Row], sign: int) -> Iterator[Step]:
    """The steps of an order from the changes of its beginnings, which are opened (1) or closed (-1)."""
    before: Row = {}
    for position, after in zip(order, changes):
        yield position, {name: sign * (after.get(name, 0) - before.get(name, 0)) for name in {**before, **after}}
        before = after


class Values:
    """The values of sets of positions of an account in a session. Orders close the other positions."""

    def __init__(self, desk: "Desk", subject: Subject, deadline: Deadline) -> None:
        self._desk, self._subject, self._deadline = desk, subject, deadline

    def closing(self, sets: Sequence[Sequence[int]]) -> Iterator[Row]:
        """What closing each set of positions changes."""
        parts = (sets[begin : begin + ORDERS] for begin in range(0, len(sets), ORDERS))
        for orders in self._desk._wait_for_each(map(self._tried, parts), self._deadline):
            yield from self._subject.changes(orders)

    def pairs(self, orders: Sequence[Sequence[int]]) -> Iterator[Iterator[Step]]:
        """For each order in which positions are added, the steps of the order and of its reverse."""
        for order, tried in zip(orders, self._desk._wait_for_each(map(self._pair, orders), self._deadline)):
            yield self._steps(order, iter(self._subject.changes(tried)))

    def _tried(self, sets: Iterable[Sequence[int]]) -> Question[TriedOrders]:
        """Closes each set of positions."""
        return _questions.all_tried((self._subject.account, dict(self._subject.legs(positions, -1))) for positions in sets)

    def _pair(self, order: Sequence[int]) -> Question[TriedOrders]:
        """Closes the positions up to each one, in both directions: what is left are the beginnings of both orders."""
        return self._tried(way[:count] for way in (order, order[::-1]) for count in range(1, len(order) + 1))

    def _steps(self, order: Sequence[int], changes: Iterator[Row]) -> Iterator[Step]:
        for way in (order, order[::-1]):
            yield from steps_of(way, changes, -1)


class Walk(Values):
    """The same for an account with any number of positions, by fills that close all of them, and open them again."""

    def _blocks(self, order: Sequence[int], sign: int) -> List[List[Tuple[str, int]]]:
        """The legs of an order in blocks. Each block is one fill."""
        return [self._subject.legs(order[begin : begin + BLOCK], sign) for begin in range(0, len(order), BLOCK)]

    def _pair(self, order: Sequence[int]) -> Question[TriedOrders]:
        return _questions.walked(self._subject.account, self._blocks(order, -1) + self._blocks(order, 1))

    def _steps(self, order: Sequence[int], changes: Iterator[Row]) -> Iterator[Step]:
        for sign in (-1, 1):
            for begin in range(0, len(order), BLOCK):
                yield from steps_of(order[begin : begin + BLOCK], changes, sign)


# --- Shares as fractions: numerators of a common denominator ---


class Fractions(NamedTuple):
    """The parts of each position by column, as numerators of the same denominator, and the standard errors of their sums."""

    parts: List[Row]
    denominator: int
    errors: List[Optional[int]]


def exact(values: Values, subject: Subject) -> Fractions:
    """The means over all orders, from the values of all sets of positions."""
    count = len(subject.held)
    masks = range(1 << count)
    closed = [[at for at in range(count) if mask >> at & 1] for mask in masks]
    # After closing some positions, so many orders add first the others, then this position, and then those that were closed.
    weights = [factorial(count - len(it) - 1) * factorial(len(it)) if len(it) < count else 0 for it in closed]
    without = [[mask for mask in masks if not mask >> at & 1] for at in range(count)]
    nothing: Row = {}
    rows = [nothing, *values.closing(closed[1:])]
    parts: List[Row] = [{} for _ in subject.held]
    for column in subject.columns:
        change = [row.get(column, 0) for row in rows]
        for at, part in enumerate(parts):
            bit = 1 << at
            part[column] = sum(weights[mask] * (change[mask] - change[mask | bit]) for mask in without[at])
    return Fractions(parts, factorial(count), [None] * count)


def sampled(values: Values, subject: Subject, seed: int) -> Fractions:
    """The means over random orders and their reverses."""
    count, chance = len(subject.held), random.Random(seed)
    parts: List[Row] = [dict.fromkeys(subject.columns, 0) for _ in subject.held]
    sums, squares = [0] * count, [0] * count
    orders = [sorted(range(count), key=lambda _: chance.random()) for _ in range(PAIRS)]
    for steps in values.pairs(orders):
        both = [0] * count  # what each position adds, in both orders together
        for position, changes in steps:
            part = parts[position]
            for column, change in changes.items():
                part[column] = part.get(column, 0) + change
            both[position] += sum(changes.values())
        for position, added in enumerate(both):
            sums[position] += added
            squares[position] += added * added
    return Fractions(parts, 2 * PAIRS, [standard_error(*it) for it in zip(sums, squares)])


def standard_error(total: int, squares: int) -> int:
    """The standard error of the mean of PAIRS halves with this sum and this sum of squares, rounded up."""
    above, below = PAIRS * squares - total * total, 4 * PAIRS * PAIRS * (PAIRS - 1)
    root = isqrt(above // below)
    return root if root * root * below == above else root + 1


# --- Rounding ---


def rounded(rows: Sequence[Row], denominator: int, columns: Sequence[str]) -> List[Row]:
    """Whole amounts for fractions with this denominator. Each column keeps its sum, and each row its sum rounded by largest remainder.

    The running sums of rows over columns are rounded by largest remainder, and a cell is the difference of two of them. Columns that no
    row connects are rounded by themselves, so a row has nothing in the columns of another part.
    """
    cells: List[Row] = [dict.fromkeys(columns, 0) for _ in rows]
    for group in connected(rows, columns):
        running = {at: 0 for at, row in enumerate(rows) if any(row.get(column) for column in group)}
        before = running
        for column in group:
            running = {at: amount + rows[at].get(column, 0) for at, amount in running.items()}
            after = largest_remainder(running, denominator)
            for at, amount in after.items():
                cells[at][column] = amount - before[at]
            before = after
    return cells


def connected(rows: Iterable[Row], columns: Sequence[str]) -> List[List[str]]:
    """The columns in groups, such that each row is 0 outside of one group."""
    groups: List[List[str]] = []
    for row in rows:
        names = {column for column, amount in row.items() if amount}
        touched = [group for group in groups if not names.isdisjoint(group)]
        names.update(*touched)
        groups = [group for group in groups if group not in touched] + [[column for column in columns if column in names]]
    return groups


def largest_remainder(amounts: Dict[int, int], denominator: int) -> Dict[int, int]:
    """Fractions rounded down, and up those with the largest remainders, so that their sum, which is whole, stays the same."""
    down = {at: amount // denominator for at, amount in amounts.items()}
    missing = sum(amounts.values()) // denominator - sum(down.values())
    for at in sorted(amounts, key=lambda at: -(amounts[at] % denominator))[:missing]:
        down[at] += 1
    return down


# --- The answer ---


def asked(whole: AccountExplanation, of: str, seed: int) -> "Callable[[Desk, Deadline], Attribution]":
    """What asks a copy of the session what each position of an account contributes, as `Session.attribution` says."""
    subject, chosen = subject_of(whole, of), index(seed)
    values = Values if len(subject.held) <= MOST_LEGS else Walk
    return lambda copy, deadline: answered(values(copy, subject, deadline), subject, whole, chosen)


def answered(values: Values, subject: Subject, whole: AccountExplanation, seed: int) -> Attribution:
    """The answer from the values of sets of positions. Raises ProgramError if the parts do not sum to the explanation."""
    count, columns = len(subject.held), list(subject.columns)
    is_exact = count <= MOST_EXACT
    marginals = [sum(row.values()) for row in values.closing([[at] for at in range(count)])]
    parts, denominator, errors = exact(values, subject) if is_exact else sampled(values, subject, seed)
    for column in {*columns, *(name for part in parts for name in part)}:
        if sum(part.get(column, 0) for part in parts) != denominator * subject.columns.get(column, 0):
            raise ProgramError(f"the orders of {subject.account} do not add up to its requirements")
    make = type(whole.total)
    shares = [
        Share(
            held.contract, held.commodity, held.quantity, make(sum(cells.values())), None if error is None else make(error), make(marginal),
            {column: make(amount) for column, amount in cells.items()},
        )
        for held, cells, error, marginal in zip(subject.held, rounded(parts, denominator, columns), errors, marginals)
    ]
    return Attribution(
        subject.account, whole.set, subject.of, make(sum(subject.columns.values())), None if is_exact else 2 * PAIRS,
        None if is_exact else seed, {column: make(amount) for column, amount in subject.columns.items()}, tuple(shares),
    )
