"""The cheapest order that closes positions of an account until its margin is at most a target."""
import time
from dataclasses import dataclass
from decimal import Decimal
from itertools import combinations, islice
from math import comb, prod
from operator import index, mul
from typing import TYPE_CHECKING, Callable, Dict, Iterable, Iterator, List, Mapping, NamedTuple, Optional, Sequence, Tuple, Union

from span_margin import _questions
from span_margin._amounts import Amount
from span_margin._attribution import MOST_LEGS, amount_of
from span_margin._lines import FORMS, Held, Line, fields_of, unreadable
from span_margin._program import Deadline
from span_margin._results import AccountExplanation, TriedOrder
from span_margin._answers import Answer, Make, Table, cells_of, names_of

if TYPE_CHECKING:
    from span_margin._session import Desk

MOST_COMBINATIONS = 5000  # of lots that are all evaluated
CHUNK = 512  # orders that are sent at once
TRIES, SECONDS = 20000, 10.0  # limits of a search
WIDEST, LOOKS = 8, 2  # how many lots a search moves at once, and at how many lots it looks for each order that it may evaluate
AFTER = {of: FORMS["ORDER"].columns.index(name) for of, name in (("total", "after"), ("due", "due_after"))}

Price = Union[int, Decimal]
Lots = Tuple[int, ...]  # how many lots of each contract an order closes
Chosen = Tuple[Optional[Mapping[str, Price]], Optional[Iterable[str]], Optional[Mapping[str, int]]]  # cost, only, most
Cost = Tuple[int, int]  # what lots cost, in the smallest decimal of all prices, and their number


@dataclass(frozen=True)
class ClosingLeg(Line):
    """A leg of an order that closes positions.

    held       the position before the order
    quantity   what the order trades, which has the other sign
    price      what closing a lot costs
    cost       the price times the number of lots
    """

    contract: str
    commodity: str
    held: int
    quantity: int
    price: Price
    cost: Price


@dataclass(frozen=True)
class CheapestClose(Answer):
    """The order of least cost that closes positions of an account, after which its total, or its due, is at most a target.

    of           what is compared with the target: total or due
    is_met       whether the order reaches the target; if not, it is the order with the lowest amount that was found
    is_optimal   whether all orders that cost less were evaluated: no order is cheaper or, if the target is not met, lower
    before, after    the total or the due before and after the order, which the program printed
    lots, cost   the number of lots that are traded, and what they cost
    tries        how many orders were evaluated
    legs         the legs of the order; none if the target is met already
    order        what the program printed for the order; None if there are no legs
    positions    the positions that the order is for: the quantity of each contract of the account
    """

    account: str
    set: str
    of: str
    target: Amount
    is_met: bool
    is_optimal: bool
    before: Amount
    after: Amount
    lots: int
    cost: Price
    tries: int
    legs: Tuple[ClosingLeg, ...]
    order: Optional[TriedOrder]
    positions: Mapping[str, int]

    def _tables(self) -> Dict[str, Make]:
        """A row for each leg; and one row for the order."""
        return {"legs": self._legs_table, "orders": self._order_table}

    def _legs_table(self) -> Table:
        names = names_of(ClosingLeg)
        rows = [(self.account, self.set, *cells_of(leg, names)) for leg in self.legs]
        return Table(["account", "set", *names], [str] * 4 + [int, int, Decimal, Decimal], list(rows))

    def _order_table(self) -> Table:
        names = names_of(CheapestClose)[:-3]
        return Table(names, [str, str, str, Amount, bool, bool, Amount, Amount, int, Decimal, int], [cells_of(self, names)])


# --- What may be closed ---


class Problem(NamedTuple):
    """The positions that may be closed, how many lots of each, and the price of each lot."""

    held: Sequence[Held]
    most: Lots
    prices: Lots
    decimals: int

    def cost(self, lots: Lots) -> Cost:
        return sum(map(mul, self.prices, lots)), sum(lots)

    def legs(self, lots: Lots) -> Dict[str, int]:
        """The legs of the order that closes these lots."""
        return {held.contract: -count if held.quantity > 0 else count for held, count in zip(self.held, lots) if count}

    def may_close(self, lots: Lots) -> bool:
        """Whether an order may have so many legs."""
        return len(lots) - lots.count(0) <= MOST_LEGS

    def combinations(self, below: Optional[Cost] = None) -> Optional[List[Lots]]:
        """All lots that may be closed and cost less, the cheapest first. None if they are too many."""
        if below is None and prod(count + 1 for count in self.most) > MOST_COMBINATIONS:
            return None
        found: List[Lots] = [()]
        for count in self.most:
            longer: List[Lots] = []
            for lots in found:
                for more in range(count + 1):
                    if below is not None and self.cost((*lots, more)) >= below:
                        break
                    longer.append((*lots, more))
                if len(longer) > MOST_COMBINATIONS:
                    return None
            found = longer
        return sorted(filter(self.may_close, found), key=self.cost)

    def price(self, cost: int) -> Price:
        """A cost in the unit of the caller."""
        return Decimal(f"{cost}E-{self.decimals}") if self.decimals else cost


def problem_of(
    whole: AccountExplanation, cost: Optional[Mapping[str, Price]], only: Optional[Iterable[str]], most: Optional[Mapping[str, int]]
) -> Problem:
    """The problem of an account. Raises ValueError or TypeError if prices or limits are wrong."""
    everything = {held.contract: held for it in whole for held in it.held}
    limits = {contract: index(count) for contract, count in (most or {}).items()}
    chosen = list(everything) if only is None else list(only)
    for contract in (*chosen, *limits):
        if contract not in everything:
            raise ValueError(f"{whole.account} does not hold {contract!r}")
        if limits.get(contract, 0) < 0:
            raise ValueError(f"most of {contract} is {limits[contract]}, and must not be negative")
    held = [it for contract, it in everything.items() if contract in chosen]
    prices, decimals = whole_prices([it.contract for it in held], cost)
    return Problem(held, tuple(min(abs(it.quantity), limits.get(it.contract, abs(it.quantity))) for it in held), prices, decimals)


def whole_prices(contracts: Sequence[str], cost: Optional[Mapping[str, Price]]) -> Tuple[Lots, int]:
    """The price of a lot of each contract in units of the smallest decimal, and the number of decimals."""
    if cost is None:
        return (1,) * len(contracts), 0
    prices: List[Decimal] = []
    for contract in contracts:
        price = cost.get(contract)
        if price is None:
            raise ValueError(f"cost has no price of {contract}")
        if not isinstance(price, (int, Decimal)):
            raise TypeError(f"the price of {contract} is of type {type(price).__name__}; give an int or a Decimal")
        prices.append(Decimal(price))
        if not prices[-1].is_finite() or prices[-1] < 0:
            raise ValueError(f"the price of {contract} is {price}, and must not be negative")
    decimals = max([0, *(-int(price.as_tuple().exponent) for price in prices)])
    return tuple(int(Decimal(f"{price:f}E{decimals}")) for price in prices), decimals


# --- Search ---


class Search:
    """The orders that were evaluated, and the search for the cheapest one that meets the target."""

    def __init__(
        self, desk: "Desk", whole: AccountExplanation, of: str, target: int, problem: Problem, limits: Tuple[int, float],
        deadline: Deadline,
    ) -> None:
        self._desk, self._account, self._of, self._deadline = desk, whole.account, of, deadline
        self.problem, self.target = problem, target
        self._tries, self._ends = limits[0], time.monotonic() + limits[1]
        self._looks = 0  # at lots that were not all evaluated
        self.focus: Sequence[int] = ()
        self.nothing: Lots = (0,) * len(problem.most)
        self.after: Dict[Lots, int] = {self.nothing: int(amount_of(whole, of))}

    def evaluate(self, all_lots: Iterable[Lots]) -> List[Lots]:
        """Evaluates lots that were not evaluated. Returns all of them."""
        asked = list(dict.fromkeys(all_lots))
        new = [lots for lots in asked if lots not in self.after]
        for begin in range(0, len(new), CHUNK):
            part = new[begin : begin + CHUNK]
            tried = self._desk._wait_for(_questions.all_tried((self._account, self.problem.legs(lots)) for lots in part), self._deadline)
            for lots, line in zip(part, (line for line in tried.text.split("\n") if line.startswith("ORDER,"))):
                after = fields_of(line)[1][AFTER[self._of]]
                if after is None:
                    raise unreadable(line)
                self.after[lots] = int(after)
        return asked

    def rank(self, lots: Lots) -> Tuple[int, int, int]:
        """By which lots are better that meet the target: cost, number, and amount afterwards."""
        return (*self.problem.cost(lots), self.after[lots])

    def cheapest(self, all_lots: Iterable[Lots]) -> Optional[Lots]:
        """The best of these lots that meet the target."""
        met = [lots for lots in self.evaluate(all_lots) if self.after[lots] <= self.target]
        return min(met, key=self.rank) if met else None

    def lowest(self) -> Lots:
        """The lots with the lowest amount afterwards of all that were evaluated."""
        return min(self.after, key=lambda lots: (self.after[lots], self.problem.cost(lots)))

    def first(self, ordered: Sequence[Lots]) -> Optional[Lots]:
        """The best of these lots, which are ordered by cost. Those after it are not evaluated."""
        for begin in range(0, len(ordered), CHUNK):
            found = self.cheapest(ordered[begin : begin + CHUNK])
            if found is not None:
                same = [lots for lots in ordered[begin + CHUNK :] if self.problem.cost(lots) == self.problem.cost(found)]
                return self.cheapest([found, *same])
        return None

    def answer(self, whole: AccountExplanation, lots: Lots, is_optimal: bool, order: Optional[TriedOrder]) -> CheapestClose:
        """The answer that closes these lots."""
        problem, amount = self.problem, type(whole.total)
        legs = tuple(
            ClosingLeg(
                held.contract, held.commodity, held.quantity, -count if held.quantity > 0 else count, problem.price(price),
                problem.price(price * count),
            )
            for held, price, count in zip(problem.held, problem.prices, lots) if count
        )
        before, after = self.after[self.nothing], self.after[lots]
        cost, count = problem.cost(lots)
        return CheapestClose(
            whole.account, whole.set, self._of, amount(self.target), after <= self.target, is_optimal, amount(before), amount(after), count,
            problem.price(cost), len(self.after) - 1, legs, order, {held.contract: held.quantity for it in whole for held in it.held},
        )

    def left(self) -> int:
        """How many orders a search may evaluate yet."""
        return max(self._tries - len(self.after), 0) if time.monotonic() < self._ends else 0

    # --- Steps ---

    def more(self, lots: Lots, without: Optional[int]) -> Iterator[Lots]:
        """Lots with more of one contract, and not of the one at `without`: 1, 2, 4 and so on, and all."""
        for at in self.focus:
            for count in sizes(self.problem.most[at] - lots[at]) if at != without else ():
                yield (*lots[:at], lots[at] + count, *lots[at + 1 :])

    def pairs(self, lots: Lots, without: Optional[int]) -> Iterator[Lots]:
        """Lots with more of two contracts."""
        for one, other in combinations(self.more(lots, without), 2):
            found = tuple(max(both) for both in zip(one, other))
            if found not in (one, other):
                yield found

    def fewer(self, lots: Lots, size: int) -> Iterator[Lots]:
        """Lots with fewer of one contract, or with so many of a cheaper one in their place."""
        prices, most = self.problem.prices, self.problem.most
        for at, count in enumerate(lots):
            if count:
                moved = min(size, count)
                less = (*lots[:at], count - moved, *lots[at + 1 :])
                yield less
                for to, price in enumerate(prices):
                    if price < prices[at] and less[to] + moved <= most[to]:
                        yield (*less[:to], less[to] + moved, *less[to + 1 :])

    def around(self, lots: Lots, moves: int, size: int) -> Iterator[Lots]:
        """All lots that differ by so many moves of up to `size` lots of one contract, and cost less."""
        cost, most, prices = self.problem.cost(lots), self.problem.most, [self.problem.prices[at] for at in self.focus]
        for shift in shifts(len(self.focus), moves):
            self._looks += 1
            if sum(map(mul, shift, prices)) <= 0:
                found = list(lots)
                for at, way in zip(self.focus, shift):
                    found[at] = min(max(found[at] + way * size, 0), most[at])
                if self.problem.cost(tuple(found)) < cost:
                    yield tuple(found)

    # --- Searches ---

    def decided(self) -> Tuple[bool, Lots]:
        """The lots of the answer, and whether all that could be better were evaluated."""
        if self.after[self.nothing] <= self.target:
            return True, self.nothing
        everything = self.problem.combinations()
        if everything is not None:
            found = self.first(everything)
            return True, self.lowest() if found is None else found
        best = self.started()
        if best is None:
            return False, self.lowest()
        cheaper = self.problem.combinations(self.problem.cost(best))
        if cheaper is None:
            best = self.widened(best)
            cheaper = self.problem.combinations(self.problem.cost(best))
        return cheaper is not None, self.first(cheaper or []) or best

    def started(self) -> Optional[Lots]:
        """Cheap lots that meet the target: from few lots upward, and from all lots downward. None if none do."""
        self.choose()
        everything = tuple(most if at in self.focus else 0 for at, most in enumerate(self.problem.most))
        best = self.best([self.greedy(self.nothing), everything])
        return None if best is None else self.repaired(best)

    def repaired(self, best: Lots) -> Lots:
        """Takes back lots of one contract and closes others in their place, as long as that is cheaper."""
        better: Optional[Lots] = best
        while better is not None:
            best = better
            better = next((lots for lots in self.repairs(best) if self.rank(lots) < self.rank(best)), None)
        return best

    def repairs(self, lots: Lots) -> Iterator[Lots]:
        """Lots that meet the target and have fewer lots of one contract."""
        for at in sorted(self.focus, key=lambda at: -lots[at]):
            for count in sizes(lots[at]):
                if self.left():
                    less = (*lots[:at], lots[at] - count, *lots[at + 1 :])
                    self.evaluate([less])
                    found = self.best([self.greedy(less, at, self.problem.cost(lots))])
                    yield from [] if found is None else [found]

    def widened(self, best: Lots) -> Lots:
        """The best lots that several moves at once lead to, with more and more moves, as far as the limits allow."""
        for moves in range(2, WIDEST + 1):
            for size in sizes(max(best))[::-1]:
                while self.left() and self._looks + shift_count(len(self.focus), moves) <= LOOKS * self._tries:
                    better = self.cheapest(filter(self.problem.may_close, self.around(best, moves, size)))
                    if better is None:
                        break
                    best = self.improved(better)
        return best

    def choose(self) -> None:
        """Puts the contracts into `focus` whose closing lowers the amount most for its cost."""
        alone = [(*self.nothing[:at], most, *self.nothing[at + 1 :]) for at, most in enumerate(self.problem.most)]
        gains = [self.gain(self.nothing, lots) if any(lots) else 0 for lots in self.evaluate(alone)]
        order = sorted(range(len(alone)), key=lambda at: -gains[at])
        self.focus = [at for at in order if self.problem.most[at]][:MOST_LEGS]

    def gain(self, lots: Lots, other: Lots) -> float:
        """How much lower the amount is after other lots, which cost more, for their additional cost. (Only the search depends on it.)"""
        return (self.after[lots] - self.after[other]) / max(self.problem.cost(other)[0] - self.problem.cost(lots)[0], 1)

    def chosen(self, lots: Lots, lower: Sequence[Lots]) -> Lots:
        """The lots with the lowest amount of those whose gain is nearly the largest, so that few steps close many lots."""
        least = 0.9 * max(self.gain(lots, it) for it in lower)
        return min((it for it in lower if self.gain(lots, it) >= least), key=self.after.__getitem__)

    def best(self, all_lots: Iterable[Lots]) -> Optional[Lots]:
        """The best of these lots that meet the target, after improvements."""
        asked = self.evaluate(filter(self.problem.may_close, all_lots))
        found = [self.improved(lots) for lots in asked if self.after[lots] <= self.target]
        return min(found, key=self.rank) if found else None

    def greedy(self, lots: Lots, without: Optional[int] = None, below: Optional[Cost] = None) -> Lots:
        """Closes more of what lowers the amount most for its cost. Ends if the target is met, nothing helps, or it costs too much."""
        while self.after[lots] > self.target and self.left() and not (below and self.problem.cost(lots) >= below):
            for choices in (self.more(lots, without), islice(self.pairs(lots, without), self.left())):
                found = self.evaluate(filter(self.problem.may_close, choices))
                met = self.cheapest(found)
                if met is not None:
                    return met
                lower = [it for it in found if self.after[it] < self.after[lots]]
                if lower:
                    lots = self.chosen(lots, lower)
                    break
            else:
                break
        return lots

    def improved(self, lots: Lots) -> Lots:
        """Takes back and exchanges lots, at first many at once, as long as the target is met."""
        for size in sizes(max(lots, default=0))[::-1]:
            found: Optional[Lots] = lots
            while found is not None:
                lots = found
                found = self.cheapest(filter(self.problem.may_close, self.fewer(lots, size)))
        return lots


def shifts(count: int, moves: int) -> Iterator[Lots]:
    """All ways to move so many lots of `count` contracts up or down."""
    if count == 0:
        yield from [()] * (moves == 0)
        return
    for first in range(-moves, moves + 1):
        for others in shifts(count - 1, moves - abs(first)):
            yield (first, *others)


def shift_count(count: int, moves: int) -> int:
    """How many ways these are: `moved` of the contracts, each up or down, share the moves."""
    return sum(comb(count, moved) * comb(moves - 1, moved - 1) << moved for moved in range(1, moves + 1))


def sizes(most: int) -> List[int]:
    """1, 2, 4 and so on, and `most`."""
    return [1 << at for at in range(most.bit_length() - 1)] + [most] if most > 0 else []


# --- The answer ---


def asked(
    whole: AccountExplanation, target: int, of: str, chosen: Chosen, limits: Tuple[int, float]
) -> "Callable[[Desk, Deadline], CheapestClose]":
    """What asks a copy of the session for the cheapest order, as `Session.cheapest_close` says."""
    amount_of(whole, of)
    goal, problem = index(target), problem_of(whole, *chosen)

    def answer(copy: "Desk", deadline: Deadline) -> CheapestClose:
        search = Search(copy, whole, of, goal, problem, limits, deadline)
        is_optimal, lots = search.decided()
        order = None
        if any(lots):
            order = copy._wait_for(_questions.tried(whole.account, problem.legs(lots), _questions.NAME), deadline)
        return search.answer(whole, lots, is_optimal, order)

    return answer
