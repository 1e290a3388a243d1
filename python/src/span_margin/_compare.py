"""What differs between two explanations: accounts, commodities, their figures, positions and rates."""
from dataclasses import dataclass
from decimal import Context, Decimal, localcontext
from typing import Any, Callable, Dict, Iterable, Iterator, List, Mapping, Optional, Sequence, Tuple, Union

from span_margin._amounts import Amount
from span_margin._cached import cached
from span_margin._errors import CurrencyError
from span_margin._frames import Kinds
from span_margin._lines import CommodityMargin, Held, Inter, Line
from span_margin._results import AccountExplanation, CommodityExplanation, Explanation
from span_margin._answers import Answer, Make, Table, cells_of, names_of

EXACT = Context(prec=200)  # a number of the program has at most 40 digits before its point and 40 after it
WHEN = ("before", "after", "change")
TOTALS = ("total", "value", "due", "excess")  # the figures of a T line


@dataclass(frozen=True)
class Moved(Line):
    """A figure before and after, and after minus before. It is None in an explanation that does not have it, and counts as 0 there.

    Amounts are Amount or ExactAmount, other numbers int or Decimal. A word has no change.
    """

    name: str
    before: Any
    after: Any
    change: Any

    @property
    def is_same(self) -> bool:
        """Whether there is no change."""
        return bool(self.before == self.after if self.change is None else not self.change)


def moved(name: str, before: Any, after: Any) -> Moved:
    """The figure with its change."""
    if isinstance(before, str) or isinstance(after, str):
        return Moved(name, before, after, None)
    with localcontext(EXACT):
        change = (0 if after is None else after) - (0 if before is None else before)
    if isinstance(change, Decimal) and "." in format(change, "f"):
        change = type(change)(format(change, "f").rstrip("0").rstrip("."))
    return Moved(name, before, after, change)


@dataclass(frozen=True)
class Steps(Line):
    """The parts of a requirement, or the changes of these parts. Their sum is the requirement, or its change.

    credit    is negative, since it is subtracted
    minimum   what the short option minimum adds: the amount that the other parts lack, or 0
    """

    scan_risk: Amount
    calendar_spreads: Amount
    delivery: Amount
    credit: Amount
    minimum: Amount

    def __iter__(self) -> Iterator[Amount]:
        return iter(cells_of(self, STEPS))


STEPS = tuple(names_of(Steps))


def parts_of(margin: Optional[CommodityMargin]) -> List[Amount]:
    """The parts of a requirement; zeros if there is none."""
    if margin is None:
        return [Amount(0)] * len(STEPS)
    parts = [margin.scan_risk, margin.intracommodity_charge, margin.delivery_charge, -margin.credit]
    return [*parts, margin.requirement - sum(parts)]


@dataclass(frozen=True)
class PositionChange(Line):
    """A position that was opened, closed or changed, or whose option value changed.

    what    opened, closed, changed, or value: only the value changed
    """

    account: str
    commodity: str
    contract: str
    type: str
    month: str
    what: str
    before: Optional[int]
    after: Optional[int]
    change: int
    value_before: Optional[Amount]
    value_after: Optional[Amount]
    value_change: Optional[Amount]


Spread = Tuple[int, str]  # a spread between commodities: its priority and its long side


# --- A commodity ---


@dataclass(frozen=True)
class CommodityChange(Line):
    """A commodity of an account in two explanations.

    before, after     its explanations; None if the account holds none of it
    requirement       what the account must post for it
    steps             the changes of the parts of the requirement, which add up to its change
    arrays            what the sixteen sums show about risk arrays: `same` if no sum changed; `changed` if positions are the same and sums
                      changed; `positions` if the parameter set is the same, so that only positions changed sums; `unknown` otherwise
    rates             rates and deltas of the parameter set that changed, as far as both explanations show them
    figures           the other figures that changed
    positions         the positions that were opened, closed or changed, and `unchanged`, how many were not
    sums              the sums of the sixteen scenarios
    """

    account: str
    commodity: str
    before: Optional[CommodityExplanation]
    after: Optional[CommodityExplanation]
    spreads: Mapping[Spread, Tuple[str, ...]]  # the commodities of each spread that formed before or after

    def _both(self) -> Tuple[Optional[CommodityExplanation], Optional[CommodityExplanation]]:
        return self.before, self.after

    @cached
    def requirement(self) -> Moved:
        return moved("requirement", *(it and it.margin.requirement for it in self._both()))

    @cached
    def steps(self) -> Steps:
        before, after = (parts_of(it.margin if it else None) for it in self._both())
        return Steps(*(new - old for old, new in zip(before, after)))

    @property
    def is_same(self) -> bool:
        """Whether all lines are the same, apart from the id of the set."""
        return bool(without_set(self.before) == without_set(self.after))

    @cached
    def sums(self) -> Tuple[Moved, ...]:
        before, after = (it.sums.sums if it else (None,) * 16 for it in self._both())
        return tuple(moved(str(number), *both) for number, both in enumerate(zip(before, after), 1))

    @property
    def arrays(self) -> str:
        if self.before is None or self.after is None:
            return "unknown"
        if self.before.sums.sums == self.after.sums.sums:
            return "same"
        if quantities(self.before) == quantities(self.after):
            return "changed"
        return "positions" if self.before.set == self.after.set else "unknown"

    @cached
    def rates(self) -> Tuple[Moved, ...]:
        if self.before is None or self.after is None:
            return ()
        before, after = rates_of(self.before, self.spreads), rates_of(self.after, self.spreads)
        before.update(deltas_of(self.before, self.after))
        after.update(deltas_of(self.after, self.before))
        return differing({name: before[name] for name in before if name in after}, {name: after[name] for name in after if name in before})

    @cached
    def figures(self) -> Tuple[Moved, ...]:
        before, after = (figures_of(it, self.spreads) if it else {} for it in self._both())
        return differing(before, after)

    @cached
    def positions(self) -> Tuple[PositionChange, ...]:
        before, after = self._held()
        found = (position_change(before.get(contract), after.get(contract)) for contract in {**before, **after})
        return tuple(it for it in found if it)

    @property
    def unchanged(self) -> int:
        before, after = self._held()
        return len({**before, **after}) - len(self.positions)

    def _held(self) -> Tuple[Dict[str, Held], Dict[str, Held]]:
        before, after = ({held.contract: held for held in it.held} if it else {} for it in self._both())
        return before, after

    def to_dict(self) -> Dict[str, Any]:
        """The changes by their names. The two explanations have their own `to_dict`."""
        lists = {name: [it.to_dict() for it in getattr(self, name)] for name in ("rates", "figures", "positions")}
        requirement, steps = self.requirement.to_dict(), self.steps.to_dict()
        return {"commodity": self.commodity, "requirement": requirement, "steps": steps, "arrays": self.arrays, **lists}


def without_set(value: Any) -> Any:
    """An object of lines as data, without the id of the set."""
    if isinstance(value, Line):
        return {name: without_set(getattr(value, name)) for name in value.__dataclass_fields__ if name != "set"}
    return [without_set(it) for it in value] if isinstance(value, tuple) else value


def differing(before: Mapping[str, Any], after: Mapping[str, Any]) -> Tuple[Moved, ...]:
    """The figures that are not the same before and after."""
    all_moved = (moved(name, before.get(name), after.get(name)) for name in {**before, **after})
    return tuple(it for it in all_moved if not it.is_same)


def quantities(of: CommodityExplanation, month: Optional[str] = None) -> Dict[str, int]:
    """The positions of a commodity, or of one month of it."""
    return {held.contract: held.quantity for held in of.held if month in (None, held.month)}


def deltas_of(of: CommodityExplanation, other: CommodityExplanation) -> Dict[str, Decimal]:
    """The deltas of months in which the other has the same positions. If such a delta changed, one of the parameter set changed."""
    same = (it for it in of.months if quantities(of, it.month) == quantities(other, it.month))
    return {f"month {it.month}: delta, same positions": it.delta for it in same}


def credit_name(commodity: str, inter: Inter, spreads: Mapping[Spread, Sequence[str]]) -> str:
    """A spread between commodities, by its priority and the other commodities."""
    others = [name for name in spreads[inter.priority, inter.long_side] if name != commodity]
    return " ".join([f"credit {inter.priority}", *(["with"] if others else []), *others])


def rates_of(of: CommodityExplanation, spreads: Mapping[Spread, Sequence[str]]) -> Dict[str, Any]:
    """The figures of the parameter set that lines show."""
    found: Dict[str, Any] = {}
    for intra in of.intras:
        found[f"calendar spread {intra.priority}: rate"] = intra.rate
    for spot in of.spots:
        found[f"delivery {spot.month}: spread rate"] = spot.spread_rate
        found[f"delivery {spot.month}: outright rate"] = spot.outright_rate
    for inter in of.inters:
        found[f"{credit_name(of.commodity, inter, spreads)}: basis points"] = inter.basis_points
    found["short options: rate"] = of.short.rate
    found["short options: counted by"] = of.short.method
    return found


def figures_of(of: CommodityExplanation, spreads: Mapping[Spread, Sequence[str]]) -> Dict[str, Any]:
    """Figures that depend on positions and parameter set, except the sums and the parts of the requirement."""
    found: Dict[str, Any] = {"price risk": of.scan.price_risk}
    for month in of.months:
        found[f"month {month.month}: delta"] = month.delta
        found[f"month {month.month}: left by spreads"] = month.left
    for intra in of.intras:
        found[f"calendar spread {intra.priority}, {intra.long_side} long: spreads"] = intra.spreads
        found[f"calendar spread {intra.priority}, {intra.long_side} long: charge"] = intra.charge
    for spot in of.spots:
        found[f"delivery {spot.month}: used by spreads"] = spot.used
        found[f"delivery {spot.month}: charge"] = spot.charge
    for inter in of.inters:
        name = f"{credit_name(of.commodity, inter, spreads)}, {inter.long_side} long"
        found[f"{name}: spreads"] = inter.spreads
        found[f"{name}: delta used"] = inter.delta_used
    found["net delta"], found["weight of credits"] = of.credit.net_delta, of.credit.weight
    found["short calls"], found["short puts"] = of.short.short_calls, of.short.short_puts
    found["short option minimum"] = of.margin.minimum
    return found


def position_change(before: Optional[Held], after: Optional[Held]) -> Optional[PositionChange]:
    """The change of a position, or None if neither the position nor its value changed."""
    line = after or before
    quantity = moved("", before and before.quantity, after and after.quantity)
    value = moved("", before and before.value, after and after.value)
    has_values = all(held is None or held.value is not None for held in (before, after))
    if line is None or quantity.is_same and (value.is_same or not has_values):
        return None
    what = "opened" if before is None else "closed" if after is None else "value" if quantity.is_same else "changed"
    return PositionChange(
        line.account, line.commodity, line.contract, line.type, line.month, what, quantity.before, quantity.after, quantity.change,
        *((value.before, value.after, value.change) if has_values else (None, None, None)),
    )


# --- An account ---


@dataclass(frozen=True)
class AccountChange(Line):
    """An account in two explanations.

    before, after   its explanations; None if an explanation does not have the account
    figures         the figures of the T line; not those that only one of two versions of sets has
    steps           the sums of the steps of its commodities, which add up to the change of the total
    commodities     the change of each commodity
    """

    account: str
    before: Optional[AccountExplanation]
    after: Optional[AccountExplanation]

    def _both(self) -> Tuple[Optional[AccountExplanation], Optional[AccountExplanation]]:
        return self.before, self.after

    @cached
    def figures(self) -> Dict[str, Moved]:
        found: Dict[str, Moved] = {}
        for name in TOTALS:
            both = [None if it is None else getattr(it, name) for it in self._both()]
            if all(it is None or figure is not None for it, figure in zip(self._both(), both)):
                found[name] = moved(name, *both)
        return found

    @property
    def total(self) -> Moved:
        """The total before and after."""
        return self.figures["total"]

    @cached
    def _margins(self) -> List[Tuple[Optional[CommodityMargin], Optional[CommodityMargin]]]:
        """The R lines of each commodity."""
        before, after = (dict(it.margin.items()) if it else {} for it in self._both())
        return [(before.get(name), after.get(name)) for name in {**before, **after}]

    @cached
    def steps(self) -> Steps:
        found = parts_of(None)
        for before, after in self._margins:
            found = [step + new - old for step, old, new in zip(found, parts_of(before), parts_of(after))]
        return Steps(*found)

    @cached
    def is_changed(self) -> bool:
        """Whether a requirement or a figure of the T line changes."""
        if self.before is None or self.after is None:
            return bool(self._margins)
        requirements = (tuple(it and it.requirement for it in both) for both in self._margins)
        return any(not it.is_same for it in self.figures.values()) or any((old or 0) != (new or 0) for old, new in requirements)

    @property
    def presence(self) -> str:
        """`only before`, `only after`, `no change`, or an empty text."""
        if self.before is None or self.after is None:
            return "only after" if self.before is None else "only before"
        return "" if self.is_changed else "no change"

    @cached
    def commodities(self) -> Tuple[CommodityChange, ...]:
        before, after = (dict(it.items()) if it else {} for it in self._both())
        spreads: Dict[Spread, Tuple[str, ...]] = {}
        for of in (*before.values(), *after.values()):
            for inter in of.inters:
                spread = inter.priority, inter.long_side
                spreads[spread] = tuple(dict.fromkeys([*spreads.get(spread, ()), of.commodity]))
        names = {**before, **after}
        return tuple(CommodityChange(self.account, name, before.get(name), after.get(name), spreads) for name in names)

    def __getitem__(self, commodity: str) -> CommodityChange:
        """The change of a commodity. Raises KeyError if the account holds none of it in both explanations."""
        for change in self.commodities:
            if change.commodity == commodity:
                return change
        raise KeyError(commodity)

    def to_dict(self) -> Dict[str, Any]:
        """The changes by their names."""
        figures = {name: it.to_dict() for name, it in self.figures.items()}
        return {
            "account": self.account, "presence": self.presence, **figures, "steps": self.steps.to_dict(),
            "commodities": [it.to_dict() for it in self.commodities],
        }


# --- All accounts ---


@dataclass(frozen=True)
class Comparison(Answer):
    """What differs between two explanations. All steps add up to the change of the total.

    before, after   the explanations
    accounts        the change of each account, in the order of the explanations
    """

    before: Explanation
    after: Explanation

    @cached
    def accounts(self) -> Tuple[AccountChange, ...]:
        before, after = dict(self.before.items()), dict(self.after.items())
        return tuple(AccountChange(name, before.get(name), after.get(name)) for name in {**before, **after})

    def __getitem__(self, account: str) -> AccountChange:
        """The change of an account. Raises KeyError if no explanation has it."""
        return self._by_name[account]

    @cached
    def _by_name(self) -> Dict[str, AccountChange]:
        return {it.account: it for it in self.accounts}

    @cached
    def measure(self) -> str:
        """The figure by which changes are compared: `due` if both explanations have it, and otherwise `total`."""
        return "due" if all(len(it) and it[0].due is not None for it in (self.before, self.after)) else "total"

    @property
    def ranked(self) -> List[AccountChange]:
        """The accounts, the largest change first."""
        return sorted(
            self.accounts, key=lambda it: (-abs(it.figures[self.measure].change), -abs(it.total.change), not it.is_changed)
        )

    @cached
    def total(self) -> Moved:
        """The sum of the totals of all accounts."""
        return moved("total", *(sum(account.total for account in it) for it in (self.before, self.after)))

    @cached
    def due(self) -> Optional[Moved]:
        """The sum of what all accounts owe; None if an explanation has no dues."""
        if self.measure == "total":
            return None
        return moved("due", *(sum(account.due or 0 for account in it) for it in (self.before, self.after)))

    @property
    def currency(self) -> Optional[str]:
        """The currency of the amounts. None if the currency of an explanation is unknown."""
        return self.before.currency if self.before.currency == self.after.currency else None

    def to_dict(self) -> Dict[str, Any]:
        """The changes by their names."""
        return {
            "set_before": self.before.set, "set_after": self.after.set, "measure": self.measure, "total": self.total.to_dict(),
            "due": self.due and self.due.to_dict(), "accounts": [it.to_dict() for it in self.accounts], "currency": self.currency,
        }

    def _tables(self) -> Dict[str, Make]:
        """Accounts and commodities; and what changed of positions, rates and other figures; and the sums of commodities that changed."""
        return {
            "accounts": self._accounts_table,
            "commodities": lambda: self._table_of(
                [*_when("requirement"), *STEPS], [Amount] * 8, lambda it: [(*cells_of(it.requirement, WHEN), *it.steps)]
            ),
            "positions": lambda: self._table_of(
                POSITION, [str] * 4 + [int] * 3 + [Amount] * 3, lambda it: [cells_of(each, POSITION) for each in it.positions]
            ),
            "rates": lambda: self._table_of(MOVED, [str] + [object] * 3, lambda it: [cells_of(each, MOVED) for each in it.rates]),
            "figures": lambda: self._table_of(MOVED, [str] + [object] * 3, lambda it: [cells_of(each, MOVED) for each in it.figures]),
            "sums": lambda: self._table_of(
                ["scenario", *WHEN], [str] + [Amount] * 3, lambda it: () if it.is_same else [cells_of(each, MOVED) for each in it.sums]
            ),
        }

    def _accounts_table(self) -> Table:
        names = ["account", "set_before", "set_after", *_when("total"), *_when("due"), *STEPS, "presence"]
        rows: List[Sequence[Any]] = [
            (
                it.account, self.before.set, self.after.set, *cells_of(it.total, WHEN),
                *(cells_of(it.figures["due"], WHEN) if "due" in it.figures else (None,) * 3), *it.steps, it.presence,
            )
            for it in self.accounts
        ]
        return Table(names, [str] * 3 + [Amount] * 11 + [str], rows)

    def _table_of(self, names: Sequence[str], kinds: Kinds, rows_of: Callable[[CommodityChange], Iterable[Sequence[Any]]]) -> Table:
        """A table with rows of each commodity of each account."""
        commodities = (it for account in self.accounts for it in account.commodities)
        rows: List[Sequence[Any]] = [(it.account, it.commodity, *row) for it in commodities for row in rows_of(it)]
        return Table(["account", "commodity", *names], [str, str, *kinds], rows)


MOVED = tuple(names_of(Moved))
POSITION = tuple(names_of(PositionChange)[2:])


def _when(name: str) -> List[str]:
    return [f"{name}_{when}" for when in WHEN]


def compare(
    before: Union[Explanation, AccountExplanation], after: Union[Explanation, AccountExplanation]
) -> Comparison:
    """What differs between two explanations, of all accounts or of one, such as yesterday's and today's.

    Raises CurrencyError if they are in two currencies. If the currency of one is unknown, the currency of the answer is unknown, too.
    """
    currencies = before.currency, after.currency
    if None not in currencies and before.currency != after.currency:
        raise CurrencyError("an explanation in {} and one in {} cannot be compared".format(*currencies))
    return Comparison(*(it if isinstance(it, Explanation) else Explanation(bytes(it), it._money) for it in (before, after)))
