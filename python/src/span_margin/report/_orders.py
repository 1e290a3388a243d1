"""Orders, as span whatif printed them, and whether they were evaluated on the positions of the explanation."""
from __future__ import annotations

from dataclasses import dataclass
from typing import List, NamedTuple, NoReturn, Optional, Tuple

from span_margin._lines import Fields
from span_margin.report._explanation import Explanation, Rejected, fields_at, lines_of


class Change(NamedTuple):
    before: str
    after: str
    change: str


class OrderLine(NamedTuple):
    before: str
    after: str
    change: str
    due_before: Optional[str]
    due_after: Optional[str]
    due_change: Optional[str]


@dataclass
class Order:
    """An order that was evaluated, with the change of each commodity."""

    name: str
    account: str
    line: OrderLine
    changes: List[Tuple[str, Change]]

    def size(self) -> int:
        """What the order costs: the change of the amount due, or else of the total. It is negative if the order frees margin."""
        return int(self.line.change if self.line.due_change is None else self.line.due_change)


class Positions:
    """What accounts owe before any order, as the explanation of the page says."""

    def __init__(self, explanation: Explanation) -> None:
        self.totals = {account.name: account.total for account in explanation.accounts}
        self.requirements = {
            (account.name, commodity.name): commodity.row.requirement
            for account in explanation.accounts for commodity in account.commodities
        }
        self.complete = len(explanation.accounts) > 1  # an explanation of one account may come from a file with more accounts

    def check(self, order: Order) -> None:
        """Raises Rejected for an order that was evaluated on other positions."""
        if order.account not in self.totals:
            if self.complete and order.line.before != "0":
                self.refuse(order, "", order.line.before, "is not in the explanation")
            return
        total = self.totals[order.account]
        if order.line.before != total.total:
            self.refuse(order, "", order.line.before, f"has {total.total} here")
        if order.line.due_before != total.due:
            self.refuse(order, " due", order.line.due_before, f"has {total.due} due here")
        for name, change in order.changes:
            here = self.requirements.get((order.account, name), "0")
            if change.before != here:
                self.refuse(order, f" in {name}", change.before, f"has {here} in {name} here")

    def refuse(self, order: Order, what: str, before: Optional[str], here: str) -> NoReturn:
        raise Rejected(
            f"the orders do not match the explanation: order {order.name} was evaluated on other positions, since its account "
            f"{order.account} had {before}{what} before it and {here}")


def read_orders(data: bytes, explanation: Explanation) -> List[Order]:
    """The orders in what `span whatif` printed for the set and the positions of the explanation. An empty file has no orders."""
    orders: List[Order] = []
    changes: List[Tuple[str, Change]] = []
    of: Optional[Fields] = None  # the name and the account of an order whose ORDER line has not come
    positions = Positions(explanation)
    for number, line in enumerate(lines_of(data, "file of orders") if data else [], 1):
        word, fields = fields_at(number, line, ("CHANGE", "ORDER"), "file of orders")
        if fields[2] != explanation.set_id:
            raise Rejected(
                f"the orders do not match the explanation: line {number} has set {fields[2]}, and the explanation has {explanation.set_id}")
        if of is not None and of != fields[:2]:
            raise Rejected(f"line {number} of the file of orders is for order {fields[0]}, but {of[0]} has no ORDER line")
        of = fields[:2]
        if word == "CHANGE":
            changes.append((fields[3], Change._make(fields[4:])))
            continue
        line_of = OrderLine._make(fields[3:])
        if (line_of.due_change is not None) != explanation.has_values():
            raise Rejected(f"the orders do not match the explanation: line {number} has another version")
        orders.append(Order(fields[0], fields[1], line_of, changes))
        positions.check(orders[-1])
        changes, of = [], None
    if of is not None:
        raise Rejected(f"the file of orders is cut off: order {of[0]} has no ORDER line")
    return orders
