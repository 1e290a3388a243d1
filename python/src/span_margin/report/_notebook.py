"""Results as pieces of HTML for notebooks, which are drawn by the functions that draw pages."""
from __future__ import annotations

from functools import lru_cache
from typing import Any, Callable, List, Sequence, Tuple

from span_margin._amounts import Money
from span_margin._answers import cells_of, names_of
from span_margin._attribution import Attribution
from span_margin._closing import CheapestClose
from span_margin._compare import AccountChange, Comparison, moved
from span_margin._lines import AccountTotal, CommodityMargin, Printed, SetCounts
from span_margin._results import AccountExplanation, AccountMargin, Explanation, Faults, Positions, Roll, Statement, TriedOrder, TriedOrders
from span_margin.report._changes import STEPS, change_cells, digits_of, margin_cell
from span_margin.report._details import TOTALS, scenarios, statement, totals, two_columns, waterfall
from span_margin.report._document import data
from span_margin.report._explanation import Row, Total, read_explanation
from span_margin.report._lists import CHANGES, DUES, orders_table
from span_margin.report._markup import Unit, cell, cells, facts, figure, heads, table, text, word_cell
from span_margin.report._orders import Change, Order, OrderLine
from span_margin.report._scenarios import axis
from span_margin.report._shares import contributions

MOST = 60  # rows of a table
UNKNOWN = Unit("minor units of an unknown currency")
FIGURES = names_of(CommodityMargin)[3:]  # of an R line


# (The rules of change.css that tables of changes need here.)
CHANGED = 'td.absent::after{content:"\\2013";color:var(--soft)}.by-step tr.sum>*{font-weight:600}'


@lru_cache(None)
def style() -> str:
    """The style of pages inside of an element of the class span-margin. Browsers from 2023 on know nested rules."""
    rules = (data("page.css") + data("shares.css") + CHANGED).replace(":root{", "&{").replace("\nbody{", "\n&{")
    # (Rules for `text` do not reach the labels of prices, which `use` copies, but the properties of `use` do.)
    own = (
        "&{max-width:none;margin:0;padding:.8rem 1rem;background:var(--card)}h3{margin-top:1.2rem}"
        "use{fill:var(--soft);font-size:12.5px;text-anchor:middle}")
    return f"<style>.span-margin{{{rules}{own}}}</style>"


def framed(body: str) -> str:
    return f'<div class="span-margin">{style()}{body}</div>'


def piece(body: str, *units: Unit) -> str:
    """A piece whose amounts are in these units."""
    names = " and ".join(dict.fromkeys(text(unit.name) for unit in units))
    return framed(f'{body}<p class="note">Amounts are in {names}.</p>')


def unit_of(amount: Any) -> Unit:
    """The major unit of the currency of an amount or of a class of amounts, or the minor unit if the currency is unknown."""
    return UNKNOWN if amount.currency is None else Unit(amount.currency, amount.digits or 0)


def left_out(count: int, what: str) -> str:
    """How many rows more there are."""
    return f'<p class="note">{count - MOST} more {what} are not shown.</p>' if count > MOST else ""


def total_of(line: AccountTotal) -> Total:
    value, due, excess = (None if amount is None else str(amount) for amount in (line.value, line.due, line.excess))
    return Total(str(line.total), value, due, excess)


def of_accounts(accounts: Sequence[AccountTotal]) -> str:
    """The totals of the first accounts, and how many accounts more there are."""
    unit = unit_of(accounts[0].total) if accounts else UNKNOWN
    shown = [(each.account, totals(total_of(each), unit)) for each in accounts[:MOST]]
    head = heads("Account", *(f">{name}" for name in TOTALS[: len(shown[0][1]) if shown else 1]))
    rows = (f'<tr><th scope="row">{text(name)}</th>{cells(figures, TOTALS)}</tr>' for name, figures in shown)
    return piece(table("", head, rows) + left_out(len(accounts), "accounts"), unit)


def of_margin(margin: AccountMargin) -> str:
    """The R lines of an account, and its total."""
    unit = unit_of(margin.total)
    lines = ((text(line.commodity), Row(*map(str, cells_of(line, FIGURES)))) for line in margin)
    return piece(f"<h4>{text(margin.account)}</h4>{statement(lines, str(margin.total), unit)}", unit)


def of_account(explanation: AccountExplanation) -> str:
    """The R lines of an account, and for each commodity its steps and scenarios."""
    unit = unit_of(explanation.total)
    (account,) = read_explanation(bytes(explanation)).accounts
    lines = ((text(each.name), each.row) for each in account.commodities)
    parts = (
        f"<h3>{text(each.name)}</h3>{two_columns([waterfall(each, unit)], [scenarios(each, unit)])}" for each in account.commodities
    )
    head = f"{axis()}<h4>{text(account.name)}</h4>{statement(lines, account.total.total, unit)}"
    return piece("".join((head, *parts)), unit)


def of_roll(roll: Roll) -> str:
    """The totals of the first accounts under both sets, and the changes if both sets have the same currency."""
    units = [unit_of(it._money.amount) for it in roll]
    same = roll.today.currency == roll.next.currency

    def row(today: AccountMargin, following: AccountMargin) -> str:
        if same:
            figures = change_cells(moved("", today.total, following.total), units[0], True)
        else:
            both = zip((today, following), units, CHANGES)
            figures = "".join(cell(unit.amount(str(it.total)), "f", name) for it, unit, name in both)
        return f'<tr><th scope="row">{text(today.account)}</th>{figures}</tr>'

    names = [text(f"set {it.set}") for it in roll]
    head = heads("Account", *(f">{name}" for name in (*names, *CHANGES[2:] * same)))
    rows = (row(*both) for both in zip(roll.today.accounts[:MOST], roll.next))
    return piece(table("", head, rows) + left_out(len(roll.today), "accounts"), *units)


def order_of(tried: TriedOrder) -> Order:
    """An order as pages have it."""
    digits: List[Any] = [None if amount is None else str(amount) for amount in cells_of(tried, OrderLine._fields)]
    changes = [(it.commodity, Change(*map(str, cells_of(it, Change._fields)))) for it in tried]
    return Order(tried.order, tried.account, OrderLine(*digits), changes)


def of_orders(tried: Sequence[TriedOrder]) -> str:
    """The first orders, with the requirements that each changes."""
    if not tried:
        return framed('<p class="none">There are no orders.</p>')
    unit = unit_of(tried[0].before)
    shown = orders_table([order_of(it) for it in tried[:MOST]], frozenset(), unit)
    return piece(shown + left_out(len(tried), "orders"), unit)


FOUND = {
    (True, True): "The order reaches the target, and none costs less.",
    (True, False): "The order reaches the target. A cheaper one may exist.",
    (False, True): "No order reaches the target. This one has the lowest amount after it.",
    (False, False): "No order that was found reaches the target. This one has the lowest amount after it of those that were evaluated.",
}


def of_close(close: CheapestClose) -> str:
    """What an order that closes positions does, and its legs."""
    unit = unit_of(close.before)
    amounts = (("before", close.before), ("target", close.target), ("after", close.after))
    said = facts([
        *((f"{close.of} {name}" if name != "target" else name, figure(unit.amount(str(amount)))) for name, amount in amounts),
        ("lots", figure(str(close.lots))), ("cost", figure(digits_of(close.cost))),
    ])
    rows = (
        f'<tr><th scope="row">{text(leg.contract)}</th>{word_cell(leg.commodity)}'
        f"{cells([digits_of(it) for it in (leg.held, leg.quantity, leg.price, leg.cost)], LEG)}</tr>"
        for leg in close.legs
    )
    legs = table("", heads("Contract", "commodity", *(f">{name}" for name in LEG)), rows) if close.legs else ""
    return piece(f'<h4>{text(close.account)}</h4>{said}<p class="note">{FOUND[close.is_met, close.is_optimal]}</p>{legs}', unit)


LEG = ("held", "trade", "price", "cost")


def of_comparison(comparison: Comparison) -> str:
    """The accounts with the largest changes, with the parts of each change. The last row has the sums of all accounts."""
    unit = unit_of(Money(comparison.currency, comparison.after._money.digits).amount)
    has_dues, ranked = comparison.measure == "due", comparison.ranked

    def row(pair: AccountChange) -> str:
        dues = change_cells(pair.figures["due"], unit, True, "due") if has_dues else ""
        parts = "".join(margin_cell(step, unit, name) for step, name in zip(pair.steps, STEPS))
        figures = f"{change_cells(pair.total, unit, True)}{dues}{parts}"
        return f'<tr><th scope="row">{text(pair.account)}</th>{figures}{word_cell(pair.presence)}</tr>'

    names = (*CHANGES, *(DUES if has_dues else ()), *STEPS)
    due = change_cells(comparison.due, unit, True, "due") if comparison.due else ""
    sums = f'<tr class="sum"><th scope="row">All</th>{change_cells(comparison.total, unit, True)}{due}<td colspan="6"></td></tr>'
    head = heads("Account", *(f">{name}" for name in names), "")
    return piece(table("by-step", head, [*map(row, ranked[:MOST]), sums]) + left_out(len(ranked), "accounts"), unit)


def of_lines(result: Printed) -> str:
    """The first lines of a result without amounts, as a table."""
    columns, kinds, rows = result._table(result._word(None))
    found = list(rows)
    head = heads(*(f"{'' if kind is str else '>'}{text(name)}" for name, kind in zip(columns, kinds)))

    def shown(value: Any) -> str:
        return word_cell("" if value is None else value) if isinstance(value, (str, type(None))) else cell(digits_of(value))

    body = (f'<tr>{"".join(map(shown, row))}</tr>' for row in found[:MOST])
    return framed((table("", head, body) if found else '<p class="none">There are none.</p>') + left_out(len(found), "lines"))


def of_attribution(shares: Attribution) -> str:
    unit = unit_of(shares.amount)
    return piece(f"<h4>{text(shares.account)}</h4>{contributions(shares, unit)}", unit)


def of_explanation(explanation: Explanation) -> str:
    """One account, or the totals of several."""
    return of_account(explanation[0]) if len(explanation) == 1 else of_accounts(explanation.accounts)


VIEWS: Sequence[Tuple[type, Callable[[Any], str]]] = (  # (an AccountMargin is an AccountTotal, too)
    (AccountMargin, of_margin),
    (AccountExplanation, of_account),
    (AccountTotal, lambda total: of_accounts([total])),
    (Statement, lambda result: of_accounts(result.accounts)),
    (Explanation, of_explanation),
    (Roll, of_roll),
    (TriedOrder, lambda order: of_orders([order])),
    (TriedOrders, lambda tried: of_orders(tried.orders)),
    (Attribution, of_attribution),
    (CheapestClose, of_close),
    (Comparison, of_comparison),
    (Faults, of_lines),
    (Positions, of_lines),
    (SetCounts, of_lines),
)


def html_of(result: object) -> str:
    """What a notebook shows of a result."""
    return next(view for kind, view in VIEWS if isinstance(result, kind))(result)
