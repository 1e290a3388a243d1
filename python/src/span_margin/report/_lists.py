"""All accounts together, by commodity and by account, and orders."""
from __future__ import annotations

import csv
import io
import re
from typing import Dict, FrozenSet, Iterable, List, Sequence, Tuple

from span_margin.report._details import TOTALS, totals
from span_margin.report._explanation import PARTS, Account, Commodity, Explanation, parts_of
from span_margin.report._markup import (
    Scale, Unit, anchor, bars, cell, cells, effect, heads, layer, link, share_cell, table, text, widths,
)
from span_margin.report._orders import Order


def part_amounts(parts: Iterable[int], unit: Unit) -> List[str]:
    return unit.amounts(map(str, parts))


def by_commodity(accounts: Iterable[Account]) -> Dict[str, List[Commodity]]:
    """Each commodity in all accounts that hold it."""
    found: Dict[str, List[Commodity]] = {}
    for account in accounts:
        for commodity in account.commodities:
            found.setdefault(commodity.name, []).append(commodity)
    return found


def commodities_part(accounts: Sequence[Account], unit: Unit) -> str:
    """The sums of R lines over all accounts, by commodity."""
    held = by_commodity(accounts)
    sums = {name: sum(int(commodity.row.requirement) for commodity in found) for name, found in held.items()}
    whole, largest = sum(sums.values()), max(sums.values(), default=0)
    names = ("accounts", *PARTS.values(), "requirement")

    def line(name: str) -> str:
        figures = [str(len(held[name])), *part_amounts(parts_of(held[name]), unit), unit.amount(str(sums[name]))]
        return f'<tr><th scope="row">{text(name)}</th>{cells(figures, names)}{share_cell(sums[name], largest, whole)}</tr>'

    ranked = sorted(sums, key=lambda name: -sums[name])
    everything = part_amounts(parts_of(commodity for found in held.values() for commodity in found), unit)
    foot = f'<tr><th scope="row" colspan="2">All</th>{cells([*everything, unit.amount(str(whole))], names[1:])}<td></td></tr>'
    head = heads("Commodity", *(f">{name}" for name in names), "share of all, %", falling="requirement")
    return (
        '<section id="commodities"><header><h2>All accounts by commodity</h2></header>'
        + table("commodities sorts folds", head, map(line, ranked), foot)
        + "</section>\n"
    )


def made_of(account: Account, unit: Unit) -> str:
    """The bar of an account: above the parts without credit, below the total and the credits. Each layer begins at 0: the first part is
    drawn over the sum of the first two parts, this sum over the sum of three, and so on."""
    scan, calendar, delivered, minimum, credit = account.parts
    asked = scan + calendar + delivered + minimum
    sizes = ",".join([layer(amount, asked, "45%") for amount in (
        scan, scan + calendar, scan + calendar + delivered, asked, asked - credit, asked)])
    words = ", ".join([f"{name} {amount}" for name, amount in zip(PARTS.values(), part_amounts(account.parts, unit))])
    return f'<td class="made" title="{words}" style="background-size:{sizes}"></td>'


NAMED = 6  # commodities that the row of an account names


def account_row(account: Account, has_details: bool, largest: int, whole: int, unit: Unit) -> str:
    name = link(account.name, anchor(account.name)) if has_details else text(account.name)
    held = " ".join(text(commodity.name) for commodity in account.commodities[:NAMED])
    more = len(account.commodities) - NAMED
    return (
        f'<tr><th scope="row">{name}</th>{cells(totals(account.total, unit), TOTALS)}{share_cell(account.size(), largest, whole)}'
        f'{made_of(account, unit)}<td class="held">{held}{f" and {more} more" if more > 0 else ""}</td></tr>\n'
    )


def csv_link(name: str, head: Sequence[str], rows: Iterable[Sequence[str]]) -> str:
    """A list as CSV, in a link that a browser saves as a file of this name."""
    lines = io.StringIO()
    writer = csv.writer(lines, lineterminator="\n")
    writer.writerow(head)
    writer.writerows(rows)
    data = re.sub(r"[^A-Za-z0-9_.~,/-]", lambda found: f"%{ord(found.group()):02X}", lines.getvalue())  # all of it is ASCII
    return f'<a class="csv" download="{name}" href="data:text/csv;charset=utf-8,{data}">list as CSV</a>'


def accounts_csv(accounts: Sequence[Account], set_id: str, unit: Unit) -> str:
    """The list of accounts as CSV."""

    def row(account: Account) -> List[str]:
        return [account.name, set_id, *totals(account.total, unit), *part_amounts(account.parts, unit)]

    names = TOTALS[:len(totals(accounts[0].total, unit))]
    return csv_link("accounts.csv", ["account", "set", *names, *PARTS.values()], map(row, accounts))


def legend_of(kinds: Iterable[Tuple[str, str]]) -> str:
    keys = "".join(f'<span><i class="{kind}"></i>{name}</span>' for kind, name in kinds)
    return f'<p class="legend">{keys}</p>'


MADE_OF = (
    ("scan", "scan risk"), ("calendar", "calendar spreads"), ("delivery", "delivery"), ("minimum", "what the minimum adds"),
    ("credit", "credit, subtracted"), ("total", "total"))


def accounts_part(explanation: Explanation, ranked: Sequence[Account], top: int, unit: Unit) -> str:
    """A table with a row for each account."""
    whole, largest = sum(account.size() for account in ranked), ranked[0].size()
    count = len(totals(ranked[0].total, unit))
    by = "due" if explanation.has_values() else "total"
    head = heads("Account", *(f">{name}" for name in TOTALS[:count]), f"share of {'dues' if by == 'due' else 'all'}, %",
                 "=made of, as shares of the account", "=commodities", falling=by)
    rows = (account_row(account, at < top, largest, whole, unit) for at, account in enumerate(ranked))
    style = widths((account.name for account in ranked), (totals(account.total, unit) for account in ranked))
    return (
        f'<section id="accounts"><header><h2>Accounts</h2>{accounts_csv(ranked, explanation.set_id, unit)}</header>'
        + details_of(len(ranked), top, by)
        + legend_of(MADE_OF)
        + table("accounts sorts finds folds", head, rows, style=style)
        + "</section>\n"
    )


def details_of(accounts: int, top: int, by: str) -> str:
    """The line that says which accounts have details, if not all have."""
    if accounts <= top:
        return ""
    return (
        f'<p class="left-out">All {accounts} accounts are listed. The {top} with the largest {by} have details; '
        "--top changes this number.</p>")


# --- Orders ---

CHANGES = ("before", "after", "change")
DUES = ("due before", "due after", "due change")


def order_rows(order: Order, scale: Scale, accounts: FrozenSet[str], unit: Unit) -> str:
    """The row of an order, and a row for each requirement that it changes."""
    does = effect(order.size())
    account = link(order.account, anchor(order.account)) if order.account in accounts else text(order.account)
    figures = list(zip(unit.amounts(digits for digits in order.line if digits is not None), CHANGES + DUES))
    columns = "".join(cell(digits, "f", name) for digits, name in figures[:-1]) + cell(figures[-1][0], f"f {does}", figures[-1][1])
    rows = (
        f'<tr class="sub"><td></td><td>{text(name)}</td>{cells(unit.amounts(change), CHANGES)}<td colspan="{len(figures) - 1}"></td></tr>'
        for name, change in order.changes
    )
    return (
        f'<tbody><tr><th scope="row">{text(order.name)}</th><td>{account}</td>{columns}<td class="{does}">{does}</td>'
        f'{bars(scale.zero(), scale.bar(does, 0.0, float(order.size())))}</tr>{"".join(rows)}</tbody>'
    )


def orders_table(shown: Sequence[Order], accounts: FrozenSet[str], unit: Unit) -> str:
    """A table of one order or more."""
    scale = Scale(float(order.size()) for order in shown)
    names = CHANGES if shown[0].line.due_change is None else CHANGES + DUES
    head = heads("Order", "account", *(f">{name}" for name in names), "effect", "=", rising=names[-1])
    bodies = "".join(order_rows(order, scale, accounts, unit) for order in shown)
    return f'<div class="wide"><table class="orders sorts folds">{head}{bodies}</table></div>'


def orders_part(explanation: Explanation, orders: Sequence[Order], top: int, accounts: FrozenSet[str], unit: Unit) -> str:
    """A table of what orders free or cost. The orders that free most come first."""
    if not orders:
        return '<section id="orders"><header><h2>Orders</h2></header><p class="none">There are no orders.</p></section>\n'
    shown = sorted(orders, key=Order.size)[:top]
    left_out = "" if len(shown) == len(orders) else (
        f'<p class="left-out">{len(shown)} of {len(orders)} orders are listed, those that free most; --top changes this number.</p>')
    what = "what is due" if explanation.has_values() else "the total"
    return (
        '<section id="orders"><header><h2>Orders</h2></header><p class="note">Each order is evaluated by itself on the positions of its '
        f"account. It frees or costs the change of {what}. The rows below an order are the commodities whose requirement changes.</p>"
        f"{left_out}{orders_table(shown, accounts, unit)}</section>\n"
    )
