"""The details of an account: its statement, and the reasons for the requirement of each commodity."""
from __future__ import annotations

import itertools
from functools import lru_cache
from typing import Dict, Iterable, List, Optional, Sequence, Tuple

from span_margin._attribution import Attribution
from span_margin.report._explanation import TYPES, Account, Commodity, Held, Row, Total
from span_margin.report._markup import (
    Scale, Unit, anchor, bars, cell, cells, facts, figure, heads, link, part, table, text,
)
from span_margin.report._scenarios import MOVE_SUMS, MOVES, power_of, scenario_of, scenario_picture
from span_margin.report._shares import contributions, shared_holdings

MANY_HELD = 24  # how many holdings of a commodity fit in one column


# The parts have templates, since an explanation of 4096 accounts has about twenty thousand commodities. Each "%s" stands for a figure, a
# bar or rows.

WATERFALL = part("From scan risk to requirement", table(
    "waterfall", "", (
        f'<tr><th scope="row">{name}</th><td class="f">%s</td>{bars("%s%s")}</tr>'
        for name in ("Scan risk, scenario %s", "+ calendar spreads", "+ delivery", "&minus; credit", "short option minimum")),
    f'<tr><th scope="row">Requirement</th><td class="f">%s</td>{bars("%s%s")}</tr>'))


def waterfall(commodity: Commodity, unit: Unit) -> str:
    """The steps from scan risk to requirement. The bar of each row begins where the bar above it ends."""
    row, shown = commodity.row, unit.figure
    scan, calendar, delivery, credit = float(row.scan), float(row.calendar), float(row.delivery), float(row.credit)
    minimum, requirement = float(row.minimum), float(row.requirement)
    asked = scan + calendar + delivery
    scale = Scale((scan, scan + calendar, asked, asked - credit, minimum, requirement))
    zero, bar = scale.zero(), scale.bar
    return WATERFALL % (
        row.active, shown(row.scan), zero, bar("scan", 0.0, scan),
        shown(row.calendar), zero, bar("calendar", scan, scan + calendar),
        shown(row.delivery), zero, bar("delivery", scan + calendar, asked),
        shown(row.credit), zero, bar("credit", asked - credit, asked),
        shown(row.minimum), zero, bar("minimum", 0.0, minimum),
        shown(row.requirement), zero, bar("total", 0.0, requirement))


def scenario_cell(number: int, active: int, both: bool = False) -> str:
    """A cell with a scenario's number and its sum."""
    kind = ("f active" if number == active else "f") + (" both" if both else "")
    span = ' colspan="2"' if both else ""
    return f'<td class="{kind}"{span}><small>{number}</small> %s</td>'


@lru_cache(None)
def scenarios_template(active: int) -> str:
    """The template of the sixteen scenarios if this one is active."""
    rows = (
        f'<tr><th scope="row">{move.capitalize()}</th>'
        + (scenario_cell(up, active) + scenario_cell(down, active) if down else scenario_cell(up, active, both=True))
        + "</tr>"
        for move, _, up, down in MOVES
    )
    legend = (
        '<p class="legend"><span><i class="up"></i>volatility up</span><span><i class="down"></i>volatility down</span>'
        '<span><i class="extreme"></i>extreme move</span><span><i class="ring"></i>active</span>'
        "<span>losses upward%s</span></p>%s"
    )
    said = facts((("scan risk", "%s"), ("active", figure(str(active))), ("paired", "%s"), ("price risk", "%s")))
    sums = table("sums", heads("Price", ">volatility up", ">volatility down"), rows)
    return part("The sixteen scenarios", legend + sums + said, f"Active is {active}: {scenario_of(active)}. A loss is positive.")


def scenarios(commodity: Commodity, unit: Unit) -> str:
    """The sixteen sums, as a picture and as figures."""
    scan, active, shown = commodity.scan, int(commodity.scan.active), unit.figure
    amounts = [*map(float, unit.amounts(commodity.sums))]
    scale = Scale(amounts)
    power = power_of(scale)[1]
    return scenarios_template(active) % (
        f", in {power}" if power else "", scenario_picture(scale, amounts, active), *map(shown, MOVE_SUMS(commodity.sums)),
        shown(scan.scan), figure(scan.paired), shown(scan.price_risk))


MONTHS = part("Months before and after spreads", table("months", heads(
    "Month", ">delta", ">left", '<span class="key"><i class="before"></i>before <i class="after"></i>after</span>'), ["%s"]))


def months(commodity: Commodity) -> str:
    """Deltas by month before and after spreads."""
    deltas = [(float(delta), float(left)) for _, delta, left in commodity.months]
    scale = Scale(itertools.chain.from_iterable(deltas))
    zero, bar = scale.zero(), scale.bar
    return MONTHS % "".join([
        f'<tr><th scope="row">{month}</th><td class="f">{figure(delta)}</td><td class="f">{figure(left)}</td><td class="bars">'
        f'<span class="bar">{zero}{bar("before", 0.0, begin)}{bar("after", 0.0, end)}</span></td></tr>'
        for (month, delta, left), (begin, end) in zip(commodity.months, deltas)])


NO_SPREADS = part("Calendar spreads", '<p class="none">None formed.</p>')
SPREADS = part(
    "Calendar spreads that formed",
    table("spreads", heads("Priority", "long side", ">spreads", ">rate", ">charge"), ["%s"],
          '<tr><th scope="row" colspan="4">Charge, rounded up</th><td class="f">%s</td></tr>'),
    "The INTRA record of the commodity with this priority has the months that form the spread.")


def spreads(commodity: Commodity, unit: Unit) -> str:
    """The calendar spreads that formed, with their charges."""
    shown = unit.figure
    rows = "".join([
        f'<tr><td class="k">{figure(priority)}</td><td>{side}</td><td class="f">{figure(count)}</td><td class="f">{shown(rate)}</td>'
        f'<td class="f">{shown(charge)}</td></tr>'
        for priority, side, count, rate, charge in commodity.intras])
    return SPREADS % (rows, shown(commodity.row.calendar)) if rows else NO_SPREADS


NO_DELIVERY = part("Delivery", '<p class="none">No month near delivery has a delta.</p>')
DELIVERY = part("Months near delivery", table(
    "delivery", heads("Month", ">used", ">spread rate", ">left", ">outright rate", ">charge"), ["%s"],
    '<tr><th scope="row" colspan="5">Charge, rounded up</th><td class="f">%s</td></tr>'))


def delivery(commodity: Commodity, unit: Unit) -> str:
    """The months near delivery, with the charges for used and left deltas."""
    shown = unit.figure
    rows = "".join([
        f'<tr><th scope="row">{month}</th><td class="f">{figure(used)}</td><td class="f">{shown(spread_rate)}</td>'
        f'<td class="f">{figure(left)}</td><td class="f">{shown(outright_rate)}</td><td class="f">{shown(charge)}</td></tr>'
        for month, used, spread_rate, left, outright_rate, charge in commodity.spots])
    return DELIVERY % (rows, shown(commodity.row.delivery)) if rows else NO_DELIVERY


Partners = Dict[Tuple[str, str], List[str]]  # the commodities of each spread between commodities, by its priority and long side


def partners_of(account: Account) -> Partners:
    """For each spread between commodities, the commodities that have a line of it."""
    found: Partners = {}
    for commodity in account.commodities:
        for line in commodity.inters:
            found.setdefault((line.priority, line.side), []).append(commodity.name)
    return found


NO_CREDITS = '<p class="none">No spread with another commodity formed.</p>'
CREDITS = table("credits", heads("With", "priority", "long side", ">spreads", ">delta used", ">basis points"), ["%s"])
CREDIT = part("Credit from other commodities", "%s" + facts(
    (name, "%s") for name in ("price risk", "net delta", "weight", "credit, rounded down")))


def credit(account: Account, commodity: Commodity, partners: Partners, unit: Unit) -> str:
    """The spreads with other commodities, and the figures from which the credit is computed."""

    def others(priority: str, side: str) -> str:
        names = (name for name in partners[priority, side] if name != commodity.name)
        return " ".join([link(name, anchor(account.name, name)) for name in names])

    rows = "".join([
        f'<tr><td>{others(priority, side)}</td><td class="k">{figure(priority)}</td><td>{side}</td><td class="f">{figure(count)}</td>'
        f'<td class="f">{figure(used)}</td><td class="f">{figure(points)}</td></tr>'
        for priority, side, count, used, points in commodity.inters])
    of_credit = commodity.credit
    return CREDIT % (
        CREDITS % rows if rows else NO_CREDITS, unit.figure(of_credit.price_risk), figure(of_credit.net), figure(of_credit.weight),
        unit.figure(commodity.row.credit))


SHORT_OPTIONS = part("Short options", facts((name, "%s") for name in ("short calls", "short puts", "counted by", "rate", "minimum")))


def short_options(commodity: Commodity, unit: Unit) -> str:
    calls, puts, method, rate = commodity.short
    return SHORT_OPTIONS % (figure(calls), figure(puts), method, unit.figure(rate), unit.figure(commodity.row.minimum))


HELD_HEADS = ("Contract", "type", "month", ">net quantity")
HOLDINGS = part("%s", table("holdings", heads(*HELD_HEADS), ["%s"]))
VALUED_HOLDINGS = part("%s", table("holdings", heads(*HELD_HEADS, ">value"), ["%s"]))


def holdings(title: str, held: Sequence[Held], unit: Unit) -> str:
    if held[0].value is None:
        return HOLDINGS % (title, "".join([
            f'<tr><th scope="row">{text(contract)}</th><td>{TYPES[kind]}</td><td>{month}</td><td class="f">{figure(net)}</td></tr>'
            for contract, kind, month, net, _ in held]))
    shown = unit.figure
    return VALUED_HOLDINGS % (title, "".join([
        f'<tr><th scope="row">{text(contract)}</th><td>{TYPES[kind]}</td><td>{month}</td><td class="f">{figure(net)}</td>'
        f'<td class="f">{shown(value or "")}</td></tr>'
        for contract, kind, month, net, value in held]))


def two_columns(left: Iterable[str], right: Iterable[str]) -> str:
    return f'<div class="two"><div>{"".join(left)}</div><div>{"".join(right)}</div></div>'


def commodity_part(account: Account, commodity: Commodity, partners: Partners, unit: Unit, shares: Optional[Attribution]) -> str:
    """All parts of a commodity in two columns. Many holdings are below these, half of them in each column."""
    held, below = commodity.held, ""

    def listed(title: str, part_of: Sequence[Held]) -> str:
        return holdings(title, part_of, unit) if shares is None else shared_holdings(title, part_of, shares, unit)

    left = [waterfall(commodity, unit), months(commodity), spreads(commodity, unit), delivery(commodity, unit),
            credit(account, commodity, partners, unit), short_options(commodity, unit)]
    right = [scenarios(commodity, unit)]
    if len(held) > MANY_HELD:
        half = (len(held) + 1) // 2
        below = two_columns([listed("Holdings", held[:half])], [listed("Holdings, the second half", held[half:])])
    else:
        right.append(listed("Holdings", held))
    at = anchor(account.name, commodity.name)
    return (
        f'<article id="{at}"><h3><small>{text(account.name)}</small> <a href="#{at}">{text(commodity.name)}</a> <small>requirement</small> '
        f"{unit.figure(commodity.row.requirement)}</h3>{two_columns(left, right)}{below}</article>"
    )


# --- An account ---

FIGURES = ("scan risk", "scenario", "calendar", "delivery", "credit", "minimum", "requirement")


def row_figures(row: Row, unit: Unit) -> List[str]:
    """The figures of an R line. All except the active scenario are amounts."""
    return [digits if name == "active" else unit.amount(digits) for name, digits in zip(Row._fields, row)]


def statement(lines: Iterable[Tuple[str, Row]], total: str, unit: Unit) -> str:
    """R lines as a table: the markup of the name of each commodity, and its figures."""
    rows = (f'<tr><th scope="row">{name}</th>{cells(row_figures(row, unit), FIGURES)}</tr>' for name, row in lines)
    head = heads("Commodity", *(f">{name}" for name in FIGURES))
    foot = f'<tr><th scope="row" colspan="7">Total</th>{cell(unit.amount(total))}</tr>'
    return table("statement folds", head, rows, foot)


TOTALS = ("total", "option value", "due", "excess")


def totals(total: Total, unit: Unit) -> List[str]:
    """The figures of a T line: the total, and three more under a set with option values."""
    return unit.amounts(digits for digits in total if digits is not None)


def account_part(account: Account, unit: Unit, shares: Optional[Attribution] = None) -> str:
    """The details of an account, with the shares of its positions if there is an attribution."""
    partners = partners_of(account)
    body = "".join(commodity_part(account, commodity, partners, unit, shares) for commodity in account.commodities)
    if shares is not None and shares.shares:
        body = contributions(shares, unit) + body
    lines = ((link(each.name, anchor(account.name, each.name)), each.row) for each in account.commodities)
    held = statement(lines, account.total.total, unit) if account.commodities else '<p class="none">Nothing is held.</p>'
    at, said = anchor(account.name), facts(zip(TOTALS, map(figure, totals(account.total, unit))))
    return (
        f'<section class="account{"" if body else " empty"}" id="{at}"><header><h2><a href="#{at}">{text(account.name)}</a></h2>'
        f'{said}<a class="up" href="#accounts">all accounts</a></header>{held}{body}</section>\n'
    )
