"""The page of two explanations: why the margin changed. Its figures are the figures of `compare`."""
from __future__ import annotations

import itertools
from decimal import Decimal
from typing import Any, Dict, FrozenSet, Iterable, List, Sequence, Tuple

from span_margin._amounts import Amount, ExactAmount
from span_margin._compare import AccountChange, CommodityChange, Comparison, Moved, PositionChange, moved, parts_of
from span_margin._results import CommodityExplanation
from span_margin.report._details import two_columns
from span_margin.report._document import Heading, data, document, top_part
from span_margin.report._explanation import TYPES
from span_margin.report._lists import CHANGES, DUES, csv_link, legend_of
from span_margin.report._markup import (
    Scale, Unit, anchor, bars, cell, cells, effect, facts, figure, heads, level, link, part, table, text, widths, word_cell,
)
from span_margin.report._scenarios import (
    COLUMNS, DOWN_SUMS, HEIGHT, LEFT, UP_SUMS, WIDTH, amount_lines, axis, height_of, power_of, scenario_of,
)

# The parts whose sum is the requirement, if credit is negative: the name in tables, and the name for bars.
STEPS = {
    "scan risk": "scan",
    "calendar spreads": "calendar",
    "delivery": "delivery",
    "credit": "credit",
    "what the minimum adds": "minimum",
}
COUNTS = Unit()  # for numbers that are not amounts


def digits_of(value: Any) -> str:
    """A number as it is in a line."""
    return format(value, "f") if isinstance(value, Decimal) else str(value)


def change_kind(change: Any, is_margin: bool) -> str:
    """The classes of a change: whether it is above 0, and the colour of a change of the margin."""
    does = effect(change)
    return " ".join((["plus"] if does == "costs" else []) + ([does] if is_margin else []))


def change_figure(change: int, unit: Unit, is_margin: bool = True) -> str:
    """A change. The plus sign is drawn, so it is not in text that is copied."""
    return f'<span class="{change_kind(change, is_margin)}">{figure(unit.amount(str(change)))}</span>'


def margin_cell(change: int, unit: Unit, name: str = CHANGES[-1]) -> str:
    return cell(unit.amount(str(change)), f"f {change_kind(change, True)}", name)


def from_to(found: Moved, unit: Unit, is_margin: bool = True) -> str:
    """An amount before and after, and its change."""
    both = (found.before, found.after)
    shown = (figure(unit.amount(str(amount))) if amount is not None else "<small>none</small>" for amount in both)
    return f'{" <small>to</small> ".join(shown)} {change_figure(found.change, unit, is_margin)}'


def change_cells(found: Moved, unit: Unit, is_margin: bool = False, what: str = "") -> str:
    """The cells of a figure: before, after, change. The cell of a missing figure is empty, and a dash is drawn in it."""
    names = [f"{what} {name}".strip() for name in CHANGES]
    shown = (
        cell(unit.amount(digits_of(value)), "f", name) if value is not None else f'<td class="f absent" data-l="{name}"></td>'
        for value, name in zip((found.before, found.after), names)
    )
    change = cell(unit.amount(digits_of(found.change)), f"f {change_kind(found.change, is_margin)}".strip(), names[-1])
    return "".join(shown) + change


def change_heads(*first: str) -> str:
    """The head of a table of changes, with its first columns."""
    return heads(*first, *(f">{name}" for name in CHANGES))


# --- A commodity in two explanations ---

def step_rows(pair: CommodityChange, scale: Scale, unit: Unit) -> List[str]:
    """The rows of a waterfall between its two ends. The cells of credit have positive amounts, as in the lines."""
    rows: List[str] = []
    begin = int(pair.requirement.before or 0)
    parts = (parts_of(each.margin if each else None) for each in (pair.before, pair.after))
    for name, step, *both in zip(STEPS, pair.steps, *parts):
        sign = -1 if name == "credit" else 1
        amounts = unit.amounts(str(sign * each) for each in both)
        drawn = bars(level(scale, begin), scale.bar(effect(step), float(begin), float(begin + step)))
        label = f'{"&minus;" if sign < 0 else "+"} {name}' if rows else name.capitalize()
        rows.append(f'<tr><th scope="row">{label}</th>{cells(amounts, CHANGES)}{margin_cell(step, unit)}{drawn}</tr>')
        begin += step
    return rows


def change_waterfall(pair: CommodityChange, unit: Unit) -> str:
    """The steps from the requirement before to the requirement after. Each begins where the step above it ends."""
    begin, end = int(pair.requirement.before or 0), int(pair.requirement.after or 0)
    levels = itertools.accumulate([begin, *map(int, pair.steps)])
    scale = Scale(map(float, levels))
    first = bars(scale.zero(), scale.bar("minimum", 0.0, float(begin)))
    last = bars(level(scale, end), scale.bar("total", 0.0, float(end)))
    rows = [
        f'<tr class="sum"><th scope="row">Requirement before</th>{cell(unit.amount(str(begin)), "f", "before")}'
        f"<td></td><td></td>{first}</tr>",
        *step_rows(pair, scale, unit),
        f'<tr class="sum"><th scope="row">Requirement after</th><td></td>{cell(unit.amount(str(end)), "f", "after")}'
        f"{margin_cell(pair.requirement.change, unit)}{last}</tr>",
    ]
    head = heads("", *(f">{name}" for name in CHANGES), "")
    return part("From the requirement before to the requirement after", table("steps folds", head, rows))


def present(pair: CommodityChange) -> List[Tuple[str, CommodityExplanation]]:
    """The commodity in the explanations that have it, each with `before` or `after`."""
    return [(when, each) for when, each in (("before", pair.before), ("after", pair.after)) if each]


def sums_of(commodity: CommodityExplanation, unit: Unit) -> List[str]:
    return unit.amounts(map(str, commodity.sums.sums))


def curve(kind: str, commodity: CommodityExplanation, scale: Scale, radius: int, unit: Unit) -> str:
    """Sums: a line for volatility up, a dashed line for volatility down, a point for each of the sixteen, and a ring on the active one."""
    heights = (height_of(scale, float(amount)) for amount in sums_of(commodity, unit))
    at = [f"{x} {height:.1f}" for x, height in zip(COLUMNS, heights)]
    up, down = "L".join(UP_SUMS(at)), "L".join(DOWN_SUMS(at))
    dots = "".join(f"M{point}h0" for point in at)
    x, y = at[commodity.scan.active_scenario - 1].split()
    return (
        f'<path class="{kind}" d="M{up}"/><path class="{kind} dashed" d="M{down}"/><path class="{kind} dots" d="{dots}"/>'
        f'<circle class="{kind}" cx="{x}" cy="{y}" r="{radius}"/>'
    )


def change_picture(pair: CommodityChange, scale: Scale, unit: Unit) -> str:
    """The sums of both explanations as two curves. The later one has the larger ring, so that both rings can be seen at the same point."""
    kinds = {"before": ("was", 6), "after": ("now", 9)}
    curves = (curve(kinds[when][0], each, scale, kinds[when][1], unit) for when, each in present(pair))
    said = " and ".join(f"{when} {each.scan.active_scenario}" for when, each in present(pair))
    return (
        f'<svg class="scenarios" viewBox="0 0 {WIDTH} {HEIGHT + 58}" role="img" '
        f'aria-label="Sums of the sixteen scenarios by price move; active is {said}">{amount_lines(scale)}'
        f'<path class="base" d="M{LEFT} {height_of(scale, 0):.1f}H{WIDTH}"/>{"".join(curves)}<use href="#axis"/></svg>'
    )


def sums_table(pair: CommodityChange, unit: Unit) -> str:
    """All sums of both explanations. A click opens the table."""
    rows = []
    for number, found in enumerate(pair.sums, 1):
        active = " and ".join(when for when, each in present(pair) if each.scan.active_scenario == number)
        mark = f' <small class="active">active {active}</small>' if active else ""
        figures = change_cells(found, unit)
        rows.append(f'<tr><th scope="row"><small>{number}</small> {scenario_of(number)}{mark}</th>{figures}</tr>')
    return f'<details><summary>The sixteen sums</summary>{table("moves sums folds", change_heads("Scenario"), rows)}</details>'


def active_note(pair: CommodityChange) -> str:
    """The active scenarios in words."""
    found: Dict[int, List[str]] = {}
    for when, each in present(pair):
        found.setdefault(each.scan.active_scenario, []).append(when)
    return " ".join(f"Active {' and '.join(whens)}: {number}, {scenario_of(number)}." for number, whens in found.items())


def scenario_change(pair: CommodityChange, unit: Unit) -> str:
    scale = Scale(float(amount) for _, each in present(pair) for amount in sums_of(each, unit))
    power = power_of(scale)[1]
    legend = (
        '<p class="legend"><span><i class="was"></i>before</span><span><i class="now"></i>after</span>'
        f'<span>dashed: volatility down</span><span>ring: active</span><span>losses upward{", in " + power if power else ""}</span></p>'
    )
    picture = change_picture(pair, scale, unit)
    return part("The sixteen scenarios", f'{legend}{picture}<p class="note">{active_note(pair)}</p>{sums_table(pair, unit)}')


def moved_row(found: Moved, unit: Unit) -> str:
    """The row of a figure that changes: an amount, another number, or a word."""
    if found.change is None:
        row = f'<td class="f">{found.before}</td><td class="f">{found.after}</td><td></td>'
    else:
        row = change_cells(found, unit if isinstance(found.change, (Amount, ExactAmount)) else COUNTS)
    return f'<tr><th scope="row">{text(found.name)}</th>{row}</tr>'


ARRAYS = {
    "same": "All sixteen sums are the same.",
    "changed": "The positions are the same, and {count} of the sixteen sums changed: the risk arrays changed.",
    "positions": "Both explanations have the same set, so only the positions changed the sums.",
    "unknown": "The positions changed too, so the explanations do not show whether the risk arrays changed.",
}


def set_change(pair: CommodityChange, unit: Unit) -> str:
    """Rates, deltas and risk arrays that changed, as far as both explanations show them."""
    if pair.before is None or pair.after is None:
        return ""
    rows = [moved_row(each, unit) for each in pair.rates]
    none = '<p class="none">No rate that both explanations show changed.</p>'
    body = table("moves rates folds", change_heads("Rate"), rows) if rows else none
    return part("Rates and risk arrays", body, ARRAYS[pair.arrays].format(count=sum(not each.is_same for each in pair.sums)))


def formed_change(pair: CommodityChange, unit: Unit) -> str:
    rows = [moved_row(each, unit) for each in pair.figures]
    return part("Other figures that changed", table("moves formed folds", change_heads("Figure"), rows)) if rows else ""


def position_row(found: PositionChange, has_values: bool, unit: Unit) -> str:
    quantity = Moved("", found.before, found.after, found.change)
    value = Moved("", found.value_before, found.value_after, found.value_change)
    return (
        f'<tr><th scope="row">{text(found.contract)}</th>{word_cell(found.what)}{word_cell(TYPES[found.type])}'
        f"{word_cell(found.month)}{change_cells(quantity, COUNTS)}"
        + (change_cells(value, unit, what="value") if has_values else "")
        + "</tr>"
    )


def position_changes(pair: CommodityChange, has_values: bool, unit: Unit) -> str:
    """Positions that were opened, closed or changed, or whose value changed."""
    same = pair.unchanged
    note = f"Unchanged: {same} position{'' if same == 1 else 's'}." if same else ""
    if not pair.positions:
        return part("Positions", f'<p class="none">{note}</p>')
    values = [f">value {name}" for name in CHANGES if has_values]
    head = heads("Contract", "", "type", "month", *(f">{name}" for name in CHANGES), *values)
    rows = (position_row(each, has_values, unit) for each in pair.positions)
    return part("Positions that were opened, closed or changed", table("positions folds", head, rows), note)


def commodity_change(pair: CommodityChange, unit: Unit) -> str:
    """All parts of a commodity in two columns. Positions with values are below them, since they have more columns."""
    at, found = anchor(pair.account, pair.commodity), present(pair)
    change = moved("", int(pair.requirement.before or 0), int(pair.requirement.after or 0))
    only = "" if len(found) == 2 else f" <small>only {found[0][0]}</small>"
    has_values = all(line.value is not None for _, each in found for line in each.held)
    positions = position_changes(pair, has_values, unit)
    left = [change_waterfall(pair, unit), set_change(pair, unit), formed_change(pair, unit)]
    right = [scenario_change(pair, unit), "" if has_values else positions]
    return (
        f'<article class="moved" id="{at}"><h3><small>{text(pair.account)}</small> <a href="#{at}">{text(pair.commodity)}</a>{only} '
        f"<small>requirement</small> {from_to(change, unit)}</h3>"
        f'{two_columns(left, right)}{positions if has_values else ""}</article>'
    )


# --- An account in two explanations ---

NAMES = {"total": "total", "value": "option value", "due": "due", "excess": "excess"}  # of the figures of a T line


def requirements_table(pair: AccountChange, unit: Unit) -> str:
    """The requirements of an account before and after, and the steps between them. The last row has the sums of the columns."""

    def step_cells(steps: Iterable[int]) -> str:
        return "".join(margin_cell(step, unit, name) for name, step in zip(STEPS, steps))

    rows = []
    for each in pair.commodities:
        name = text(each.commodity) if each.is_same else link(each.commodity, anchor(pair.account, each.commodity))
        rows.append(f'<tr><th scope="row">{name}</th>{change_cells(each.requirement, unit, True)}{step_cells(each.steps)}</tr>')
    total = change_cells(pair.total, unit, True)
    rows.append(f'<tr class="sum"><th scope="row">Total</th>{total}{step_cells(pair.steps)}</tr>')
    return table("changes folds", heads("Commodity", *(f">{name}" for name in (*CHANGES, *STEPS))), rows)


def account_change(pair: AccountChange, unit: Unit) -> str:
    body = "".join(commodity_change(each, unit) for each in pair.commodities if not each.is_same)
    figures = ((NAMES[name], from_to(found, unit, name in ("total", "due"))) for name, found in pair.figures.items())
    at, said = anchor(pair.account), facts(figures)
    return (
        f'<section class="account" id="{at}"><header><h2><a href="#{at}">{text(pair.account)}</a></h2>{said}'
        f'<a class="up" href="#accounts">all accounts</a></header>{requirements_table(pair, unit)}{body}</section>\n'
    )


# --- All accounts in two explanations ---

def stacked(steps: Iterable[int], scale: Scale) -> List[str]:
    """The steps of a change side by side: positive steps to the right, negative steps to the left."""
    found, least, most = [], 0, 0
    for kind, step in zip(STEPS.values(), steps):
        begin = most if step > 0 else least
        found.append(scale.bar(kind, float(begin), float(begin + step)))
        least, most = min(least, begin + step), max(most, begin + step)
    return found


def change_bars(pair: AccountChange, scale: Scale, unit: Unit) -> str:
    """The bars of an account: above the steps, below their sum."""
    steps, change = tuple(map(int, pair.steps)), int(pair.total.change)
    if not any(steps):
        return "<td></td>"
    words = ", ".join(f"{name} {unit.amount(str(step))}" for name, step in zip(STEPS, steps))
    drawn = "".join((scale.zero(), *stacked(steps, scale), scale.bar(effect(change), 0.0, float(change))))
    return f'<td class="by-steps"><span class="bar" role="img" title="{words}">{drawn}</span></td>'


def change_row(pair: AccountChange, has_details: bool, has_dues: bool, scale: Scale, unit: Unit) -> str:
    name = link(pair.account, anchor(pair.account)) if has_details else text(pair.account)
    dues = change_cells(pair.figures["due"], unit, True, "due") if has_dues else ""
    return (
        f'<tr><th scope="row">{name}</th>{change_cells(pair.total, unit, True)}{dues}'
        f'{change_bars(pair, scale, unit)}<td class="held">{pair.presence}</td></tr>\n'
    )


def change_amounts(pair: AccountChange, has_dues: bool, unit: Unit) -> List[str]:
    """The figures of an account in the list: before, after, change. A figure that only one of the explanations has is empty in the
    other."""
    found = []
    for name in ("total", "due") if has_dues else ("total",):
        amounts = pair.figures[name]
        found += ["" if each is None else unit.amount(str(each)) for each in (amounts.before, amounts.after, amounts.change)]
    return found


def changes_csv(ranked: Sequence[AccountChange], comparison: Comparison, has_dues: bool, unit: Unit) -> str:
    """The list of changes as CSV."""
    sets = str(comparison.before.set), str(comparison.after.set)

    def row(pair: AccountChange) -> List[str]:
        return [pair.account, *sets, *change_amounts(pair, has_dues, unit), *unit.amounts(map(str, pair.steps)), pair.presence]

    names = ("total", "due") if has_dues else ("total",)
    head = ["account", "set before", "set after", *(f"{name} {when}" for name in names for when in CHANGES), *STEPS, "presence"]
    return csv_link("changes.csv", head, map(row, ranked))


ALL_CHANGES = """A requirement is scan risk plus calendar spreads plus delivery minus credit, plus what the minimum adds: the amount that is
missing up to the short option minimum, or 0. So the changes of these five parts add up to the change of the requirement, and the changes of
the requirements add up to the change of the total."""
ALL_DUES = " What is due is the total minus the option value, but not below 0. Accounts are in the order of its change."


def changes_part(ranked: Sequence[AccountChange], comparison: Comparison, shown: FrozenSet[str], unit: Unit) -> str:
    """A table with a row for each account. The accounts in `shown` have details."""
    has_dues = comparison.measure == "due"
    changed = sum(pair.is_changed for pair in ranked)
    left_out = "" if changed == len(shown) else (
        f'<p class="left-out">{changed} accounts changed. The {len(shown)} with the largest change have details; --top changes this '
        "number.</p>")
    scale = Scale(float(sum(step for step in pair.steps if (step > 0) == rises)) for pair in ranked for rises in (True, False))
    columns = [f">{name}" for name in CHANGES + (DUES if has_dues else ())]
    head = heads("Account", *columns, "=parts, and below them their sum", "=")
    rows = (change_row(pair, pair.account in shown, has_dues, scale, unit) for pair in ranked)
    amounts = (change_amounts(pair, has_dues, unit) for pair in ranked)
    signed = ([f"+{each}" if at % 3 == 2 and each[0] != "-" else each for at, each in enumerate(row)] for row in amounts)
    style = widths((pair.account for pair in ranked), signed)
    return (
        '<section id="accounts"><header><h2>Accounts by the size of the change</h2>'
        f"{changes_csv(ranked, comparison, has_dues, unit)}</header>"
        f'<p class="note">{ALL_CHANGES}{ALL_DUES if has_dues else ""}</p>{left_out}'
        + legend_of([*((kind, name) for name, kind in STEPS.items()), ("costs", "sum, above 0"), ("frees", "sum, below 0")])
        + table("accounts by-change sorts finds folds", head, rows, style=style)
        + "</section>\n"
    )


# --- The page of a change ---

CHANGE_FOOT = """<p><strong>This page is not proved.</strong> The program span, which printed the lines, is proved. span-report made this
page of the lines of two runs of span explain, and checked that the figures of each agree. Figures of lines have all their digits.
Differences, what the minimum adds, and sums over accounts are computed here, exactly. Pictures are only as exact as the eye can see.</p>
<p>Amounts are in {unit}; charges and price risk are exact, with the fraction that they have. A click on a figure selects it.</p>"""


def change_facts(comparison: Comparison, shown: FrozenSet[str], unit: Unit) -> List[Tuple[str, str]]:
    """What the top of the page says of all accounts."""
    pairs, measure = comparison.accounts, comparison.measure

    def extreme(pair: AccountChange) -> str:
        name = link(pair.account, anchor(pair.account)) if pair.account in shown else text(pair.account)
        return f"{change_figure(pair.figures[measure].change, unit)} <small>{name}</small>"

    words = [pair.presence for pair in pairs]
    counts = [(word, figure(str(words.count(word)))) for word in ("only before", "only after", "no change") if word in words]
    found = [("accounts", figure(str(len(pairs)))), *counts, ("sum of totals", from_to(comparison.total, unit))]
    if comparison.due:
        found.append(("sum of dues", from_to(comparison.due, unit)))
    rise, fall = (choose(pairs, key=lambda pair: int(pair.figures[measure].change)) for choose in (max, min))
    found += [("largest rise", extreme(rise))] if rise.figures[measure].change > 0 else []
    found += [("largest fall", extreme(fall))] if fall.figures[measure].change < 0 else []
    return found


def page_of_change(comparison: Comparison, top: int, heading: Heading) -> str:
    ranked, unit = comparison.ranked, heading.unit
    shown = [pair for pair in ranked if pair.is_changed][:top]
    names = frozenset(pair.account for pair in shown)
    kicker = "Why the margin changed" if heading.set_id in heading.title else f"Why the margin changed from {heading.set_id}"
    top_of_page = top_part(heading, text(kicker), change_facts(comparison, names, unit))
    parts = [axis(), changes_part(ranked, comparison, names, unit)]
    parts += [account_change(pair, unit) for pair in shown]
    return document(heading, top_of_page, parts, CHANGE_FOOT.format(unit=text(unit.name)), data("change.css"))
