"""The lines of the output: FORMATS, Statement, Explanation, Evaluated orders, and the line of `span check`."""

from __future__ import annotations

from fractions import Fraction
from typing import List, Union

from .method import Figures, Formed, Margin, due_of, excess_of, margin_of, spread_charge, value_of
from .parameters import Parameters
from .positions import Holdings

Number = Union[int, Fraction]


def decimal(number: Number) -> str:
    """FORMATS, Explanation: "Numbers are exact decimals: nothing is rounded, no fraction ends in a zero, and `0` has no sign".

    All numbers are multiples of 10^-8: METHOD, Units has deltas and their products with whole rates in this unit.
    """
    whole, fraction = divmod(int(abs(Fraction(number)) * 10**8), 10**8)
    digits = f"{whole}.{fraction:08d}".rstrip("0").rstrip(".")
    return "-" + digits if number < 0 else digits


def line(word: str, *fields: Union[str, Number]) -> str:
    """FORMATS, All output: fields with commas between them. "Fields have no quotes. Each line ends in one LF"."""
    return ",".join([word] + [field if isinstance(field, str) else decimal(field) for field in fields]) + "\n"


def check_line(parameters: Parameters) -> str:
    """FORMATS, Commands: "`check` prints `OK,set,commodities,contracts,tiers,intra,spots,inter`"."""
    tables = [len(parameters.commodities), len(parameters.contracts), len(parameters.tiers)]
    spreads = [len(parameters.intra_spreads), len(parameters.spots), len(parameters.inter_spreads)]
    return line("OK", parameters.name, *tables, *spreads)


# FORMATS, Statement.


def commodity_line(parameters: Parameters, account: str, figures: Figures) -> str:
    """FORMATS, Statement: the R line of a commodity in which the account holds a contract."""
    charges = (figures.intra_charge, figures.delivery_charge, figures.credit)
    start = ("R", account, parameters.name, figures.commodity.name, figures.scan.scan_risk, figures.scan.active)
    return line(*start, *charges, figures.minimum, figures.requirement)


def total_line(parameters: Parameters, account: str, margin: Margin) -> str:
    """FORMATS, Statement: `T,account,set,total`, under version 2 `T,account,set,total,value,due,excess`."""
    value = margin.option_value
    sums = (value, due_of(margin.total, value), excess_of(margin.total, value)) if parameters.version == 2 else ()
    return line("T", account, parameters.name, margin.total, *sums)


def statement_lines(parameters: Parameters, account: str, holdings: Holdings) -> List[str]:
    """FORMATS, Statement: an account's R lines, "in the order of the COMMODITY records, and then a T line"."""
    margin = margin_of(parameters, holdings)
    lines = [commodity_line(parameters, account, figures) for figures in margin.figures]
    return lines + [total_line(parameters, account, margin)]


# FORMATS, Explanation.


def explanation_lines(parameters: Parameters, account: str, holdings: Holdings) -> List[str]:
    """FORMATS, Explanation: the account's part of the statement, with the lines of the table before each R line."""
    margin = margin_of(parameters, holdings)
    lines: List[str] = []
    for figures in margin.figures:
        start = f"{account},{parameters.name},{figures.commodity.name}"
        lines += position_lines(parameters, start, figures) + spread_lines(start, figures) + offset_lines(start, figures)
        lines.append(commodity_line(parameters, account, figures))
    return lines + [total_line(parameters, account, margin)]


def position_lines(parameters: Parameters, start: str, figures: Figures) -> List[str]:
    """FORMATS, Explanation: HELD, SUMS and SCAN. Under version 2 a HELD line ends with the value, net quantity times contract's value."""
    lines: List[str] = []
    for holding in figures.held:
        contract = holding.contract
        value = (value_of(holding),) if parameters.version == 2 else ()
        lines.append(line("HELD", start, contract.name, contract.type, contract.month, holding.net, *value))
    scan = figures.scan
    lines.append(line("SUMS", start, *scan.sums))
    lines.append(line("SCAN", start, scan.scan_risk, scan.active, scan.paired, scan.price_risk))
    return lines


def spread_lines(start: str, figures: Figures) -> List[str]:
    """FORMATS, Explanation: MONTH, INTRA and SPOT. "Left is the part of it, with its sign, that remains after all INTRA spreads"."""
    lines = [line("MONTH", start, month, delta, figures.months_left[month]) for month, delta in figures.month_deltas.items()]
    for formed in figures.intra_spreads:
        lines.append(line("INTRA", start, *formed_fields(formed), formed.spread.rate, spread_charge(formed)))
    for month in figures.spot_months:
        spot = month.spot
        lines.append(line("SPOT", start, spot.month, month.used, spot.spread_rate, month.left, spot.outright_rate, month.charge))
    return lines


def formed_fields(formed: Formed) -> List[Union[str, Number]]:
    """FORMATS, Explanation, INTRA and INTER: priority, long side, number of spreads."""
    return [formed.spread.priority, formed.long_side, formed.number]


def offset_lines(start: str, figures: Figures) -> List[str]:
    """FORMATS, Explanation: INTER, CREDIT and SHORT."""
    lines: List[str] = []
    for offset in figures.offsets:
        lines.append(line("INTER", start, *formed_fields(offset.formed), offset.delta_used, offset.formed.spread.rate))
    lines.append(line("CREDIT", start, figures.scan.price_risk, figures.net_delta, figures.weight))
    commodity = figures.commodity
    lines.append(line("SHORT", start, figures.short_calls, figures.short_puts, commodity.method, commodity.minimum_rate))
    return lines


# FORMATS, Evaluated orders.


def change_lines(parameters: Parameters, order: str, account: str, holdings: Holdings, holdings_after: Holdings) -> List[str]:
    """FORMATS, Evaluated orders: a CHANGE line for "each commodity whose requirement changes", then the ORDER line.

    "Change is after minus before." Without an R or T line the figure before is 0. Under version 2 the due comes at the end.
    """
    before, after = margin_of(parameters, holdings), margin_of(parameters, holdings_after)
    requirements_before = {figures.commodity.name: figures.requirement for figures in before.figures}
    requirements_after = {figures.commodity.name: figures.requirement for figures in after.figures}
    lines: List[str] = []
    for commodity in parameters.commodities:
        old, new = requirements_before.get(commodity.name, 0), requirements_after.get(commodity.name, 0)
        if old != new:
            lines.append(line("CHANGE", order, account, parameters.name, commodity.name, old, new, new - old))
    sums = [before.total, after.total, after.total - before.total]
    if parameters.version == 2:
        due_before, due_after = due_of(before.total, before.option_value), due_of(after.total, after.option_value)
        sums += [due_before, due_after, due_after - due_before]
    return lines + [line("ORDER", order, account, parameters.name, *sums)]
