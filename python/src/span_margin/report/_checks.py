"""Whether the R and T lines of an explanation follow from the lines before them. All arithmetic is exact."""
from __future__ import annotations

import csv
import io
import itertools
from dataclasses import dataclass
from decimal import ROUND_CEILING, Context, Decimal, localcontext
from typing import Dict, Iterable, Iterator, List, Optional, Sequence, Tuple

from span_margin.report._explanation import TYPES, Account, Commodity, Explanation, Intra, Rejected, Spot


EXACT = Context(prec=200)  # a field has at most 40 digits before its point and 40 after it
Check = Tuple[str, object, object]  # a figure of a line: its name, what the line has, and what follows from the lines before it


def short_sold(commodity: Commodity, kind: str) -> int:
    """How many contracts of a type are sold short."""
    return -sum(int(line.net) for line in commodity.held if line.kind == kind and line.net[0] == "-")


def numbers(fields: Iterable[str]) -> List[Decimal]:
    return [Decimal(digits) for digits in fields]


def charge_of_intra(line: Intra) -> Decimal:
    """The exact charge of an INTRA line."""
    return Decimal(line.spreads) * Decimal(line.rate)


def charge_of_spot(line: Spot) -> Decimal:
    """The exact charge of a SPOT line."""
    return Decimal(line.used) * Decimal(line.spread_rate) + Decimal(line.left) * Decimal(line.outright_rate)


def checks_of_charges(name: str, whole: str, charges: Sequence[Tuple[str, Decimal]]) -> Iterator[Check]:
    """Exact charges of lines, and their sum, rounded up once."""
    for digits, charge in charges:
        yield name, Decimal(digits), charge
    yield name, int(whole), sum((charge for _, charge in charges), Decimal()).to_integral_value(ROUND_CEILING)


@dataclass(frozen=True)
class ParameterSet:
    """The file of --params: the id and the currency of its SET record, and the array of each contract."""

    set_id: str
    currency: str
    arrays: Dict[str, List[int]]


def read_params(data: bytes) -> ParameterSet:
    lines = io.StringIO(data.decode("latin-1").replace("\xef\xbb\xbf", "", 1), newline="")
    try:
        records = [record for record in csv.reader(lines) if record]
        arrays = {record[1]: [int(digits) for digits in record[7:23]] for record in records if record[0] == "CONTRACT" and len(record) > 22}
    except (csv.Error, ValueError):
        raise Rejected("the file of --params is not a parameter set: a record is malformed") from None
    if not records or records[0][0] != "SET" or len(records[0]) != 4:
        raise Rejected("the file of --params is not a parameter set: it does not begin with a SET record")
    return ParameterSet(records[0][1], records[0][3], arrays)


def checks_of_sums(commodity: Commodity, arrays: Dict[str, List[int]]) -> Iterator[Check]:
    """The scenario sums, which follow from the HELD lines and the arrays of a parameter set."""
    for line in commodity.held:
        if line.contract not in arrays:
            raise Rejected(f"the file of --params has no contract {line.contract}, which the explanation has")
    held = [(int(line.net), arrays[line.contract]) for line in commodity.held]
    for at, digits in enumerate(commodity.sums):
        yield f"sum of scenario {at + 1}", int(digits), sum(net * array[at] for net, array in held)


def checks_of(commodity: Commodity) -> Iterator[Check]:
    """The figures of a commodity that follow from the lines before them. All arithmetic is exact."""
    scan, of_credit, short, row = commodity.scan, commodity.credit, commodity.short, commodity.row
    sums = [int(digits) for digits in commodity.sums]
    largest = max(sums)
    yield "months", [line.month for line in commodity.months], sorted({line.month for line in commodity.held})
    for kind, digits in (("C", short.calls), ("P", short.puts)):
        yield f"number of short {TYPES[kind]}s", int(digits), short_sold(commodity, kind)
    for risk, active in ((scan.scan, scan.active), (row.scan, row.active)):
        yield "scan risk", int(risk), max(0, largest)
        yield "active scenario", int(active), sums.index(largest) + 1
    calendar = [(line.charge, charge_of_intra(line)) for line in commodity.intras]
    yield from checks_of_charges("calendar spread charge", row.calendar, calendar)
    yield from checks_of_charges("delivery charge", row.delivery, [(line.charge, charge_of_spot(line)) for line in commodity.spots])
    price_risk, net, weight = numbers(of_credit)
    yield "price risk", price_risk, Decimal(scan.price_risk)
    yield "net delta", net, sum(numbers(line.delta for line in commodity.months), Decimal())
    yield "weight of credits", weight, sum((Decimal(line.used) * Decimal(line.points) for line in commodity.inters), Decimal())
    yield "credit", int(row.credit), price_risk * weight // (10000 * abs(net)) if net else 0
    calls, puts = int(short.calls), int(short.puts)
    yield "short option minimum", int(row.minimum), int(short.rate) * (calls + puts if short.method == "SUM" else max(calls, puts))
    asked = int(row.scan) + int(row.calendar) + int(row.delivery) - int(row.credit)
    yield "requirement", int(row.requirement), max(asked, int(row.minimum))


def checks_of_total(account: Account) -> Iterator[Check]:
    """The figures of a T line."""
    total = account.total
    required = sum([int(commodity.row.requirement) for commodity in account.commodities])
    yield "total", int(total.total), required
    if total.value is not None and total.due is not None and total.excess is not None:
        value = sum([int(line.value or 0) for commodity in account.commodities for line in commodity.held])
        yield "option value", int(total.value), value
        owed = int(total.total) - int(total.value)
        yield "due", int(total.due), max(0, owed)
        yield "excess", int(total.excess), max(0, -owed)


def shown_value(value: object) -> str:
    return " ".join(value) or "none" if isinstance(value, list) else format(value, "f" if isinstance(value, Decimal) else "")


def check_figures(explanation: Explanation, what: str, params: Optional[ParameterSet] = None) -> None:
    """Raises Rejected at the first figure that does not follow from the lines before it, for example since a line was lost. With the
    parameter set, the scenario sums are checked, too."""
    arrays = params.arrays if params and params.set_id == explanation.set_id else None

    def checks(commodity: Commodity) -> Iterator[Check]:
        return itertools.chain(() if arrays is None else checks_of_sums(commodity, arrays), checks_of(commodity))

    with localcontext(EXACT):
        for account in explanation.accounts:
            found = itertools.chain(
                (("in " + commodity.name, check) for commodity in account.commodities for check in checks(commodity)),
                (("in its T line", check) for check in checks_of_total(account)))
            for place, (name, given, expected) in found:
                if given != expected:
                    raise Rejected(
                        f"the {what} contradicts itself, so a line is lost or changed: account {account.name} has the {name} "
                        f"{shown_value(given)} {place}, and {shown_value(expected)} follows from the lines before it")
