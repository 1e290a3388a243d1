"""The method. Whoever reads this module from top to bottom meets the sections of METHOD in their order.

METHOD, Units: money is a whole number of minor units, such as cents. A loss is positive and a gain is negative. A delta is an exact
`Fraction`, and so is a number of spreads, which is always a whole number of 10^-4 spreads. No floating point numbers are used.
"""

from __future__ import annotations

from fractions import Fraction
from math import ceil, floor
from typing import Dict, List, NamedTuple, Tuple

from .parameters import Commodity, Contract, Leg, Parameters, Spot, Spread, Tier
from .positions import Holdings

# METHOD, Scenarios: the price move and the volatility move of scenarios 1 to 16.

PRICE_MOVES = ["unchanged", "up one third", "down one third", "up two thirds", "down two thirds", "up the range", "down the range"]
SCENARIOS: List[Tuple[str, str]] = [(price, volatility) for price in PRICE_MOVES for volatility in ("up", "down")]
SCENARIOS += [("extreme move up", "unchanged"), ("extreme move down", "unchanged")]


# METHOD, Positions. `positions.bind` adds up the net quantities, of accounts and of orders: here they are given.


class Held(NamedTuple):
    """METHOD, Positions: a contract that the account holds, with its net quantity, which is not 0."""

    contract: Contract
    net: int


def held_contracts(parameters: Parameters, holdings: Holdings) -> Dict[str, List[Held]]:
    """METHOD, Positions: the held contracts of each commodity of the parameter set. "Other contracts are ignored."

    Commodities and contracts are in the order of their records, as FORMATS, Statement and Explanation have them.
    """
    held: Dict[str, List[Held]] = {commodity.name: [] for commodity in parameters.commodities}
    for contract in sorted((parameters.contract[name] for name in holdings), key=lambda contract: contract.record):
        held[contract.commodity].append(Held(contract, holdings[contract.name]))
    return held


# METHOD, Scan.


class Scan(NamedTuple):
    """METHOD, Scan: the sixteen scenario sums and what follows from them."""

    sums: List[int]
    scan_risk: int
    active: int
    paired: int
    price_risk: Fraction


def scenario_sums(held: List[Held]) -> List[int]:
    """METHOD, Scan: "The scenario sum S(k) is the sum, over the held contracts of a commodity, of net quantity times array value k"."""
    return [sum(holding.net * holding.contract.array[k] for holding in held) for k in range(len(SCENARIOS))]


def active_scenario(sums: List[int]) -> int:
    """METHOD, Scan: the scenario with the largest sum, the lowest-numbered if several have it, "even if no sum is positive"."""
    return sums.index(max(sums)) + 1


def paired_scenario(active: int) -> int:
    """METHOD, Scan: "the same price move and the other volatility move. Scenarios 15 and 16 are each their own pair"."""
    price, volatility = SCENARIOS[active - 1]
    for number, (other_price, other_volatility) in enumerate(SCENARIOS, 1):
        if other_price == price and other_volatility != volatility:
            return number
    return active


def scan_of(held: List[Held]) -> Scan:
    """METHOD, Scan: scan risk is "the largest of the sixteen sums, or 0 if none is positive".

    "Price risk is volatility-adjusted risk less time risk, or 0 if that is negative. Time risk is the mean of S(1) and S(2).
    Volatility-adjusted risk is the mean of the active and the paired sum." It is never rounded.
    """
    sums = scenario_sums(held)
    active = active_scenario(sums)
    paired = paired_scenario(active)
    time_risk = Fraction(sums[0] + sums[1], 2)
    volatility_adjusted_risk = Fraction(sums[active - 1] + sums[paired - 1], 2)
    return Scan(sums, max(0, max(sums)), active, paired, max(Fraction(0), volatility_adjusted_risk - time_risk))


# METHOD, Deltas.


def delta_of(holding: Held) -> Fraction:
    """METHOD, Deltas: the delta of a held contract is "net quantity times composite delta times delta scaling factor"."""
    return holding.net * holding.contract.delta * holding.contract.scale


def month_deltas(held: List[Held]) -> Dict[int, Fraction]:
    """METHOD, Deltas: "A month delta is the sum of the deltas of a commodity's held contracts in one month". Earliest month first."""
    deltas: Dict[int, Fraction] = {}
    for holding in sorted(held, key=lambda holding: holding.contract.month):
        month = holding.contract.month
        deltas[month] = deltas.get(month, Fraction(0)) + delta_of(holding)
    return deltas


def net_delta_of(deltas: Dict[int, Fraction]) -> Fraction:
    """METHOD, Deltas: "The net delta of a commodity is the sum of its month deltas"."""
    return sum(deltas.values(), Fraction(0))


# METHOD, Intracommodity spreads.


class Formed(NamedTuple):
    """FORMATS, Explanation: a direction in which a spread forms, named by the side whose legs are long, and the number of spreads."""

    spread: Spread
    long_side: str
    number: Fraction


def available(remaining: Fraction, is_long: bool) -> Fraction:
    """METHOD, Sides of a tier: what a remaining delta has for a long leg if it is positive, for a short leg if it is negative."""
    return max(Fraction(0), remaining if is_long else -remaining)


def side_of_tier(remaining: Dict[int, Fraction], tier: Tier, is_long: bool) -> Fraction:
    """METHOD, Sides of a tier: "The long side of a tier is the sum of its months' positive remaining deltas".

    "The short side is the size of the sum of the negative ones."
    """
    return sum((available(delta, is_long) for month, delta in remaining.items() if tier.first <= month <= tier.last), Fraction(0))


def spreads_formed(sides: List[Fraction], legs: List[Leg]) -> Fraction:
    """METHOD, Spreads formed: "the greatest number for which the side of every leg has `n * ratio` units".

    "n is a whole number of 10^-4 spreads. If a side is empty, n is 0."
    """
    return min(Fraction(floor(side / leg.ratio * 10000), 10000) for side, leg in zip(sides, legs))


def use_months(remaining: Dict[int, Fraction], tier: Tier, is_long: bool, needed: Fraction) -> None:
    """METHOD, Months used: a leg "uses the earliest month of its tier first, and the next one only for what is still needed"."""
    for month in sorted(remaining):
        if tier.first <= month <= tier.last:
            used = min(needed, available(remaining[month], is_long))
            remaining[month] -= used if is_long else -used
            needed -= used


def form_intra_spreads(parameters: Parameters, commodity: str, remaining: Dict[int, Fraction]) -> List[Formed]:
    """METHOD, Intracommodity spreads: form a commodity's spreads by priority, which leaves less in the remaining deltas.

    "Each spread is formed in both directions before the next one: first with A legs long and B legs short, then with A legs short and B
    legs long. In one direction n spreads form. Each leg uses `n * ratio` units of its side."
    """
    formed: List[Formed] = []
    tiers = parameters.tiers_of[commodity]
    for spread in parameters.intra_spreads_of[commodity]:
        for long_side in ("A", "B"):
            sides = [side_of_tier(remaining, tiers[leg.tier], leg.side == long_side) for leg in spread.legs]
            number = spreads_formed(sides, spread.legs)
            if number > 0:
                formed.append(Formed(spread, long_side, number))
                for leg in spread.legs:
                    use_months(remaining, tiers[leg.tier], leg.side == long_side, number * leg.ratio)
    return formed


# METHOD, Charges.


class SpotMonth(NamedTuple):
    """FORMATS, Explanation: a spot month, what spreads used of its delta, what they left, and its exact charge."""

    spot: Spot
    used: Fraction
    left: Fraction
    charge: Fraction


def spread_charge(formed: Formed) -> Fraction:
    """METHOD, Charges: "Each spread formed costs its rate"."""
    return formed.number * formed.spread.rate


def intra_charge_of(formed: List[Formed]) -> int:
    """METHOD, Charges: "The intracommodity charge is the sum of `n * rate` over all spreads and both directions", rounded up at the end."""
    return ceil(sum(map(spread_charge, formed), Fraction(0)))


def spot_month(spot: Spot, month_delta: Fraction, remaining: Fraction) -> SpotMonth:
    """METHOD, Charges: what a spot month costs.

    left = |remaining delta|, used = |month delta| - left, and the charge is used * spread rate + left * outright rate.
    """
    left = abs(remaining)
    used = abs(month_delta) - left
    return SpotMonth(spot, used, left, used * spot.spread_rate + left * spot.outright_rate)


def delivery_charge_of(spot_months: List[SpotMonth]) -> int:
    """METHOD, Charges: "The exact sum over the spot months is divided by 10^8 and rounded up". Here it is in minor units already."""
    return ceil(sum((month.charge for month in spot_months), Fraction(0)))


# METHOD, Intercommodity spreads.


def form_inter_spreads(parameters: Parameters, net_deltas: Dict[str, Fraction]) -> List[Formed]:
    """METHOD, Intercommodity spreads: form the spreads of the parameter set by priority.

    "The remaining delta starts as the full net delta: intracommodity spreads do not reduce it. Directions and n follow the rules of
    intracommodity spreads, but a leg uses the remaining delta of its commodity instead of a tier's side."
    """
    formed: List[Formed] = []
    remaining = dict(net_deltas)
    for spread in parameters.inter_spreads:
        for long_side in ("A", "B"):
            sides = [available(remaining[leg.commodity], leg.side == long_side) for leg in spread.legs]
            number = spreads_formed(sides, spread.legs)
            if number > 0:
                formed.append(Formed(spread, long_side, number))
                for leg in spread.legs:
                    remaining[leg.commodity] -= number * leg.ratio if leg.side == long_side else -number * leg.ratio
    return formed


class Offset(NamedTuple):
    """FORMATS, Explanation: an intercommodity spread as formed, and the delta that its leg in one commodity used."""

    formed: Formed
    delta_used: Fraction


def offsets_of(formed: List[Formed], commodity: str) -> List[Offset]:
    """METHOD, Intercommodity spreads: "A leg uses `n * ratio` units". A commodity has at most one leg in a spread (C8)."""
    return [Offset(each, each.number * leg.ratio) for each in formed for leg in each.spread.legs if leg.commodity == commodity]


def weight_of(offsets: List[Offset]) -> Fraction:
    """METHOD, Intercommodity spreads: a leg "adds `n * ratio * basis points` to its commodity's weight"."""
    return sum((offset.delta_used * offset.formed.spread.rate for offset in offsets), Fraction(0))


def credit_of(price_risk: Fraction, weight: Fraction, net_delta: Fraction) -> int:
    """METHOD, Credit: weighted futures price risk, "price risk divided by the size of the commodity's net delta", times weight.

    The weight has basis points, 10^-4. "The credit is rounded down. It is 0 if the net delta is 0."
    """
    return 0 if net_delta == 0 else floor(price_risk * weight / (10000 * abs(net_delta)))


# METHOD, Minimum and requirement.


def short_options(held: List[Held], option_type: str) -> int:
    """METHOD, Minimum: "The number of short calls is the sum of the sizes of the negative net quantities in calls". Puts likewise."""
    return sum(-holding.net for holding in held if holding.contract.type == option_type and holding.net < 0)


def minimum_of(commodity: Commodity, short_calls: int, short_puts: int) -> int:
    """METHOD, Minimum: "the commodity's rate times a number of short option contracts".

    "Method `SUM` takes both numbers together, and `MAX` the larger one."
    """
    counted = short_calls + short_puts if commodity.method == "SUM" else max(short_calls, short_puts)
    return commodity.minimum_rate * counted


def requirement_of(scan_risk: int, intra_charge: int, delivery_charge: int, credit: int, minimum: int) -> int:
    """METHOD, Requirement: "the larger of scan risk + intracommodity charge + delivery charge - intercommodity credit, and the minimum"."""
    return max(scan_risk + intra_charge + delivery_charge - credit, minimum)


# METHOD, Option value.


def value_of(holding: Held) -> int:
    """METHOD, Option value: "net quantity times value". "In profile 1 the field is missing, every value is 0"."""
    return holding.net * holding.contract.value


def due_of(total: int, option_value: int) -> int:
    """METHOD, Option value: due = max(0, total - option value), "what the account has to post"."""
    return max(0, total - option_value)


def excess_of(total: int, option_value: int) -> int:
    """METHOD, Option value: excess = max(0, option value - total)."""
    return max(0, option_value - total)


# METHOD, The plan of steps: "All steps together give the figures, the total and the option value."


class Figures(NamedTuple):
    """METHOD, Requirement: the figures of a commodity, and the numbers of its explanation."""

    commodity: Commodity
    held: List[Held]
    scan: Scan
    month_deltas: Dict[int, Fraction]
    months_left: Dict[int, Fraction]
    intra_spreads: List[Formed]
    intra_charge: int
    spot_months: List[SpotMonth]
    delivery_charge: int
    offsets: List[Offset]
    net_delta: Fraction
    weight: Fraction
    credit: int
    short_calls: int
    short_puts: int
    minimum: int
    requirement: int


class Margin(NamedTuple):
    """METHOD, Requirement and Option value: the figures of the commodities in which the account holds a contract, and its sums."""

    figures: List[Figures]
    total: int
    option_value: int


def figures_of(parameters: Parameters, commodity: Commodity, held: List[Held], inter_spreads: List[Formed]) -> Figures:
    """METHOD: the figures of a commodity, in the order of the sections. METHOD, Rounding: both charges and the credit, and nothing else."""
    scan = scan_of(held)
    deltas = month_deltas(held)
    left = dict(deltas)
    intra_spreads = form_intra_spreads(parameters, commodity.name, left)
    intra_charge = intra_charge_of(intra_spreads)
    spots = parameters.spots_of[commodity.name]
    spot_months = [spot_month(spot, deltas[spot.month], left[spot.month]) for spot in spots if deltas.get(spot.month, 0) != 0]
    delivery_charge = delivery_charge_of(spot_months)
    offsets = offsets_of(inter_spreads, commodity.name)
    net_delta = net_delta_of(deltas)
    weight = weight_of(offsets)
    credit = credit_of(scan.price_risk, weight, net_delta)
    short_calls, short_puts = short_options(held, "C"), short_options(held, "P")
    minimum = minimum_of(commodity, short_calls, short_puts)
    requirement = requirement_of(scan.scan_risk, intra_charge, delivery_charge, credit, minimum)
    return Figures(
        commodity, held, scan, deltas, left, intra_spreads, intra_charge, spot_months, delivery_charge,
        offsets, net_delta, weight, credit, short_calls, short_puts, minimum, requirement,
    )  # fmt: skip


def margin_of(parameters: Parameters, holdings: Holdings) -> Margin:
    """METHOD, Requirement: "The total of an account is the sum of its requirements over all commodities of the parameter set".

    "The requirement of a commodity in which nothing is held is 0." The option value is the sum over all commodities, too.
    """
    held_of = held_contracts(parameters, holdings)
    net_deltas = {commodity: net_delta_of(month_deltas(held)) for commodity, held in held_of.items()}
    inter_spreads = form_inter_spreads(parameters, net_deltas)
    figures = [figures_of(parameters, each, held_of[each.name], inter_spreads) for each in parameters.commodities if held_of[each.name]]
    total = sum(each.requirement for each in figures)
    return Margin(figures, total, sum(value_of(holding) for held in held_of.values() for holding in held))


# METHOD, Rounding: there are three roundings, `intra_charge_of` and `delivery_charge_of` up, and `credit_of` down.
# METHOD, Limits: see `limits.py`. "Bounds of the computed values follow from these limits." Python's numbers need none.
