"""The picture of the sixteen scenarios, in floating point."""
from __future__ import annotations

import math
import operator
from typing import Iterable, List, Optional, Sequence, Tuple

from span_margin.report._markup import Scale

EXTREME_DOWN, EXTREME_UP = 16, 15
# The scenarios from the lowest price to the highest: the price move in words and as a label, and the scenarios with volatility up and down.
MOVES: Tuple[Tuple[str, str, int, Optional[int]], ...] = (
    ("extreme down", "extreme", EXTREME_DOWN, None),
    ("down the whole range", "-1", 13, 14),
    ("down two thirds", "-2/3", 9, 10),
    ("down one third", "-1/3", 5, 6),
    ("unchanged", "0", 1, 2),
    ("up one third", "+1/3", 3, 4),
    ("up two thirds", "+2/3", 7, 8),
    ("up the whole range", "+1", 11, 12),
    ("extreme up", "extreme", EXTREME_UP, None),
)
LEFT, WIDTH, HEIGHT, TOP = 46, 480, 150, 14  # of the plot: left end, right end, height, upper end
FIRST, STEP = 74, 47  # where the lowest price is, and the distance to the next one
BOTTOM = TOP + HEIGHT
PLACES = {number: FIRST + STEP * place for place, (_, _, up, down) in enumerate(MOVES) for number in (up, down) if number}
COLUMNS = [PLACES[number] for number in sorted(PLACES)]  # where each scenario is, in their order
# The sums of a line for volatility up, of a line for volatility down, of the extreme moves, and of all scenarios in the order of MOVES.
UP_SUMS = operator.itemgetter(*(up - 1 for _, _, up, down in MOVES if down))
DOWN_SUMS = operator.itemgetter(*(down - 1 for _, _, _, down in MOVES if down))
EXTREME_SUMS = operator.itemgetter(EXTREME_DOWN - 1, EXTREME_UP - 1)
MOVE_SUMS = operator.itemgetter(*(number - 1 for number in PLACES))


def axis() -> str:
    """The labels of prices, which all scenario pictures use."""
    labels = "".join(f'<text x="{FIRST + STEP * place}" y="{HEIGHT + 35}">{move[1]}</text>' for place, move in enumerate(MOVES))
    return (
        '<svg width="0" height="0" aria-hidden="true" class="defs"><defs><g id="axis">'
        f'{labels}<text x="{(LEFT + WIDTH) // 2}" y="{HEIGHT + 53}">price move, of the scan range</text></g></defs></svg>'
    )


POWERS = tuple((10 ** power, name) for power, name in (
    (18, "quintillions"), (15, "quadrillions"), (12, "trillions"), (9, "billions"), (6, "millions"), (3, "thousands")))


def power_of(scale: Scale) -> Tuple[int, str]:
    """The power of ten of the labels of a scale, and its name."""
    most = max(abs(scale.least), abs(scale.most))
    for power in POWERS:
        if most >= power[0]:
            return power
    return 1, ""


def round_step(width: float) -> float:
    """A step of 1, 2 or 5 times a power of ten, such that at most six steps fit in a width."""
    power = 10.0 ** math.floor(math.log10(width / 3))
    return next(factor * power for factor in (1, 2, 5, 10) if width / (factor * power) <= 6)


def height_of(scale: Scale, amount: float) -> float:
    """The height of an amount in a scenario picture. Larger amounts are higher."""
    return BOTTOM - scale.at(amount, HEIGHT)


def amount_lines(scale: Scale) -> str:
    """Lines at round amounts, with labels."""
    if scale.least == scale.most:
        return ""
    step, power = round_step(scale.most - scale.least), power_of(scale)[0]
    places = range(math.ceil(scale.least / step), math.floor(scale.most / step) + 1)
    at = [(place * step, height_of(scale, place * step)) for place in places]
    lines = "".join([f"M{LEFT} {height:.1f}H{WIDTH}" for _, height in at])
    labels = "".join([
        f'<text class="amount" x="{LEFT - 6}" y="{height + 4:.1f}">{amount / power:.6g}</text>' for amount, height in at])
    return f'<path class="grid" d="{lines}"/>{labels}'


def points_of(scale: Scale, amounts: Iterable[float]) -> List[str]:
    """The places of the sixteen sums in a scenario picture."""
    least, size = scale.least, scale.size
    return [f"{x} {BOTTOM - (amount - least) / size * HEIGHT:.1f}" for x, amount in zip(COLUMNS, amounts)]


def scenario_of(number: int) -> str:
    """A scenario in words."""
    for words, _, up, down in MOVES:
        if number in (up, down):
            volatility = "unchanged" if down is None else "up" if number == up else "down"
            return f"price {words}, volatility {volatility}"
    return ""


PICTURE = (
    f'<svg class="scenarios" viewBox="0 0 {WIDTH} {HEIGHT + 58}" role="img" '
    f'aria-label="Sums of the sixteen scenarios by price move; active is %s">%s<path class="base" d="M{LEFT} %sH{WIDTH}"/>'
    '<path class="stem" d="M%sV%s"/><path class="down" d="M%s"/><path class="down dots" d="M%sh0"/>'
    '<path class="up" d="M%s"/><path class="up dots" d="M%sh0"/><path class="extreme dots" d="M%sh0"/>'
    '<circle cx="%s" cy="%s" r="7"/><use href="#axis"/></svg>')


def scenario_picture(scale: Scale, amounts: Sequence[float], active: int) -> str:
    """Losses by price move: a line for volatility up, a line for volatility down, and a point for each of the two extreme moves."""
    at, zero = points_of(scale, amounts), f"{height_of(scale, 0):.1f}"
    up, down, ring = UP_SUMS(at), DOWN_SUMS(at), at[active - 1]
    x, _, y = ring.partition(" ")
    return PICTURE % (
        active, amount_lines(scale), zero, ring, zero, "L".join(down), "h0M".join(down), "L".join(up), "h0M".join(up),
        "h0M".join(EXTREME_SUMS(at)), x, y)
