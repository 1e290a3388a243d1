"""Pieces of pages: amounts, figures, tables, and bars in floating point."""
from __future__ import annotations

from dataclasses import dataclass
from decimal import Decimal
from functools import lru_cache
from html import escape
from typing import Callable, Iterable, List, Sequence, Tuple, Union
from urllib.parse import quote

from span_margin._cached import cached

CACHED = 1 << 16  # names whose markup is kept, since most of them appear again

# --- Amounts ---


@dataclass(frozen=True)
class Unit:
    """The unit of the amounts of a page. Lines have minor units. A page may move the decimal point by `digits` to the left."""

    name: str = "minor units, such as cents"
    digits: int = 0

    def amount(self, minor: str) -> str:
        """An amount of a line in this unit. No digit is rounded away."""
        if not self.digits:
            return minor
        sign = "-" if minor[0] == "-" else ""
        whole, _, fraction = minor[len(sign):].partition(".")
        whole = whole.rjust(self.digits + 1, "0")
        return f"{sign}{whole[:-self.digits]}.{whole[-self.digits:]}{fraction}"

    def amounts(self, minor: Iterable[str]) -> List[str]:
        return [self.amount(each) for each in minor]

    @cached
    def figure(self) -> Callable[[str], str]:
        """The function that makes the markup of an amount of a line in this unit."""
        return (lambda minor: figure(self.amount(minor))) if self.digits else figure


def figure(digits: str) -> str:
    """A number in which each group of three digits, except the first group, is an element. As text it is still the digits, since the gaps
    between the groups are margins. Most numbers are short, and these are fast."""
    size = len(digits)
    if size < 4:
        return f"<b>{digits}</b>"
    if digits[0] == "-":
        return f"<b>-{figure(digits[1:])[3:]}"
    if "." in digits:
        whole, _, fraction = digits.partition(".")
        return f"{figure(whole)[:-4]}.{fraction}</b>"
    if size < 7:
        return f"<b>{digits[:-3]}<span>{digits[-3:]}</span></b>"
    if size < 10:
        return f"<b>{digits[:-6]}<span>{digits[-6:-3]}</span><span>{digits[-3:]}</span></b>"
    return f"{figure(digits[:-3])[:-4]}<span>{digits[-3:]}</span></b>"


# --- Markup ---

@lru_cache(CACHED)
def text(raw: str) -> str:
    """A text from the input, escaped for the page."""
    return escape(raw, quote=True)


@lru_cache(CACHED)
def coded(name: str) -> str:
    """A name as a part of an id, with codes for points and for all characters that a page would have to escape."""
    return quote(name, safe="").replace(".", "%2E")


def anchor(account: str, commodity: str = "") -> str:
    """The id of the section of an account, or of a commodity in it, after a point."""
    return f"account-{coded(account)}.{coded(commodity)}" if commodity else f"account-{coded(account)}"


def link(name: str, target: str) -> str:
    return f'<a href="#{target}">{text(name)}</a>'


def cell(digits: str, kind: str = "f", name: str = "") -> str:
    """A cell with a figure. If rows are folded on a narrow screen, its name is above it."""
    named = f' data-l="{name}"' if name else ""
    return f'<td class="{kind}"{named}>{figure(digits)}</td>'


def cells(figures: Sequence[str], names: Sequence[str]) -> str:
    return "".join([f'<td class="f" data-l="{name}">{figure(digits)}</td>' for digits, name in zip(figures, names)])


def word_cell(raw: str) -> str:
    """A cell with a name or a word."""
    return f"<td>{text(raw)}</td>"


def head_cell(name: str, sorted_by: str, way: str) -> str:
    """A cell in the head of a table. A `>` in front of the name marks a column of figures, and a `=` a column of pictures."""
    kind = {">": ' class="f"', "=": ' class="picture"'}.get(name[:1], "")
    name = name.lstrip(">=")
    order = f' aria-sort="{way}"' if name and name == sorted_by else ""
    return f'<th scope="col"{kind}{order}>{name}</th>'


@lru_cache(None)
def heads(*names: str, falling: str = "", rising: str = "") -> str:
    """The head of a table, which also says by which column the rows are sorted."""
    way = "descending" if falling else "ascending"
    return f'<thead><tr>{"".join(head_cell(name, falling or rising, way) for name in names)}</tr></thead>'


def table(kind: str, head: str, rows: Iterable[str], foot: str = "", style: str = "") -> str:
    foot, style = f"<tfoot>{foot}</tfoot>" if foot else "", f' style="{style}"' if style else ""
    return f'<div class="wide"><table class="{kind}"{style}>{head}<tbody>{"".join(rows)}</tbody>{foot}</table></div>'


def widths(names: Iterable[str], rows: Iterable[Sequence[str]]) -> str:
    """The widths of the columns of a list of accounts, for its longest name and its longest figures. No column can get its width from its
    rows, since each row is a box of its own. So a browser need not lay out the rows that are out of sight."""
    longest = [max(map(len, column)) for column in zip(*rows)]
    figures = [max(4, 0.52 * digits + 0.17 * ((digits - 1) // 3) + 1.05) for digits in longest]
    given = [min(max(4.4, 0.62 * max(map(len, names)) + 0.9), 16), *figures]
    columns = "".join([f"--c{number}:{width:.2f}rem;" for number, width in enumerate(given, 1)])
    return f"{columns}--given:{sum(given):.2f}rem;--columns:{len(figures)}"


def part(title: str, body: str, note: str = "") -> str:
    """A part of a commodity under a heading."""
    note = f'<p class="note">{note}</p>' if note else ""
    return f'<div class="part"><h4>{title}</h4>{body}{note}</div>'


def facts(pairs: Iterable[Tuple[str, str]]) -> str:
    """Names with their values, side by side."""
    return f'<dl class="facts">{"".join(f"<div><dt>{name}</dt><dd>{what}</dd></div>" for name, what in pairs)}</dl>'


# --- Bars, in floating point ---

class Scale:
    """The range of amounts that a picture shows."""

    __slots__ = ("least", "most", "size")

    def __init__(self, amounts: Iterable[float]) -> None:
        """A scale that has 0 and all amounts in it."""
        amounts = [0.0, *amounts]
        self.least, self.most = min(amounts), max(amounts)
        self.size = (self.most - self.least) or 1.0

    def at(self, amount: float, size: float = 100.0) -> float:
        return (amount - self.least) / self.size * size

    def bar(self, kind: str, begin: float, end: float) -> str:
        """A bar between two amounts, in percent of the width of its row."""
        if begin == end:
            return ""
        if begin > end:
            begin, end = end, begin
        left = (begin - self.least) / self.size * 100.0
        return f'<i class="{kind}" style="left:{left:.2f}%;width:{(end - self.least) / self.size * 100.0 - left:.2f}%"></i>'

    def zero(self) -> str:
        return f'<i class="zero" style="left:{self.at(0):.2f}%"></i>'


def bars(*parts: str) -> str:
    return f'<td class="bars"><span class="bar">{"".join(parts)}</span></td>'


def level(scale: Scale, amount: int) -> str:
    """A line from the row above to the beginning of the bar of a row."""
    return f'<i class="level" style="left:{scale.at(float(amount)):.2f}%"></i>'


def effect(change: Union[int, Decimal]) -> str:
    """What an order with this change does."""
    return "frees" if change < 0 else "costs" if change else "same"


def layer(amount: int, whole: int, height: str) -> str:
    """The size of a layer in the background of a cell, which draws a share of the whole. Long lists have such bars, since they load faster
    than elements."""
    return f"{float(amount) / (whole or 1) * 100:.2f}% {height}"


def percent(part_of: int, whole: int) -> str:
    """A share in percent with one decimal, rounded half up."""
    tenths = (2000 * part_of + whole) // (2 * whole) if whole else 0
    return f"{tenths // 10}.{tenths % 10}"


def share_cell(amount: int, largest: int, whole: int) -> str:
    """A cell with a share of the whole in percent, and a bar that fills the cell for the largest share of the table."""
    return f'<td class="share" style="background-size:{layer(amount, largest, ".5rem")}">{figure(percent(amount, whole))}</td>'
