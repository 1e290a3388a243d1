"""A whole page: its style, its script, its security policy, its top and its foot."""
from __future__ import annotations

import base64
import hashlib
import os
import pkgutil
import re
import time
from dataclasses import dataclass
from functools import lru_cache
from typing import Iterable, Tuple

from span_margin import __version__
from span_margin.report._explanation import Rejected
from span_margin.report._markup import Unit, facts, text


@lru_cache(None)
def data(name: str) -> str:
    """The text of a file of this package, after a line end: the style of all pages or of a change, or the script.

    The script sorts tables by a click on the head of a column, and finds accounts by a part of their name. Numbers of a column have the
    same count of decimals, so they compare as whole numbers, of any size.
    """
    found = pkgutil.get_data(__package__, name)
    if found is None:
        raise FileNotFoundError(name)
    return "\n" + found.decode()


def policy(script: str) -> str:
    """The security policy of the page: a browser may load nothing, and may run only the script with this digest."""
    digest = base64.b64encode(hashlib.sha256(script.encode()).digest()).decode()
    return f"default-src 'none'; style-src 'unsafe-inline'; script-src 'sha256-{digest}'; base-uri 'none'; form-action 'none'"


@dataclass(frozen=True)
class Heading:
    """The heading of a page, and what its foot says about where the page comes from: the names of its inputs with their bytes."""

    title: str
    set_id: str
    date: str = ""
    unit: Unit = Unit()
    inputs: Tuple[Tuple[str, bytes], ...] = ()


def moment() -> str:
    """The time at the foot of the page: SOURCE_DATE_EPOCH, in seconds since 1970, or now."""
    chosen = os.environ.get("SOURCE_DATE_EPOCH", "")
    if chosen and not re.fullmatch("[0-9]{1,11}", chosen):
        raise Rejected("SOURCE_DATE_EPOCH in the environment is not a number of seconds since 1970")
    return time.strftime("%Y-%m-%dT%H:%M:%SZ", time.gmtime(int(chosen or time.time())))


def origin(heading: Heading) -> str:
    """The end of the foot: this program, the time, and checksums of the inputs."""
    sums = "".join(f"<p>SHA-256 of the {text(name)}: {hashlib.sha256(data).hexdigest()}</p>" for name, data in heading.inputs)
    return f"<p>Made by span-report {__version__} at {moment()}.</p>{sums}"


def top_part(heading: Heading, kicker: str, pairs: Iterable[Tuple[str, str]]) -> str:
    """The top of a page: its title, set, date and unit, and more facts."""
    date = [("date", text(heading.date))] if heading.date else []
    first = [("set", text(heading.set_id)), *date, ("amounts in", text(heading.unit.name))]
    return f'<header class="top"><p class="kicker">{kicker}</p><h1>{text(heading.title)}</h1>{facts([*first, *pairs])}</header>\n'


def style_text(raw: str) -> str:
    """A text as a string in a style sheet. Only ASCII letters and digits are not coded."""
    coded = (letter if letter.isascii() and letter.isalnum() else f"\\{ord(letter):x} " for letter in raw)
    return f'"{"".join(coded)}"'


def sheets(heading: Heading) -> str:
    """The style for the margins of printed sheets, if the browser can print there."""
    about = ", ".join(filter(None, (f"set {heading.set_id}", heading.date, f"amounts in {heading.unit.name}")))
    return (
        f"@page{{@top-left{{content:{style_text(heading.title)}}}@top-right{{content:{style_text(about)}}}"
        '@bottom-right{content:counter(page) " of " counter(pages)}}'
    )


def document(heading: Heading, top: str, parts: Iterable[str], foot: str, style: str = "") -> str:
    """A whole page: its top, its sections, and the text at its foot. `style` is added to the style of all pages."""
    look, script = data("page.css"), data("page.js")
    return "".join((
        '<!DOCTYPE html>\n<html lang="en">\n<head>\n<meta charset="utf-8">\n'
        f'<meta http-equiv="Content-Security-Policy" content="{text(policy(script))}">\n'
        '<meta name="viewport" content="width=device-width, initial-scale=1">\n'
        f"<title>{text(heading.title)}</title>\n<style>{look}{style}{sheets(heading)}</style>\n</head>\n<body>\n",
        top,
        "<main>\n",
        *parts,
        f"</main>\n<footer>{foot}{origin(heading)}</footer>\n<script>{script}</script>\n</body>\n</html>\n",
    ))
