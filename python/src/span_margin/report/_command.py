"""The page that is asked for, and the command `span-report`, which is `python -m span_margin report`, too."""
from __future__ import annotations

import argparse
import gc
import re
from typing import List, Optional, SupportsBytes, Tuple, Union

from span_margin import __version__
from span_margin._streams import REJECTED, Arguments, Ended, finish, printable, read_file, read_input, write_file, write_output
from span_margin.report._checks import ParameterSet, check_figures, read_params
from span_margin.report._document import Heading
from span_margin.report._explanation import EARLIER, Explanation, Rejected, read_explanation
from span_margin.report._markup import Unit
from span_margin.report._orders import read_orders
from span_margin.report._page import page_of_explanation
from span_margin.report._shares import Attributions, bytes_of, read_attributions

SHOWN = 100  # how many accounts have details, and how many orders are listed, by default
Printed = Union[bytes, SupportsBytes]  # what span printed: bytes, or a result such as an Explanation
ABOUT = "make one HTML page of what span explain prints"


def unit_of(name: str, major: Optional[int], set_id: str, params: Optional[ParameterSet]) -> Unit:
    """The unit that is asked for. If there is a parameter set, the unit has its currency."""
    shown = name or (Unit.name if major is None else "major units")
    if params:
        if params.set_id != set_id:
            raise Rejected(f"the file of --params has the set {printable(params.set_id)}, and the explanation has {set_id}")
        currency = printable(params.currency)
        if name and currency not in re.findall(r"\w+", name):
            raise Rejected(f"--unit is {name}, and the currency of the parameter set is {currency}; --unit has to contain it")
        shown = name or (f"minor units of {currency}" if major is None else currency)
    return Unit(shown, major or 0)


def checked(data: bytes, what: str, params: Optional[ParameterSet] = None) -> Explanation:
    """An explanation whose lines and figures agree. `what` is its name in messages. Raises Rejected if they do not agree."""
    found = read_explanation(data, what)
    check_figures(found, what, params)
    return found


def page(
    explanation: Printed, *, before: Optional[Printed] = None, orders: Optional[Printed] = None, params: Optional[bytes] = None,
    major: Optional[int] = None, unit: str = "", date: str = "", title: str = "", top: int = SHOWN,
    attributions: Optional[Attributions] = None,
) -> str:
    """The page of an explanation; with `before`, an earlier one, the page of what changed.

    orders  evaluated orders of the same positions, which the page lists
    params  the content of the parameter file of the explanation: the unit gets its currency, and sums of scenarios are checked
    major   how many digits the minor unit has: amounts are in major units; by default they are in minor units
    unit, date, title    texts at the top of the page
    top     how many accounts have details, and how many orders are listed
    attributions   of accounts of the explanation, or the lines of their JSON texts: the details show the shares of positions

    Raises Rejected if the input does not agree.
    """
    found_params = None if params is None else read_params(params)
    inputs: List[Tuple[str, bytes]] = []

    def read(printed: Printed, what: str) -> Explanation:
        inputs.append((what, bytes(printed)))
        return checked(inputs[-1][1], what, found_params)

    after = read(explanation, "explanation")
    chosen = unit_of(unit, major, after.set_id, found_params)
    if before is not None:
        if attributions is not None:
            raise Rejected("a page with an earlier explanation shows no attributions")
        from span_margin import _results as results  # (here, since other pages need none of it)
        from span_margin._compare import compare
        from span_margin.report._changes import page_of_change

        sets = f"{read(before, EARLIER).set_id} to {after.set_id}"
        both = compare(*(results.Explanation(printed) for _, printed in reversed(inputs)))
        return page_of_change(both, top, Heading(title or f"Margin from {sets}", sets, date, chosen, tuple(inputs)))
    listed = None
    if orders is not None:
        inputs.append(("file of orders", bytes(orders)))
        listed = read_orders(inputs[-1][1], after)
    shares = None
    if attributions is not None:
        inputs.append(("file of attributions", bytes_of(attributions)))
        shares = read_attributions(inputs[-1][1], after)
    heading = Heading(title or f"Margin under {after.set_id}", after.set_id, date, chosen, tuple(inputs))
    return page_of_explanation(after, listed, top, heading, shares)


# --- The command ---


def number_of_accounts(word: str) -> int:
    if not re.fullmatch("[0-9]{1,9}", word) or int(word) == 0:
        raise argparse.ArgumentTypeError(f"{word!r} is not a whole number from 1 on")
    return int(word)


def number_of_digits(word: str) -> int:
    if not re.fullmatch("[0-9]", word):
        raise argparse.ArgumentTypeError(f"{word!r} is not a whole number from 0 to 9")
    return int(word)


def add_options(parser: Arguments) -> None:
    option = parser.add_argument
    option("--major", type=number_of_digits, metavar="DIGITS",
           help="show amounts in major units, with this many decimals: 2 if 100 cents are a dollar")
    option("--unit", type=printable, default="", metavar="TEXT", help="the unit of the amounts on the page, such as USD")
    option("--params", metavar="FILE",
           help="the parameter set of the explanation: the page gets its currency, another --unit is an error, and sums are checked")
    option("--date", type=printable, default="", metavar="TEXT", help="the date at the top of the page")
    option("--title", type=printable, default="", metavar="TEXT", help="the heading of the page")
    option("--top", type=number_of_accounts, default=SHOWN, metavar="N",
           help=f"how many accounts have details, and how many orders are listed (default: {SHOWN})")
    option("--attribution", metavar="FILE",
           help="what python3 -m span_margin attribution --json printed for accounts of the explanation; their details show the shares of "
                "positions")
    more = parser.add_mutually_exclusive_group().add_argument
    more("--orders", metavar="FILE", help="what span whatif printed for the same files; the page gets a table of orders")
    more("--before", metavar="FILE", help="an earlier explanation; the page shows what changed since then, and why")
    option("-o", dest="output", metavar="FILE", help="write the page to FILE, which is only replaced by a complete page")


def run(chosen: argparse.Namespace) -> None:
    """Makes the page that the command line asks for of standard input."""
    gc.disable()  # an explanation has millions of objects and no cycles, so each collection would take long and find nothing

    def file(name: Optional[str], what: str) -> Optional[bytes]:
        return None if name is None else read_file(name, what)

    params = file(chosen.params, "parameter set")
    explanation = read_input("explanation")
    before, orders = file(chosen.before, EARLIER), file(chosen.orders, "file of orders")
    attributions = file(chosen.attribution, "file of attributions")
    words = {name: getattr(chosen, name) for name in ("major", "unit", "date", "title", "top")}
    try:
        made = page(explanation, before=before, orders=orders, params=params, attributions=attributions, **words)
    except Rejected as rejected:
        raise Ended(REJECTED, str(rejected)) from None
    write_file(chosen.output, "page", made.encode("utf-8"))


def main() -> None:
    """The command `span-report`."""

    def command() -> None:
        parser = Arguments(
            prog="span-report",
            usage="span explain PARAMS POSITIONS | span-report [OPTIONS] >report.html",
            description="Makes one HTML page of what span explain prints.",
            epilog="Exit status: 0 the whole page was written; 2 usage error or rejected input; 6 a file or stream could not be read or "
                   "written. man span-report has the details.",
        )
        add_options(parser)
        parser.add_argument("--version", action="store_true", help="print the version")
        chosen = parser.parse_args()
        if chosen.version:
            write_output("version", f"span-report {__version__}\n".encode())
        else:
            run(chosen)

    finish("span-report", command)
