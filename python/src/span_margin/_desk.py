"""The words of the command line that answer a desk's questions: attribution, cheapest-close, compare."""
import argparse
import re
from decimal import Decimal
from typing import Callable, Sequence, Tuple, TypeVar

from span_margin import _convert, report
from span_margin._amounts import Money
from span_margin._answers import Answer
from span_margin._closing import CheapestClose
from span_margin._compare import compare
from span_margin._results import Explanation
from span_margin._session import Session
from span_margin._streams import NOT_FOUND, REJECTED, Arguments, Ended, read_file, write_output

Value = TypeVar("Value")
Found = TypeVar("Found", bound=Answer)


def print_answer(answer: Answer, chosen: argparse.Namespace) -> None:
    """Prints an answer as one line of JSON, or one of its tables as CSV."""
    write_output("answer", (answer.to_json() + "\n" if chosen.json else answer.to_csv(chosen.table)).encode())


def answer_of(ask: Callable[[Session], Found], chosen: argparse.Namespace) -> Found:
    """Asks a session of the two files. Ends the command if it does not accept the arguments."""
    with Session(chosen.params, chosen.positions) as desk:
        try:
            return ask(desk)
        except (ValueError, TypeError) as error:
            raise Ended(REJECTED, str(error)) from None


def add_format(parser: Arguments, tables: Sequence[str]) -> None:
    """The options of the format. The first table is the default."""
    more = parser.add_mutually_exclusive_group().add_argument
    more("--json", action="store_true", help="print the whole answer as one line of JSON, instead of a table as CSV")
    more("--table", choices=tables, metavar="TABLE", help=f"the table to print: {', '.join(tables)} (default: {tables[0]})")


def add_account(parser: Arguments) -> None:
    parser.add_argument("params", metavar="PARAMS", help="the parameter file")
    parser.add_argument("positions", metavar="POSITIONS", help="the position file")
    parser.add_argument("account", metavar="ACCOUNT", help="the account")
    parser.add_argument("--of", choices=("total", "due"), default="total", help="the amount in question (default: total)")


def whole_number(text: str) -> int:
    if not re.fullmatch("-?[0-9]{1,40}", text):
        raise argparse.ArgumentTypeError(f"{text!r} is not a whole number")
    return int(text)


def price(text: str) -> Decimal:
    if not re.fullmatch(r"[0-9]{1,20}(\.[0-9]{1,20})?", text):
        raise argparse.ArgumentTypeError(f"{text!r} is not a price")
    return Decimal(text)


def of_contract(read: Callable[[str], Value]) -> Callable[[str], Tuple[str, Value]]:
    """Reads CONTRACT=VALUE."""

    def pair(text: str) -> Tuple[str, Value]:
        contract, equals, value = text.rpartition("=")
        if not equals or not contract:
            raise argparse.ArgumentTypeError(f"{text!r} is not of the form CONTRACT=NUMBER")
        return contract, read(value)

    return pair


# --- attribution ---


def add_attribution(parser: Arguments) -> None:
    add_account(parser)
    parser.add_argument("--seed", type=whole_number, default=0, metavar="N",
                        help="the seed of the random orders of an account with more than 12 contracts (default: 0)")
    add_format(parser, ("shares", "commodities"))


def attribution(chosen: argparse.Namespace) -> None:
    print_answer(answer_of(lambda desk: desk.attribution(chosen.account, chosen.of, seed=chosen.seed), chosen), chosen)


# --- cheapest-close ---


def add_closing(parser: Arguments) -> None:
    add_account(parser)
    parser.add_argument("target", type=whole_number, metavar="TARGET", help="the largest amount allowed after the order, in minor units")
    for name, read, value, about in (
        ("--cost", price, "PRICE", "what closing a lot of a contract costs; all contracts need one (default: each lot costs 1)"),
        ("--most", whole_number, "LOTS", "how many lots of a contract may be closed at most (default: all)"),
    ):
        parser.add_argument(name, type=of_contract(read), action="append", metavar=f"CONTRACT={value}", help=f"{about}; may be repeated")
    parser.add_argument("--only", action="append", metavar="CONTRACT", help="close only this contract; may be repeated")
    add_format(parser, ("legs", "orders"))


def closing(chosen: argparse.Namespace) -> None:
    costs, most = (None if pairs is None else dict(pairs) for pairs in (chosen.cost, chosen.most))

    def ask(desk: Session) -> CheapestClose:
        return desk.cheapest_close(chosen.account, chosen.target, chosen.of, cost=costs, only=chosen.only, most=most)

    answer = answer_of(ask, chosen)
    print_answer(answer, chosen)
    if not answer.is_met:
        raise Ended(NOT_FOUND, f"no order that was found reaches the target; the lowest {answer.of} is {answer.after}")


# --- compare ---


def add_compare(parser: Arguments) -> None:
    parser.add_argument("before", metavar="BEFORE", help="a file of what span explain printed")
    parser.add_argument("after", metavar="AFTER", help="a later one")
    add_format(parser, ("accounts", "commodities", "positions", "rates", "figures", "sums"))
    _convert.add_params(parser)


def comparison(chosen: argparse.Namespace) -> None:
    explanations, currencies = [], _convert.currencies_of(chosen.params)
    for name, what in ((chosen.before, report.EARLIER), (chosen.after, "explanation")):
        data = read_file(name, what)
        try:
            found = report.checked(data, what)
        except report.Rejected as rejected:
            raise Ended(REJECTED, str(rejected)) from None
        explanations.append(Explanation(data, Money(currencies.get(found.set_id))))
    print_answer(compare(*explanations), chosen)
