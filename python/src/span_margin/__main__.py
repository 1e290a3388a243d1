"""The command `span-desk WORD`, which is `python -m span_margin WORD`, too: what the package does for a shell."""
import argparse
from functools import partial
from typing import Callable, Dict, NamedTuple

from span_margin import __version__, _convert, _desk, report
from span_margin._streams import STATUSES, Arguments, finish, write_output

DESK, MODULE = "span-desk", "python -m span_margin"  # how the command may be called
EXAMPLES = """examples:
  span margin PARAMS POSITIONS | {name} table --major 2
  span explain PARAMS POSITIONS | {name} csv --only HELD
  span explain PARAMS POSITIONS | {name} report -o report.html
  {name} attribution PARAMS POSITIONS ACCOUNT
  {name} cheapest-close PARAMS POSITIONS ACCOUNT 1000000
  {name} compare YESTERDAY TODAY
"""


class Word(NamedTuple):
    """A word of the command line: what it does, the function that adds its options, and the function that does it."""

    about: str
    add_options: Callable[[Arguments], None]
    run: Callable[[argparse.Namespace], None]


WORDS: Dict[str, Word] = {
    "table": Word("print lines of span as an aligned table for each kind of line", _convert.add_options,
                  partial(_convert.convert, _convert.as_tables)),
    "json": Word("print an object for each line of span; numbers with fractions are strings", _convert.add_options,
                 partial(_convert.convert, _convert.as_json)),
    "csv": Word("print lines of span as one table with a header; a row has only the columns of its kind of line", _convert.add_options,
                partial(_convert.convert, _convert.as_csv)),
    "report": Word(report.ABOUT, report.add_options, report.run),
    "attribution": Word("print what each position contributes to the margin of an account, in shares that add up to it",
                        _desk.add_attribution, _desk.attribution),
    "cheapest-close": Word("print the cheapest order that closes positions until the margin of an account is at most a target",
                           _desk.add_closing, _desk.closing),
    "compare": Word("print what differs between two explanations, such as yesterday's and today's", _desk.add_compare, _desk.comparison),
}


def command_line(name: str) -> Arguments:
    """The words, each with its own help, and one list of exit statuses."""
    layout = argparse.RawDescriptionHelpFormatter
    about = f"Shows what span prints, and answers questions from it. `{name} WORD --help` describes a word."
    parser = Arguments(name, description=about, epilog=f"{EXAMPLES.format(name=name)}\n{STATUSES}", formatter_class=layout)
    parser.add_argument("--version", action="store_true", help="print the version")
    words = parser.add_subparsers(dest="word", metavar="WORD", title="words")
    for each, word in WORDS.items():
        word.add_options(words.add_parser(each, help=word.about, description=f"{word.about[0].upper()}{word.about[1:]}.", epilog=STATUSES,
                                          formatter_class=layout))
    return parser


def run(name: str) -> None:
    parser = command_line(name)
    chosen = parser.parse_args()
    if chosen.word:
        WORDS[chosen.word].run(chosen)
    elif chosen.version:
        write_output("version", f"{'span_margin' if name == MODULE else name} {__version__}\n".encode())
    else:
        parser.error("there is no word")


def main(name: str = DESK) -> None:
    """The command `span-desk`."""
    finish(name, partial(run, name))


if __name__ == "__main__":
    main(MODULE)
