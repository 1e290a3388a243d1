"""The command `span` of a wheel that contains the program: it becomes the program."""
import os
import signal
import sys
from typing import NoReturn

from span_margin._program import OWN


def main() -> NoReturn:
    for number in (signal.SIGPIPE, signal.SIGXFSZ):  # which Python ignores, and a new program would, too
        signal.signal(number, signal.SIG_DFL)
    os.execv(OWN, ["span", *sys.argv[1:]])
