"""Long position files, which several workers read in pieces, and the fault that must be reported for each.

A file is made from an accepted pair of files with at most 1024 contracts, and is long enough for its number of pieces. `fault_of` finds its
fault without pieces, as docs/FORMATS.md says. The same seed gives the same file.
"""
import bisect
import csv
import io
import itertools
import random
import re
from typing import Dict, List, Tuple

from .harness import account, lines_of, matching

PIECE = 65536  # bytes; several workers read a file in pieces if it is long enough for two
ACCOUNTS, NET, QUANTITY = 4096, 100000, 1000000  # the most accounts of a file, the largest net in a contract, the largest quantity
MARK = b"\xef\xbb\xbf"
KINDS = {
    "plain": "lines end in LF",
    "unended": "the last line is cut somewhere",
    "crlf": "lines end in CR LF",
    "ends": "lines end in LF, CR LF or CR at random",
    "few-feeds": "lines end in CR, and there are fewer LF than pieces",
    "blank": "long runs of empty lines",
    "mark": "a byte order mark begins the file",
    "mark-inside": "a byte order mark, or its first bytes, begins the lines around one where a piece would begin",
    "marks-inside": "the same, and all lines after them",
    "quote-first": "a field in double quotes, or with a double quote inside, in the first piece",
    "quote-last": "the same in the last piece",
    "quote-cut": "a field in double quotes contains the LF after which a piece would begin",
    "quote-open": "a double quote is never closed",
    "fault": "a record with one of Q1 to Q4",
    "faults": "such a record in each piece",
    "two-faults": "two such records, in different pieces",
    "accounts": "the 4097th account appears in the last piece",
    "accounts-behind": "the same, with a fault after it",
    "accounts-before": "the same, with a fault before it",
    "long-lines": "fewer lines than pieces; the lines are too long for accepted records",
    "unbound": "a record with an unknown contract, or two records whose net is over the limit",
}


def fault_of(contracts: List[bytes], data: bytes) -> bytes:
    """The line of the fault that `span margin` must report for a position file, or nothing if there is none."""
    name, accounts, unknown = re.compile("[A-Z0-9_-]{1,16}"), set(), ""
    nets: Dict[Tuple[str, str], List[int]] = {}  # the first record of each account and contract, and the net
    csv.field_size_limit(1 << 30)
    lines = csv.reader(io.StringIO((data[3:] if data.startswith(MARK) else data).decode("latin-1"), newline=""))
    for record, fields in enumerate(filter(None, lines), 1):
        accounts.add(fields[0])
        fault = ("Q1 FieldCount" if len(fields) != 3 else
                 "Q2 BadName" if not name.fullmatch(fields[0]) or not name.fullmatch(fields[1]) else
                 "Q3 BadNumber" if not re.fullmatch("-?[0-9]{1,18}", fields[2]) else
                 "Q4 OutOfRange" if abs(int(fields[2])) > QUANTITY else
                 "Q5 TooManyAccounts" if len(accounts) > ACCOUNTS else "")
        if fault:
            return f"positions: {fault} at record {record}\n".encode()
        if fields[1].encode() not in contracts:
            unknown = unknown or f"positions: B1 UnknownContract at record {record} account {fields[0]}\n"
        nets.setdefault((fields[0], fields[1]), [record, 0])[1] += int(fields[2])
    over = ((first, owner) for (owner, _), (first, net) in nets.items() if abs(net) > NET)
    return (unknown or next(("positions: B2 NetOutOfRange at record %d account %s\n" % it for it in over), "")).encode()


class LongFile:
    """A long position file: its lines and their ends."""

    def __init__(self, params: bytes, positions: bytes, kind: str, seed: int, pieces: int = 0) -> None:
        self.numbers, self.kind = random.Random(f"{kind} {seed}"), kind
        self.pieces = pieces or self.numbers.choice((2, 2, 2, 4, 4, 16))
        self.contracts = [line.split(b",")[1] for line in matching(b"CONTRACT,", params)]
        self.lines = [line.rstrip(b"\n") for line in lines_of(positions)]
        self.lengthen()
        ends = {"crlf": [b"\r\n"], "ends": [b"\n", b"\n", b"\r\n", b"\r"], "few-feeds": [b"\r"]}.get(kind, [b"\n"])
        self.ends = self.numbers.choices(ends, k=len(self.lines))
        self.change_ends()
        self.add_marks_and_quotes()
        self.add_faults()
        self.change_records()

    def text(self) -> bytes:
        return b"".join(itertools.chain.from_iterable(zip(self.lines, self.ends)))

    def fault(self) -> bytes:
        return fault_of(self.contracts, self.text())

    def lengthen(self) -> None:
        """Adds records of other accounts: of a few, or of so many that there are up to 4096. For the kinds `accounts..` there are 4096, and
        all appear early. (Lines that are cut or changed later may be a few bytes shorter.)"""
        known, chosen, full = [*dict.fromkeys(map(account, self.lines))], self.numbers.random(), self.kind.startswith("accounts")
        most = ACCOUNTS if full or chosen < 0.1 else self.numbers.randint(len(known), ACCOUNTS) if chosen < 0.3 else len(known) + 50
        form = self.numbers.choice((b"L%d", b"L-%04d", b"LONG-NAME-OF%04d"))
        new = (form % number for number in itertools.count(1))
        accounts = known + [*itertools.islice((name for name in new if name not in known), most - len(known))]
        names = self.numbers.sample(accounts, len(accounts)) if full else []
        names += self.numbers.choices(accounts, k=self.pieces * PIECE // 8)
        size = len(b"\n".join(self.lines))
        for name in names:
            if size > self.pieces * PIECE + 60000:
                break
            self.lines.append(b"%s,%s,%d" % (name, self.numbers.choice(self.contracts), self.numbers.randint(-50, 50)))
            size += len(self.lines[-1]) + 1

    def begin_of(self, piece: int) -> int:
        """The line with which a piece begins, to within one line."""
        ends = [*itertools.accumulate(len(line) + len(end) for line, end in zip(self.lines, self.ends))]
        return bisect.bisect(ends, ends[-1] * piece // self.pieces - 1)

    def line_of(self, piece: int) -> int:
        """A line of a piece, which is often near its begin or end."""
        first, last = self.begin_of(piece), self.begin_of(piece + 1) - 1
        return min(max(first, self.numbers.choice((first, first + 1, last - 1, last, *(self.numbers.randint(first, last),) * 4))), last)

    def some_line(self) -> int:
        return self.line_of(self.numbers.randrange(self.pieces))

    def change_ends(self) -> None:
        if self.kind == "unended":
            self.lines[-1] = self.lines[-1][:self.numbers.randint(0, len(self.lines[-1]))]
            self.ends[-1] = b""
        if self.kind == "few-feeds":
            for _ in range(self.numbers.randint(0, self.pieces - 2)):
                self.ends[self.numbers.randrange(len(self.ends))] = self.numbers.choice((b"\n", b"\r\n"))
        if self.kind == "blank":
            for _ in range(self.numbers.randint(1, 3)):
                self.ends[self.some_line()] += self.numbers.choice((b"\n", b"\n", b"\r\n")) * self.numbers.randint(1, 2 * PIECE)

    def add_marks_and_quotes(self) -> None:
        numbers, begin = self.numbers, self.begin_of(self.numbers.randrange(1, self.pieces))
        if self.kind == "mark":
            self.lines[0] = MARK + self.lines[0]
        if self.kind in ("mark-inside", "marks-inside"):
            for at in range(begin - 1, begin + 2 if self.kind == "mark-inside" else len(self.lines)):
                self.lines[at] = MARK[:numbers.choice((3, 3, 1, 2))] + self.lines[at]
        if self.kind == "quote-cut":
            self.lines[begin - 2] = b'"' + self.lines[begin - 2]
            self.lines[begin + 1] = self.lines[begin + 1].replace(b",", b'",', 1)
        if self.kind == "quote-open":
            self.ends[-1] = numbers.choice((b"", b"\n"))
        if self.kind in ("quote-first", "quote-last", "quote-open"):
            last = {"quote-first": self.line_of(0), "quote-last": self.line_of(self.pieces - 1)}
            at, field = last.get(self.kind, numbers.choice((len(self.lines) - 1, self.some_line()))), numbers.randrange(3)
            fields = self.lines[at].split(b",")
            text = fields[field]
            ways = [b'"' + text] if self.kind == "quote-open" else [b'"%s"' % text, b'"%s"' % text, text[:1] + b'"' + text[1:]]
            fields[field] = numbers.choice(ways)
            self.lines[at] = b",".join(fields)

    def corrupt(self, at: int) -> None:
        """Gives a line one of the faults Q1 to Q4."""
        name, contract, quantity = self.lines[at].split(b",")
        self.lines[at] = self.numbers.choice((
            b"%s,%s,%s," % (name, contract, quantity), b"%s,%s" % (name, contract), b"%s ,%s,%s" % (name, contract, quantity),
            b"%s,%s,%s.0" % (name, contract, quantity), b"%s,%s,%d" % (name, contract, QUANTITY + 1)))

    def add_faults(self) -> None:
        count, numbers = len(self.lines), self.numbers
        pieces = {"fault": [numbers.randrange(self.pieces)], "faults": [*range(self.pieces)],
                  "two-faults": numbers.sample(range(self.pieces), 2)}
        for piece in pieces.get(self.kind, []):
            self.corrupt(self.line_of(piece))
        if self.kind.startswith("accounts"):
            at = numbers.randint(count * 96 // 100, count * 98 // 100)
            self.lines[at] = b"LAST,%s,1" % self.contracts[0]
            if self.kind == "accounts-behind":
                self.corrupt(numbers.randint(at + 1, count - 1))
            if self.kind == "accounts-before":
                self.corrupt(numbers.choice((self.line_of(0), numbers.randint(count * 94 // 100, at - 1))))

    def change_records(self) -> None:
        numbers, contract = self.numbers, self.numbers.choice(self.contracts)
        if self.kind == "long-lines":
            count, total = numbers.randint(1, self.pieces - 1), len(self.text())
            size, long = total // count + 20, numbers.randrange(count)
            for at in range(count):
                if at == long or numbers.random() < 0.5:
                    self.lines[at] = numbers.choice((b"A" * size + b",%s,1" % contract, b"A,%s,%s" % (contract, b"1" * size), b"A," * size))
            self.lines[long] += b"1" * total  # the file is long even if only one line is
            del self.lines[count:], self.ends[count:]
            self.ends[-1] = numbers.choice((b"\n", b"\n", b""))
        if self.kind == "unbound":
            name, both = account(self.lines[self.some_line()]), numbers.random() < 0.5
            for at in [self.some_line(), self.some_line()][:1 + both]:
                self.lines[at] = b"%s,%s,90000" % (name, contract) if both else b"%s,NO-CONTRACT,1" % name
