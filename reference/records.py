"""From the bytes of a file to its records: FORMATS, All files, Quotes, and Names and numbers.

A file is read as Latin-1: one character for each byte. So no byte is lost, and no byte is refused here.
"""

from __future__ import annotations

import re
from typing import List

BYTE_ORDER_MARK = "\xef\xbb\xbf"
FIELD = re.compile(r'(?:"([^"]*(?:""[^"]*)*)"?)?([^,\r\n]*)')
FIELD_END = re.compile(r",|\r\n|\n|\r|\Z")

NAME = re.compile(r"[A-Z0-9_-]{1,16}")
WHOLE_NUMBER = re.compile(r"-?[0-9]{1,18}")
DECIMAL = re.compile(r"-?[0-9]{1,6}(\.[0-9]{1,4})?")
MONTH = re.compile(r"[0-9]{6}")


def records_of(text: str) -> List[List[str]]:
    """FORMATS, All files: the records of a file, each a list of its fields.

    "Only commas separate fields. A line ends in LF, CR LF or CR. The last line needs no line end. Records are numbered from 1, in file
    order. Empty lines are ignored and have no number. One byte order mark at the very beginning of a file is ignored."
    """
    records: List[List[str]] = []
    fields: List[str] = []
    position = len(BYTE_ORDER_MARK) if text.startswith(BYTE_ORDER_MARK) else 0
    while position < len(text) or fields:
        field = FIELD.match(text, position)
        assert field
        end = FIELD_END.match(text, field.end())
        assert end
        if fields or field.group() or end.group() == ",":
            fields.append(field_value(field))
        if fields and end.group() != ",":
            records.append(fields)
            fields = []
        position = end.end()
    return records


def field_value(field: re.Match[str]) -> str:
    """FORMATS, Quotes: the field without its quotes.

    "A field is quoted if its first byte is a quote. In the quoted part, commas and line ends belong to the field, and two quotes are one
    quote. The bytes after it, up to the next comma or line end, are added unchanged. A quoted part that is never closed extends to the end
    of the file."
    """
    return (field.group(1) or "").replace('""', '"') + str(field.group(2))


def month_exists(text: str) -> bool:
    """FORMATS, Names and numbers: "A month has a year from 1900 to 2999 and a month from 01 to 12"."""
    return 1900 <= int(text[:4]) <= 2999 and 1 <= int(text[4:]) <= 12
