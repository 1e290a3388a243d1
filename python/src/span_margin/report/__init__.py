"""The HTML page of an explanation, which shows the reasons for every figure, or what changed since an earlier explanation.

    from span_margin import report

    page = report.page(span.explain("params.csv", "positions.csv"), major=2, unit="USD")

The page loads nothing and needs no library. Its one script sorts tables and finds accounts. The page is not proved. Every figure has the
digits of its field. Totals of accounts, R lines by commodity and parts of bars are added up here, and with an earlier explanation figures
are also subtracted. Widths and heights of pictures are floating point. At the foot are the version, the time (SOURCE_DATE_EPOCH, if that is
set) and the checksums of the input. Otherwise the same input gives the same bytes.

Input that is not an explanation, is cut off, or has an R or T line that does not follow from the lines before it, is rejected.
"""
from span_margin.report._command import ABOUT, add_options, checked, main, page, run
from span_margin.report._explanation import EARLIER, Rejected

__all__ = ["ABOUT", "EARLIER", "Rejected", "add_options", "checked", "main", "page", "run"]
