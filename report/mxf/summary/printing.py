"""How a summary is printed."""
from __future__ import annotations

from mxf.archive.printing import print_lines, print_objects
from mxf.faults import NO_PROGRAM, OwnFault
from mxf.reading import LineFault
from mxf.summary.compared import Compared
from mxf.summary.judged import Asking
from mxf.summary.summary import Summary


def print_summary(asking: Asking, is_json: bool) -> int:
    """Prints the summary of a recording as lines for people or as an object; the status."""
    try:
        summary = Summary(asking)
    except LineFault as fault:
        raise OwnFault(NO_PROGRAM, f"{asking.tool.program} prints {fault}") from fault
    if is_json:
        print_objects([summary.members()])
    else:
        print_lines(summary.lines())
    return 0


def print_comparison(first: Asking, second: Asking, is_json: bool) -> int:
    """Prints what differs between two recordings, as lines for people or as an object; the status, which is 1 if anything
    does."""
    try:
        compared = Compared(first, second)
    except LineFault as fault:
        raise OwnFault(NO_PROGRAM, f"{first.tool.program} prints {fault}") from fault
    if is_json:
        print_objects([compared.members()])
    else:
        print_lines(compared.lines())
    return int(not compared.are_alike())
