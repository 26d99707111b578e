"""The exit statuses (0 to 2 are those of grep), and what each says for an option or a command. The help and the
manual page have them from here."""

from typing import Dict, Iterable, List, Tuple

from ..answer.whole import NO, OPEN, YES

FAULT, CUT = 2, 3
OF_SIDE = {YES: 0, NO: 1, OPEN: 4}  # by whether it is whole
_LIGHTEST_FIRST = (0, CUT, OF_SIDE[OPEN], OF_SIDE[NO], FAULT)
# What the help says of the option by which a side without lead-out can be whole
OPEN_END = "accept that there is no lead-out: the disc may go on after the last number"
# What is asked for, and what each status says of it but for those of all
MEANINGS: Tuple[Tuple[Tuple[str, ...], Dict[int, str]], ...] = (
    (("no option", "--summary"), {0: "the side is whole", 1: "the side isn't whole",
                                      4: "it can't be told whether the side is whole"}),
    (("--seek",), {0: "what is sought is found", 1: "it isn't found"}),
    (("scan",), {0: "all sides are whole", 1: "some side isn't whole",
                 4: "none is known not to be whole, and of some it can't be told"}),
    (("--csv", "--json", "--bad-lines", "--document", "--plot-line", "--svg", "--html", "--map", "--chapters",
      "--into"),
     {0: "it is done", CUT: "done, and the last field is cut"}),
    (("join",), {0: "the captures are whole together, or another option's work is done",
                 1: "they aren't whole together", CUT: "done, and the last field is cut",
                 4: "it can't be told whether they are whole together"}),
    (("write",), {0: "what is written is whole", 1: "it isn't whole, as something is padding or read otherwise",
                  4: "it can't be told whether it is whole"}),
    (("--help", "--version"), {0: "it is done"}),
)
OF_ALL = {FAULT: "a fault, named in one line on standard error, or a refused command line",
          129: "its terminal was closed", 130: "ended by Ctrl-C", 143: "ended by `kill`"}


def of_many(statuses: Iterable[int]) -> int:
    """The status of several sides: the weightiest one that any of them has by itself."""
    return max(statuses, key=_LIGHTEST_FIRST.index)


def statuses_of(command: str = "") -> Dict[int, List[str]]:
    """What each status may say after a command, or without one."""
    found: Dict[int, List[str]] = {}
    for names, meanings in (*MEANINGS, ((command,), OF_ALL)):
        if command in names or not command and names[-1].startswith("--"):
            for status, text in meanings.items():
                found.setdefault(status, [])
                found[status] += [text] * (text not in found[status])
    return dict(sorted(found.items()))


def statuses_text(command: str = "") -> str:
    """The sentence of the help."""
    return "Statuses: %s." % "; ".join(
        "%d %s" % (status, ", or ".join(texts)) for status, texts in statuses_of(command).items())
