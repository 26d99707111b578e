"""The documents of `ldvbi extract`, version 2, and those with recovered words, version 3, as docs/FORMATS.md describes
them. They are read, and written from a TBC file with the same bytes as the program's. Each number of a document that is
read is checked; if something is wrong, a ValueError says where. The readings that are written, and the records of
version 3, come from the library, which is proved. That the text is the program's is only tested."""

import array
import json
import re
from typing import Any, Callable, Dict, Iterable, Iterator, List, NamedTuple, Optional, TextIO, Tuple

from .collector import paused
from .codes import LINES
from .library import System
from .readings import (PACKED_FIELD, PACKED_LINE, Cause, Cut, Levels, PackedFields, field_bytes, size_of,
                       unknown_cause)
from .stream import BLOCK, Stream, cut_of

MAX_FIELDS = 1000000  # the program has the same limit

# What a document begins with, also if it was written anew by another program
_BEGIN = re.compile(rb'\s*\{\s*"version"')
_CAUSE = re.compile(r"(word|blank|unfinished)|(change|hold) (0|[1-9][0-9]{0,3})")

CAUSES = '"vbiCause":["%s","%s","%s"],"vbiPass":[%d,%d,%d]'
RECORD = '{"seqNo":%d,"vbi":{"vbiData":[%d,%d,%d]},' + CAUSES + "}"
_NUMBER = "(?:0|[1-9][0-9]{0,18})"
_WORD = "(?:0|[1-9][0-9]{6,7})"  # or a number that is none
_NEAR = r'(?:null|\{"word":%s,"distance":%s,"rival":%s\})' % (3 * (_NUMBER,))
# A record's number, its words, and its causes with its passes
_RECORD = re.compile(r'\{"seqNo":([^,]*),"vbi":\{"vbiData":\[(%s,%s,%s)\]\},([^]]*\],[^]]*\])' % (3 * (_WORD,))
                     + r'(?:,"vbiNear":\[%s,%s,%s\])?\}' % (3 * (_NEAR,)))
_CAUSES_AND_PASSES = re.compile(re.escape(CAUSES).replace("%d", "(%s)" % _NUMBER).replace("%s", "([a-z0-9 ]*)"))
_LEAST_WORD, _GREATEST_WORD = 0x800000, 0xFFFFFF
_STOP = 0x82CFFF
_NEAR_STOP = re.compile(r'\{"word":%d,' % _STOP)
_PIECE = 1 << 17  # characters of records that are taken apart at once
_LONGEST, _ = size_of(System.PAL)
# Of each cause, by its number, the texts by column
_CAUSES = [["word"], ["blank"], ["unfinished"], ["change %d" % column for column in range(_LONGEST)],
           ["hold %d" % column for column in range(_LONGEST)]]


Leads = Dict[Tuple[int, int], int]


class Document(NamedTuple):
    """What a document has: the system, the readings of the whole fields, the field in which the stream was cut, the
    levels with which it was read, and by field and line how far a picture stop that is the nearest word of a worn line
    is ahead of its rival, in hundredths of a column."""
    system: System
    readings: PackedFields
    cut: Optional[Cut]
    levels: Levels
    leads: Leads


# ---- Read

def is_document(path: Any, begin: bytes) -> bool:
    """Whether a file with this name that begins with these bytes is taken for a document, not for a TBC file."""
    return str(path).endswith(".json") or _BEGIN.match(begin) is not None


@paused()
def read_document(data: bytes) -> Document:
    """The document with these bytes."""
    return _as_written(data) or _as_json(data)


def _as_json(data):
    document = _parsed(data)
    if not isinstance(document, dict) or not _is_number(document.get("version"), 2, 3):
        raise ValueError("not a document of version 2 or 3")
    system = _system(document.get("videoParameters"))
    records = document.get("fields")
    if not isinstance(records, list):
        raise ValueError("fields is no list")
    packed, known = [], _KnownLines(size_of(system)[0], document["version"])
    for number, record in enumerate(records, 1):
        try:
            packed.append(_quick_field(record, number, known) or _field(record, number, known))
        except ValueError as error:
            raise ValueError("field %d: %s" % (number, error)) from None
    leads = {place: lead for record in records for place, lead in _leads_of(record)}
    return Document(system, PackedFields(b"".join(packed)), _cut(document, len(packed) + 1, system), _levels(document),
                    leads)


def _leads_of(record):
    """Yields the leads of a record. What isn't as `extract` writes it says nothing."""
    nears = record.get("vbiNear")
    for line, near in zip(LINES, nears if isinstance(nears, list) else ()):
        if isinstance(near, dict) and near.get("word") == _STOP:
            distance, rival = near.get("distance"), near.get("rival")
            if type(distance) is type(rival) is int:
                yield (record["seqNo"], line), rival - distance


def _levels(document):
    parameters = document["videoParameters"]
    return Levels(parameters["black16bIre"], parameters["white16bIre"])


class _NoNumber(ValueError):
    """A name in a number's place, which Python's json takes for one."""


def _no_number(name):
    raise _NoNumber(name)


def _parsed(data):
    try:
        return json.loads(data.decode(), parse_constant=_no_number)
    except UnicodeDecodeError as error:
        fault = "byte %d is not UTF-8" % (error.start + 1)
    except json.JSONDecodeError as error:
        fault = "line %d is wrong from column %d on" % (error.lineno, error.colno)
    except _NoNumber as error:
        fault = "%s is no number" % error
    except RecursionError:
        fault = "it is nested too deep"
    except ValueError:
        fault = "a number is too long"
    raise ValueError("not JSON: " + fault)


def _is_number(value, least, most):
    return type(value) is int and least <= value <= most


def _member(record, name, owner):
    if not isinstance(record, dict) or name not in record:
        raise ValueError("%s is not there" % name if owner is None else "%s has no %s" % (owner, name))
    return record[name]


def _system(parameters):
    name = _member(parameters, "system", "videoParameters")
    if name not in list(System.__members__):
        raise ValueError("system is neither NTSC nor PAL")
    system = System[name]
    width, height = size_of(system)
    for member, wanted in (("fieldWidth", width), ("fieldHeight", height)):
        if not _is_number(_member(parameters, member, "videoParameters"), wanted, wanted):
            raise ValueError("%s is not %d" % (member, wanted))
    black, white = (_member(parameters, name, "videoParameters") for name in ("black16bIre", "white16bIre"))
    if not type(black) is type(white) is int or not 0 <= black < white <= 65535:
        raise ValueError("black16bIre and white16bIre are not two samples, black below white")
    return system


class _KnownLines(Dict[Tuple[int, str, int], bytes]):
    """The packed readings of word, cause and pass together. Each is checked once: a side has few that differ."""

    def __init__(self, width: int, version: int) -> None:
        self.width, self.version = width, version

    def __missing__(self, line: Tuple[int, str, int]) -> bytes:
        self[line] = _line(*line, self.width, self.version)
        return self[line]


def _quick_field(record, number, known):
    """The packed readings of a record without a fault; of others they are, or None, and `_field` says what is wrong."""
    try:
        words, causes, passes = record["vbi"]["vbiData"], record["vbiCause"], record["vbiPass"]
        first, second, third = zip(words, causes, passes)
        # true and 1.0 are 1 to a dict
        is_whole = type(record["seqNo"]) is int and set(map(type, words + passes)) == {int}
        if is_whole and record["seqNo"] == number and len(words) == len(causes) == len(passes) == 3:
            return known[first] + known[second] + known[third]
    except (KeyError, TypeError, ValueError):
        pass
    return None


def _field(record, number, known):
    """The same of any record, each part of which is checked."""
    if not _is_number(_member(record, "seqNo", None), number, number):
        raise ValueError("seqNo is not %d" % number)
    lists = {"vbiData": _member(_member(record, "vbi", None), "vbiData", "vbi")}
    lists.update((name, _member(record, name, None)) for name in ("vbiCause", "vbiPass"))
    for name, values in lists.items():
        if not isinstance(values, list) or len(values) != 3:
            raise ValueError("%s is no list of three" % name)
    return b"".join([_line(*line, known.width, known.version) for line in zip(*lists.values())])


def _line(word, text, number_of_pass, width, version):
    """The packed reading of a line, each number of which is checked. In a document of version 3 a line with a recovered
    word, of pass 3, has the cause for which it shows none of its own."""
    if not _is_number(word, 0, 0) and not _is_number(word, 0x800000, 0xFFFFFF):
        raise ValueError("%s is no word" % json.dumps(word))
    match = _CAUSE.fullmatch(text) if isinstance(text, str) else None
    column = int(match[3] or 0) if match else width
    if column >= width:
        raise ValueError("%s is no cause" % json.dumps(text))
    if not _is_number(number_of_pass, 0, version):
        raise ValueError("%s is no pass" % json.dumps(number_of_pass))
    cause = Cause[match[1] or match[2]]
    is_shown = cause == Cause.word or number_of_pass == 3 and cause != Cause.blank
    if not bool(word) == is_shown == bool(number_of_pass):
        raise ValueError("word, cause and pass of a line don't fit: %d, %s, %d" % (word, text, number_of_pass))
    return PACKED_LINE.pack(cause, number_of_pass, column, word)


def _cut(document, number, system):
    value = _member(document, "cutField", None)
    if value is None:
        return None
    if not _is_number(_member(value, "seqNo", "cutField"), number, number):
        raise ValueError("cutField: seqNo is not %d" % number)
    if not _is_number(_member(value, "bytes", "cutField"), 1, field_bytes(system) - 1):
        raise ValueError("cutField: bytes is not from 1 to %d" % (field_bytes(system) - 1))
    return Cut(number, value["bytes"])


# ---- Read as it was written

def _as_written(data: bytes) -> Optional[Document]:
    """The document with these bytes, if they stand as `extract` or `ldvbi-side` writes them: then its records are taken
    apart by a pattern, and not as JSON, which takes four times as long. None of any other, and of one with a fault."""
    try:
        head, _, rest = data.decode("ascii").partition("\n")
        body, _, tail = rest.rpartition("\n],")
        if not body:  # as of a text in one line, which isn't parsed twice
            return None
        frame = json.loads(head + "]," + tail)
        system, levels, version = _system(frame["videoParameters"]), _levels(frame), frame["version"]
        packed = b"".join(_packed_pieces(body, _KnownCauses(size_of(system)[0], version)))
        cut = _cut(frame, len(packed) // PACKED_FIELD.size + 1, system)
        is_framed = head_of(version, system, *levels) == head + "\n" and tail_of(cut) == "\n]," + tail
        if not is_framed or version not in (2, 3):
            return None
        return Document(system, PackedFields(packed), cut, levels, dict(_leads_in(body)))
    except (KeyError, RecursionError, TypeError, ValueError):
        return None


def _packed_pieces(body, known):
    """Yields the packed readings of the records, piece by piece; a ValueError if one has a fault."""
    number, end = 1, -2
    while end != len(body):
        begin = end + 2
        end = body.find(",\n", begin + _PIECE)
        end = len(body) if end < 0 else end
        # what stands before each record, its parts, and what stands after the last
        parts = _RECORD.split(body[begin:end])
        numbers, words, causes = parts[1::4], parts[2::4], parts[3::4]
        if parts[::4] != ["", *[",\n"] * (len(numbers) - 1), ""]:
            raise ValueError("a record isn't as it is written")
        if numbers != list(map(str, range(number, number + len(numbers)))):
            raise ValueError("a record has another number")
        # an int from each text takes half as long again
        yield _packed_fields(array.array("I", json.loads("[%s]" % ",".join(words))), [known[one] for one in causes])
        number += len(numbers)


def _leads_in(body):
    """Yields the leads of records, of which few have a picture stop that was recovered."""
    for found in _NEAR_STOP.finditer(body):
        begin, end = body.rfind("\n", 0, found.start()) + 1, body.find(",\n", found.start())
        yield from _leads_of(json.loads(body[begin:end if end >= 0 else None]))


def _packed_fields(words, lines):
    """The packed readings of fields with these words, three of each, and with what is known of their lines."""
    if max(words) > _GREATEST_WORD or min(filter(None, words), default=_LEAST_WORD) < _LEAST_WORD:
        raise ValueError("a number is no word")
    if bytes(map(bool, words)) != b"".join([one.shown for one in lines]):
        raise ValueError("word, cause and pass of a line don't fit")
    halves = array.array("I", bytes(PACKED_FIELD.size * len(lines)))  # of each line its first four bytes and its word
    halves[::2] = array.array("I", b"".join([one.begins for one in lines]))
    halves[1::2] = words
    return halves.tobytes()


class _Lines(NamedTuple):
    """Of the three lines of a field whether each shows a word, a byte each, and the four bytes before its word."""
    shown: bytes
    begins: bytes


class _KnownCauses(Dict[str, _Lines]):
    """The lines of each text of causes and passes, of which few differ."""

    def __init__(self, width: int, version: int) -> None:
        self.width, self.version = width, version

    def __missing__(self, text: str) -> _Lines:
        match = _CAUSES_AND_PASSES.fullmatch(text)
        if not match:
            raise ValueError("causes and passes aren't as they are written")
        passes = list(map(int, match.groups()[3:]))
        packed = [_line(_LEAST_WORD if number else 0, cause, number, self.width, self.version)
                  for cause, number in zip(match.groups(), passes)]
        self[text] = _Lines(bytes(map(bool, passes)), b"".join([one[:4] for one in packed]))
        return self[text]


# ---- Written

# Yields the blocks that it gets, each with this many fields, and may report how far they are
Over = Callable[[Iterable[Any], int], Iterable[Any]]


def write_document(stream: Stream, file: TextIO, over: Over) -> None:
    """Writes the document of a stream to a text file."""
    _write(2, stream, _blocks_of_records(stream), file, over)


def write_recovered(stream: Stream, file: TextIO, over: Over) -> None:
    """Writes the document with recovered words of a stream to a text file. The stream's dropouts are left out."""
    _write(3, stream, stream.records(), file, over)


def _write(version: int, stream: Stream, blocks: Iterator[List[str]], file: TextIO, over: Over) -> None:
    """Writes a document of these records."""
    if len(stream) + (stream.cut_bytes > 0) > MAX_FIELDS:
        raise ValueError("too many fields")
    file.write(head_of(version, stream.system, stream.black, stream.white))
    joint = ""
    for records in over(blocks, BLOCK):
        file.write(joint + ",\n".join(records))
        joint = ",\n"
    file.write(tail_of(cut_of(stream)))


def head_of(version: int, system: System, black: int, white: int) -> str:
    """What stands before the records."""
    return ('{"version":%d,"videoParameters":{"system":"%s","fieldWidth":%d,"fieldHeight":%d,"black16bIre":%d,'
            '"white16bIre":%d},"fields":[\n' % (version, system.name, *size_of(system), black, white))


def tail_of(cut: Optional[Cut]) -> str:
    """What stands after the records."""
    return '\n],"cutField":%s}\n' % ('{"seqNo":%d,"bytes":%d}' % cut if cut else "null")


def _blocks_of_records(stream: Stream) -> Iterator[List[str]]:
    """The records of all fields of a stream, in blocks."""
    number = 0
    for block in stream.packed(0, len(stream)):
        records = list(_records(block, number))
        yield records
        number += len(records)


def _records(block: Any, number: int) -> Iterator[str]:
    """The records of a block of fields, as the library writes their readings, after `number` others."""
    for a, b, c, d, e, f, g, h, i, j, k, l in PACKED_FIELD.iter_unpack(block):
        number += 1
        if max((a, e, i)) >= len(_CAUSES):
            raise unknown_cause(max((a, e, i)))
        yield RECORD % (number, d, h, l, _CAUSES[a][c], _CAUSES[e][g], _CAUSES[i][k], b, f, j)
