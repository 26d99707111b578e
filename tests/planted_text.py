"""What tests/mutants.py plants into a file that isn't Python, over its tokens: one of these at a time.

A comparison is turned or shifted by one, a number off by one or doubled; `&&` is `||`; a condition is true or false; a
statement, a line of a recipe or of a text is left out; an argument or a member of a struct is swapped with its
neighbour; a default or a text is changed."""

import collections
import re
from typing import NamedTuple

from planted import other_values, Plant, TOP

STRING, LINE, BLOCK, HASH = r'b?"(?:\\.|[^"\\])*"', r"//[^\n]*", r"/\*.*?\*/", r"(?:^|(?<=\s))#[^\n]*"
LITERAL = r"b?'(?:\\[^'\n]+|[^'\\\n])'"
TESTS = r"^#\[cfg\(test\)\]\nmod .*"
SHELL_STRING = STRING + r"|'[^']*'|\$\(\(.*?\)\)"
NUMBER = re.compile(r"(?<![\w$])(?<!(?<!\.)\.)(?<!\$[{(])(?:0x[0-9A-Fa-f]+|\d+)"
                    r"(?=(?:[iu](?:8|16|32|64|size))?(?!\w|\.\d|[<>]))")
TURNED = {"<": ("<=", ">="), "<=": ("<", ">"), ">": (">=", "<"), ">=": (">", "<"), "==": ("!=",), "!=": ("==",),
          "&&": ("||",), "||": ("&&",), "true": ("false",), "false": ("true",), "..": ("..=",), "..=": ("..",)}
IN_SHELL = {"=": ("!=",), "!=": ("=",), "-eq": ("-ne",), "-ne": ("-eq",), "-lt": ("-le", "-ge"), "-le": ("-lt", "-gt"),
            "-gt": ("-ge", "-le"), "-ge": ("-gt", "-lt"), "-n": ("-z",), "-z": ("-n",), "&&": ("||",), "||": ("&&",)}
NO_STATEMENT = re.compile(r"\s*(?:use|let|pub|mod|type|extern|typedef|fn|#)\b|\s*#")
NO_COMMAND = re.compile(r"\s*(?:(?:if|then|else|elif|fi|do|done|case|esac|for|while|until|in|function)\b|[#})(;&|\"]|"
                        r"\w+\(\)|[^\s()]*\)|$)|.*(?:[({\\&|]|;;|\bdo|\bthen)$")
MEMBER = re.compile(r"^( +)(?:u?int(?:\d+_t)?|size_t|Ldvbi\w+) [\w, \[\]]+;", re.M)
TYPES = {"uint8_t": "uint16_t", "uint16_t": "uint32_t", "uint32_t": "uint64_t", "uint64_t": "uint32_t",
         "size_t": "uint32_t"}
WORD = r" ([\w./$(){}%\"'-]+)"
PLACED = re.compile(r"^[\t ]+@?(?:cd|cp|git|install|ln|mv|python3|rm|sed|sh|tar)\b.*" + 2 * WORD + "$", re.M)
IN_ANY_ORDER = re.compile(r"\b(?:strcmp|calloc|(?:max|min)(?:<\w+>)?)$")  # arguments that are swapped without effect
DECLARED = re.compile(r"^\s*#!?\[|\bfn \w+(?:<[^()]*)?$|^\w[\w *]*$")


class Language(NamedTuple):
    """What is no code, what names a part, and the kinds of plants."""
    apart: str
    part: str
    kinds: str


IN_C = Language("|".join((BLOCK, LINE, STRING, LITERAL)), r"^\w.*?\b(\w+)\(|^(?:typedef )?(?:struct|enum) (\w+)",
                "operators numbers conditions statements arguments strings")
IN_SH = Language(SHELL_STRING + "|" + HASH, r"^(\w+)\(\)", "shell numbers commands words strings")
LANGUAGES = {
    ".rs": Language("|".join((TESTS, BLOCK, LINE, STRING, LITERAL)),
                    r"\b(?:fn|struct|enum|const|static|macro_rules!) (\w+)|\bimpl(?:<.*?>)? (.*?) \{", IN_C.kinds),
    ".c": IN_C, ".cpp": IN_C, ".h": Language(IN_C.apart, r"\b(ldvbi_\w+)\(|(?:struct|enum) (\w+)|#define (\w+)",
                                             IN_C.kinds + " members"),
    ".sh": IN_SH, ".bash": IN_SH, "_ldvbi": IN_SH, "_ldvbi-side": IN_SH,
    "Makefile": Language(STRING + r"|'[^'\n]*'|" + HASH,
                         r"^([\w.$()/%-]+)[^=\n]*:(?!=)|^([A-Z_]+) [?:]?=|^define (\w+)",
                         "shell numbers recipes words strings defaults"),
    ".toml": Language(STRING + "|" + HASH, r"^(\[.*\])", "numbers strings"),
    ".json": Language(STRING, r'^ {2,6}"([\w$]+)": \{', "operators numbers strings"),
    ".in": Language(HASH, r"^(\w+)", "numbers lines"),
    ".words": Language("^$", "^$", "lines"), "copyright": Language("^$", r"^(\S+):", "lines"),
    "lintian-overrides": Language(HASH, "^$", "lines"),
    ".1": Language(r'^\.\\"[^\n]*', r"^\.S[hs] (.*)", "macros"),
}


def language_of(file):
    """That of a file, by its name or by the end of its name; None if nothing is planted there."""
    name = file.split("/")[-1]
    return LANGUAGES.get(name, LANGUAGES.get("." + name.split(".")[-1]))


def end_of(code, at):
    """The place of the bracket that closes the one before this place, and those of the commas between."""
    depth, commas = 1, []
    for place in range(at, len(code)):
        depth += (code[place] in "([{") - (code[place] in ")]}")
        if not depth:
            return place, commas
        if depth == 1 and code[place] == ",":
            commas.append(place)
    return len(code), commas


def numbers(code, text):
    for one in NUMBER.finditer(code):
        base, width = (16, len(one[0]) - 2) if one[0].startswith("0x") else (10, 0)
        for value in other_values(int(one[0], base)):
            if value >= 0:
                yield one.start(), one.end(), "0x%0*X" % (width, value) if width else str(value)


def operators(code, text):
    for one in re.finditer(r"(?<=\s)(?:[<>]=?|[!=]=|&&|\|\|)(?=\s)|\b(?:true|false)\b|(?<=[\w)])\.\.=?(?=[\w(])", code):
        for other in TURNED[one[0]]:
            yield one.start(), one.end(), other


def shell(code, text):
    for one in re.finditer(r"(?<=\s)(?:!?=|-[a-z]{1,2}|&&|\|\|)(?=\s)", code):
        line = code[code.rfind("\n", 0, one.start()) + 1:one.start()]
        if one[0] in "&&||" or one[0] in IN_SHELL and "[ " in line:
            for other in IN_SHELL[one[0]]:
                yield one.start(), one.end(), other
    for one in re.finditer(r"\b(if|elif|while) ([^\n]*?)(?=; (?:then|do)\b)", code):
        for other in ("true", "false")[one[1] == "while":]:
            yield one.start(2), one.end(2), other


def conditions(code, text):
    for one in re.finditer(r"\b(if|while) (\(?)", code):
        begin = one.end()
        if one[2] and (end := end_of(code, begin)[0]) and re.match(r"\)\s*(?:[{\n]|\w)", code[end:end + 9]):
            pass
        elif found := re.match(r"(?!let\b)[^{}=]*(?:[=!<>]=[^{}=]*)*?(?= (?:\{|=>))", code[one.end(1) + 1:]):
            begin, end = one.end(1) + 1, one.end(1) + 1 + found.end()
        else:
            continue
        for other in ("true", "false")[one[1] == "while":]:
            yield begin, end, other


def statements(code, text):
    for one in re.finditer(r"[^;{}]*[;{}]", code):
        begin = one.end() - len(one[0].lstrip())
        is_whole = one[0].count("(") == one[0].count(")") and one[0].count("[") == one[0].count("]")
        begins_line = "\n " in code[one.start():begin] and re.match(r"[ \t]*\n", code[one.end():])
        if one[0][-1] == ";" and is_whole and begins_line and not NO_STATEMENT.match(one[0]):
            yield begin, one.end(), ""


def commands(code, text):
    before = ""
    for one in re.finditer(r"^(.*)\n", code, re.M):
        if not NO_COMMAND.match(one[1]) and not re.search(r"[\\|&]$", before):
            yield one.start(1), one.end(1), ":"
        before = one[1]


def recipes(code, text):
    for one in re.finditer(r"^\t(?:.*\\\n)*.*\n", code, re.M):
        if one[0].strip() and not code[:one.start()].endswith("\\\n"):
            yield one.start(), one.end(), ""


def words(code, text):
    """The last two words of a command change places."""
    for one in PLACED.finditer(code):
        if all(one[place].count("(") == one[place].count(")") for place in (1, 2)):
            yield one.start(1), one.end(2), "%s %s" % (text[slice(*one.span(2))], text[slice(*one.span(1))])


def arguments(code, text):
    for one in re.finditer(r"[\w>!]\(", code):
        before = code[code.rfind("\n", 0, one.start()) + 1:one.start() + 1]
        if DECLARED.search(before) or IN_ANY_ORDER.search(before):
            continue
        end, commas = end_of(code, one.end())
        places = [one.end() - 1, *commas, end]
        for begin, middle, last in zip(places, places[1:], places[2:]):
            first, second = text[begin + 1:middle], text[middle + 1:last]
            blank, other = re.match(r"\s*", first)[0], re.match(r"\s*", second)[0]
            if second.strip() and first.strip() != second.strip():
                yield begin + 1, last, "%s%s,%s%s" % (blank, second.strip(), other, first.strip())


def members(code, text):
    found = list(MEMBER.finditer(code))
    for one, following in zip(found, [*found[1:], None]):
        for kind in re.finditer(r"\b(?:%s)\b" % "|".join(TYPES), one[0]):
            yield one.start() + kind.start(), one.start() + kind.end(), TYPES[kind[0]]
        if following and not code[one.end():following.start()].strip():
            yield one.start(), following.end(), following[0] + text[one.end():following.start()] + one[0]


def lines(code, text):
    for one in re.finditer(r"^(.*\w.*)\n", code, re.M):
        yield one.start(), one.end(), ""
        yield one.end(1), one.end(1), "~"


def ends(pattern):
    return lambda code, text: [(one.end(1), one.end(1), "~") for one in re.finditer(pattern, code, re.M)]


macros = ends(r"^\.(?!\\|S[hs]\b|D[dt]\b|Bl\b)\w\w (.*\w.*)")
defaults = ends(r"^[A-Z]\w* [?:]?= (.*[^\\\s])$")


def strings(text, spans):
    for begin, end in spans:
        if re.search(r"\w", text[begin:end]) and not re.search(r"#include $|\"(?:description|title|\$comment)\": $",
                                                               text[max(0, begin - 20):begin]):
            yield begin, end, text[begin:end - 1] + "~" + text[end - 1]


def plants_of(file):
    """The plants of a file, in their order."""
    language, text = language_of(file), (TOP / file).read_text("utf-8")
    apart = [one.span() for one in re.finditer(language.apart, text, re.M | re.S) if one[0]]
    texts = [(begin, end) for begin, end in apart if text[end - 1] in "\"'" and text[begin] in "\"'b"]
    code = text
    for begin, end in apart:
        mark = '"' if (begin, end) in texts else " "
        code = code[:begin] + re.sub(r"[^\n]", mark, text[begin:end]) + code[end:]
    found = []
    for kind in language.kinds.split():
        if kind == "strings":
            found += strings(text, [one for one in texts if "shell" in language.kinds or text[one[1] - 1] == '"'])
        else:
            found += globals()[kind](code, text)
    heads = [(one.start(), next(filter(None, one.groups()), "")) for one in re.finditer(language.part, code, re.M)]
    return named(file, text, sorted(set(found)), heads)


def named(file, text, found, heads):
    """The same as plants, whose names have the part that begins before each, its line, and what it changes."""
    plants, times = [], collections.Counter()
    for begin, end, new in found:
        part = next((name for place, name in reversed(heads) if place <= begin), "")
        first = text.rfind("\n", 0, begin) + 1
        line = text[first:(text + "\n").index("\n", max(begin, first))].strip()
        old = " ".join(text[begin:end].split()) or "its end"
        name = "%s %s: %s: %s -> %s" % (file, part, line[:100], old[:100], " ".join(new.split())[:100] or "nothing")
        times[name] += 1
        span = [text.count("\n", 0, place) + 1 for place in (begin, end)]
        plants.append(Plant(file, name + " (%d)" % times[name] * (times[name] > 1), *span, (begin, end, new)))
    return plants


def planted(plant):
    """The text of its file with the plant."""
    text = (TOP / plant.file).read_text("utf-8")
    begin, end, new = plant.place
    return text[:begin] + new + text[end:]
