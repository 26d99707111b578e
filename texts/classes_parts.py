"""What the repository says of the classes of code words in many places, from the one table of them, classes.txt: parts
of files between marks, and in the schema, which has no comments, the list of kinds."""

import re
import textwrap

from classes import digits_of, read_classes

TABLE = "texts/classes.txt"
WIDTH = 120
SCHEMA = "share/schema/ldvbi-side.schema.json"
KINDS_OF_SCHEMA = re.compile(r'("kind": \{\n( +)"enum": \[\n).*?(\n +\]\n)', re.S)
PLACES = ("first", "second", "third", "fourth", "fifth", "sixth")


def wrapped(words, indent, separator=" "):
    """Lines of at most WIDTH columns of these words, each of which stays whole."""
    lines = [""]
    for word in words:
        if lines[-1] and len(indent + lines[-1] + separator + word) > WIDTH:
            lines[-1] += separator.rstrip()
            lines.append("")
        lines[-1] += (separator if lines[-1] else "") + word
    return "".join(indent + line + "\n" for line in lines)


def by_number(classes):
    return sorted(classes, key=lambda one: one.number)


# ---- the header for C

def constant(one):
    return "LDVBI_" + one.words_of_name.upper()


def kinds_in_c(classes):
    """The constants of `LdvbiKind`, each with a comment that says its numbers."""
    rows, last = [], by_number(classes)[-1]
    for one in by_number(classes):
        said = "; ".join("%s: %s" % place for place in zip(PLACES, (number.meaning for number in one.numbers)))
        rows.append(("%s = %d%s" % (constant(one), one.number, "," * (one != last)), said or one.note))
    widest = max(len(row) for row, _ in rows)
    text = ""
    for row, said in rows:
        begin = "    %-*s " % (widest, row)
        lines = textwrap.wrap(said, WIDTH - len(begin) - len("/*  */"))
        text += (begin + "/* " + ("\n" + " " * (len(begin) + 3)).join(lines) + " */" if said else begin.rstrip()) + "\n"
    return text


def texts_in_c(classes):
    return wrapped(['"%s"' % one.kind for one in by_number(classes)], " " * 8, ", ")


# ---- conditions on a word's digits, in C and Python

def name_of(place):
    return PLACES[place - 1]


def conditions(one, digit):
    """What holds of the digits of a word of the class; `digit` says how one is named, by its place."""
    for place, (low, high) in enumerate(zip(one.least, one.greatest), 1):
        if low == high:
            yield "%s == %d" % (digit(place), low)
        elif low:
            yield "%s >= %d" % (digit(place), low)
        if low < high < 15:
            yield "%s < %d" % (digit(place), high + 1)


def is_one_word(one):
    return one.least == one.greatest


def value(number, digit):
    """A number of a word as a sum of its digits."""
    terms = []
    for power, (place, modulus) in enumerate(reversed(number.digits)):
        term = digit(place) if modulus == 16 else "%s %% %d" % (digit(place), modulus)
        factor = number.base ** power
        terms.append(term if factor == 1 else "%d * %s" % (factor, term if modulus == 16 else "(%s)" % term))
    return " + ".join(reversed(terms))


def code_in_c(classes):
    """The plain way from a word to its code, by a test for each class."""
    def digit(place):
        return "d[%d]" % (place - 1)
    text = ""
    for one in classes[:-1]:
        test = "word == 0x" + one.example if is_one_word(one) else " && ".join(conditions(one, digit))
        numbers = [value(number, digit) for number in one.numbers] + ["0", "0"]
        text += "    if (%s)\n        return code_of(%s, %s, %s);\n" % (test, constant(one), *numbers[:2])
    return text


# ---- the Python package

def kinds_in_python(classes):
    return "".join("    %s = %d\n" % (one.words_of_name, one.number) for one in by_number(classes))


def code_in_python(classes):
    """From the six digits of a word to its code."""
    text = ""
    for one in classes[:-1]:
        test = "word == 0x" + one.example if is_one_word(one) else " and ".join(conditions(one, name_of))
        numbers = [value(number, name_of) for number in one.numbers] + ["0", "0"]
        text += "    if %s:\n        return Code(Kind.%s, %s, %s)\n" % (test, one.words_of_name, *numbers[:2])
    return text


def classes_in_python(classes):
    """A row for each class: its kind, text, the names of its numbers, lines and disc."""
    text = "CLASSES = (\n"
    for one in classes:
        said = (one.kind, tuple(number.name for number in one.numbers), tuple(sorted(one.lines + one.also)),
                one.disc.lower())
        row = ["Kind." + one.words_of_name] + [repr(part).replace("'", '"') for part in said]
        text += "    Class(%s),\n" % ", ".join(row)
    return text + ")\n"


# ---- the manual page and the documents

def texts_of_page(classes):
    texts = [one.text_of(digits_of(one.example)) for one in classes]
    return "".join(".Sq %s ,\n" % text for text in texts[:-1]) + "or\n.Sq %s .\n" % texts[-1]


def patterns_of_document(classes):
    """The list of patterns in docs/FORMATS.md."""
    return "\n%s\n" % "".join("- %s: %s\n" % (one.words or "all else", one.meaning) for one in classes)


def lines_of_document(classes):
    """The list of lines in docs/FORMATS.md: an item for all classes that stand on the same ones."""
    rows = {}
    for one in classes[:-1]:
        rows.setdefault(one.lines, []).append(one.meaning)
    return "\n%s\n" % "".join("- line%s %s: %s\n" % ("s" * (len(lines) > 1), " and ".join(map(str, lines)),
                                                   "; ".join(meanings)) for lines, meanings in rows.items())


def kinds_of_schema(classes, indent):
    kinds = ['"%s"' % one.kind for one in classes[:-1]]
    return wrapped(kinds, indent + "  ", ", ").rstrip("\n")


def with_kinds(text):
    """The text of the schema with the list of kinds as the table has it."""
    if len(KINDS_OF_SCHEMA.findall(text)) != 1:
        raise SystemExit("write: %s has not one list of kinds" % SCHEMA)
    classes = read_classes()
    return KINDS_OF_SCHEMA.sub(lambda found: found[1] + kinds_of_schema(classes, found[2]) + found[3], text)


def of_classes(make):
    """A part with its source and what makes it."""
    return TABLE, lambda: make(read_classes())


# The parts of each file
PARTS = {
    "include/ldvbi.h": {"kinds": of_classes(kinds_in_c), "texts": of_classes(texts_in_c)},
    "bench/plain.h": {"code": of_classes(code_in_c)},
    "python/ldvbi/classes.py": {"kinds": of_classes(kinds_in_python), "classes": of_classes(classes_in_python),
                                "code": of_classes(code_in_python)},
    "share/man/ldvbi.1": {"texts": of_classes(texts_of_page)},
    "docs/FORMATS.md": {"patterns": of_classes(patterns_of_document), "lines": of_classes(lines_of_document)},
}
