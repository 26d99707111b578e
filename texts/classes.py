"""The table of the classes of code words, classes.txt, as Python reads it. `python3 texts/classes.py` prints of each
word on standard input, six hexadecimal digits, the text that the table has for it."""

import os
import re
import sys
from typing import NamedTuple

TABLE = os.path.join(os.path.dirname(os.path.abspath(__file__)), "classes.txt")


class Number(NamedTuple):
    """A number that a word has: its name, its base, the places of its digits with what each counts modulo, and what it
    is."""
    name: str
    base: int
    digits: tuple
    meaning: str


class Class(NamedTuple):
    """A class of code words. `least` and `greatest` have the least and the greatest digit at each place, and are empty
    for what is in no other class."""
    name: str
    number: int
    least: tuple
    greatest: tuple
    words: str
    text: str
    meaning: str
    numbers: tuple
    note: str
    disc: str
    lines: tuple
    also: tuple
    example: str

    @property
    def words_of_name(self):
        """The name in several words: `clv_picture`."""
        return re.sub(r"(?<=[a-z])(?=[A-Z])", "_", self.name).lower()

    @property
    def kind(self):
        """The text without numbers."""
        return self.text.partition(" {")[0]

    def has(self, digits):
        """Whether a word with these six digits is of the class, where it is of none before."""
        return all(low <= digit <= high for low, digit, high in zip(self.least, digits, self.greatest))

    def text_of(self, digits):
        """What the report says of a word with these digits."""
        numbers = {}
        for number in self.numbers:
            value = 0
            for place, modulus in number.digits:
                value = number.base * value + digits[place - 1] % modulus
            numbers[number.name] = value
        return self.text.format(**numbers)


def _digits_of(words):
    """The least and the greatest digits of the pattern of words."""
    digits = []
    for part in words.split(", "):
        bounds = part.split(" to ")
        if len(bounds) == 2:
            digits.append((int(bounds[0], 16), int(bounds[1], 16)))
        else:
            digits += [{"d": (0, 9), "x": (0, 15)}.get(one) or (int(one, 16),) * 2 for one in part]
    if len(digits) != 6:
        raise SystemExit("classes.txt: %s hasn't six digits" % words)
    return zip(*digits)


def _number_of(name, text):
    digits, _, meaning = text.partition(", ")
    base, digits = (16, digits[2:]) if digits.startswith("X ") else (10, digits)
    places = (digit.partition("%") for digit in digits.split())
    return Number(name, base, tuple((int(place), int(modulus or 16)) for place, _, modulus in places), meaning)


def _lines_of(text):
    return tuple(int(line) for line in re.findall(r"\d+", text))


def _class_of(paragraph):
    """The class that a paragraph of the table is about."""
    said, numbers = {}, []
    for line in paragraph.strip().split("\n"):
        number = re.fullmatch(r"(\w+) = +(.*)", line)
        if number:
            numbers.append(_number_of(*number.groups()))
        else:
            key, text = line.split(None, 1)
            said[key] = text
    words = said.get("words", "")
    least, greatest = _digits_of(words) if words else ((), ())
    lines, _, also = said.get("lines", "").partition(" also ")
    return Class(said["class"], int(said["number"]), least, greatest, words, said["text"], said["means"],
                 tuple(numbers), said.get("note", ""), said.get("disc", ""), _lines_of(lines), _lines_of(also),
                 said["example"])


def read_classes():
    """The classes of the table, in its order; the last one has the words that are in no other."""
    with open(TABLE, encoding="ascii") as file:
        text = re.sub(r"^#.*\n", "", file.read(), flags=re.M)
    return [_class_of(paragraph) for paragraph in text.strip().split("\n\n")]


def digits_of(word):
    """The six digits of a word that is written in hexadecimal."""
    return tuple(int(digit, 16) for digit in word)


def main():
    classes = read_classes()
    for line in sys.stdin:
        digits = digits_of(line.strip())
        print(line.strip(), next(one for one in classes if one.has(digits)).text_of(digits))


if __name__ == "__main__":
    main()
