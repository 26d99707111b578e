#!/usr/bin/env python3
"""Compares what the documents name with the source. Each check prints how much it looked at; what doesn't fit it names
on standard error, and then the status is 1, as where it looked at less than CHECKS says: then it no longer understands
the documents. A check yields whether a thing fits, and what to say where it doesn't. texts/write.py has the rest.

usage: python3 tests/documents.py [CHECK..]     (at the top of the repository)
"""
import fnmatch
import glob
import json
import os
import pathlib
import re
import sys

import checks

# Where a path that a document names may begin
FOLDERS = ("", "crates/", "crates/*/", "crates/*/src/", "crates/*/specs/", "rust/hand/src/", "tests/*/", "bench/*/")
# What is built isn't there before; git is told to leave it out.
BUILT = [line.strip("/") for line in pathlib.Path(".gitignore").read_text("utf-8").split()]
# A path in prose: one with a folder, a folder alone, or the name of a source file
PATH = re.compile(r"(?<![\w./])(?!PREFIX)[\w.*-]*\w(?:/[\w.*-]+)+\w|[\w-]+/(?=[`, |]|$)|"
                  r"\b\w[\w.]*\.(?:antt|rt|rs|py|sh|c|md)\b")
# A name in code font: one word, or one with its type, file or crate
NAME = re.compile(r"[A-Za-z]\w*(?:::\w+)*|(?:[A-Z]\w*|ldvbi\w*)(?:\.[a-z]\w+)+")


def read(path):
    return pathlib.Path(path).read_text("utf-8")


def documents():
    return ["README.md", "CONTRIBUTING.md", "CHANGELOG.md", *sorted(glob.glob("docs/*.md")),
            *sorted(glob.glob("crates/*/CALLING.md"))]


def prose(path):
    """Returns a document without its blocks."""
    return re.sub(r"^```.*?^```$", "", read(path), flags=re.M | re.S)


def part(path, begin, end):
    return read(path).partition(begin)[2].partition(end)[0]


def codes(text):
    """Returns what stands in code font."""
    return re.findall(r"`([^`]+)`", text)


def links():
    """What a document links to is there, a heading (`#..`) too; of the net one place alone is linked."""
    for path in documents():
        for link in re.findall(r"\]\(([^)\s]*)\)", prose(path)):
            target, _, anchor = link.partition("#")
            file = os.path.normpath(os.path.join(os.path.dirname(path), target)) if target else path
            heads = re.findall(r"^#+ (.*)$", prose(file), re.M) if anchor and os.path.exists(file) else []
            anchors = ["", *(re.sub(r"[^\w\- ]", "", head.lower()).replace(" ", "-") for head in heads)]
            is_there = link == "https://github.com/happycube/ld-decode" or os.path.exists(file) and anchor in anchors
            yield is_there, f"{path}: {link} isn't there, or is no link to the net that is known"


def paths():
    """The files and folders that documents name are there, of the repository or of a crate, or are built. A name alone
    is in the folder named before it in its line. CONTRIBUTING.md names paths without code font, too."""
    for document in documents():
        for line in prose(document).split("\n"):
            folder = ""
            for path in PATH.findall(line if document == "CONTRIBUTING.md" else " ".join(codes(line))):
                there = [place for begin in (*FOLDERS, folder + "/") for place in glob.glob(begin + path)]
                is_built = any(fnmatch.fnmatch(path, one + end) for one in BUILT for end in ("", "/*"))
                yield there or is_built, f"{document}: {path} isn't there"
                if there and "/" in path:
                    folder = there[0] if os.path.isdir(there[0]) else os.path.dirname(there[0])


SOURCES = ("crates/*/src/*.rt", "crates/*/specs/*.antt", "include/*.h", "python/**/*.py", "rust/hand/src/*.rs",
           "share/schema/*.json", "[rt]*/*.sh", "tests/unit/*.py", "simulated/*.py", "examples/*.c")
# Words of other programs, and of the machine
NOT_OURS = {"chdman", "console", "manylinux_2_17", "memcpy", "memmove", "memset", "pipefail", "pv", "siglongjmp",
            "WILLNEED"}


def words_of(path):
    """The words of a source and of its path, of those in Rattle without those of comments."""
    text = re.sub(r"(?://|--) .*", "", read(path)) if path.endswith((".rt", ".antt")) else read(path)
    return set(re.findall(r"\w+", text)) | set(re.findall(r"\w+", path))


def names():
    """The functions, definitions and types that documents name are in the source, what stands before one (`Type::name`)
    in the same file. ANSWER.md has each member of the answer."""
    files = [words_of(path) for pattern in SOURCES for path in glob.glob(pattern, recursive=True)]
    files.append({*NOT_OURS, *glob.glob("*"), *map(os.path.basename, glob.glob("crates/*"))})
    for path in documents():
        for code in codes(prose(path)):
            if NAME.fullmatch(code) and not PATH.fullmatch(code):
                parts = set(re.split(r"::|\.", code))
                yield any(parts <= words for words in files), f"{path}: {code} isn't in the source"
    named = codes(part("docs/ANSWER.md", "\n## The answer\n", "\n<!-- "))
    for name in json.loads(read("share/schema/ldvbi-side.schema.json"))["properties"]:
        yield name in named, f"docs/ANSWER.md doesn't have the member {name} of the answer"


# The variants of a fault, with their texts before them, or what writes the texts
FAULT = re.compile(r"^(?:impl fmt::Display for|pub\S* enum) (?:App|Draw|Main|Meta|Run|Words)Fault \{(.*?)^\}",
                   re.M | re.S)
NO_FAULT = ("{}", "{0}", "feeder failed before")  # of a fault below or clap's, and what the program never prints


def listed_texts(heading):
    """Returns the texts of more than one word in code font in the lists under this heading of FORMATS.md."""
    section = part("docs/FORMATS.md", f"\n## {heading}\n", "\n## ")
    return [text for text in codes("".join(re.findall(r"^- .*\n(?:  .*\n)*", section, re.M))) if " " in text]


def faults():
    """Both lists of faults in FORMATS.md have the source's texts and no others, the first one in the source's order;
    those of the manual page are among them. Causes are the source's, and so is how long a glitch is."""
    texts = [text for path in sorted(glob.glob("crates/*/src/*.rt")) for body in FAULT.findall(read(path))
             for text in re.findall(r'"([^"]+)"', body) if text not in NO_FAULT]
    patterns = [re.sub(r"\\\{\w+\\\}", r"(?:[1-9]\\d*|0)", re.escape(text)) for text in dict.fromkeys(texts)]
    settings, others = map(listed_texts, ("Input: metadata", "Messages and exit statuses"))
    shown = re.findall(r"^\.Sq (\w[^:\n]+?) ?\.?$", part("share/man/ldvbi.1", ".Sh DIAGNOSTICS", "\0"), re.M)
    said = [*settings, *others, *shown]
    places = [[place for place, pattern in enumerate(patterns) if re.fullmatch(pattern, text)] for text in said]
    for text, found in zip(said, places):
        yield len(found) == 1, f"'{text}' of FORMATS.md or the manual page is no fault text of the source"
    missing = [text for place, text in enumerate(patterns) if [place] not in places[:-len(shown)]]
    yield not missing, f"FORMATS.md doesn't have the fault texts {missing}"
    yield settings == sorted(settings, key=lambda text: places[said.index(text)]), "FORMATS.md has another order"
    causes = re.findall(r'push_str\("([a-z]+) ?"\)', read("crates/vbi_field/src/cause_texts.rt"))
    outcomes = codes(part("docs/FORMATS.md", "\n### The outcome of a line", "\n### "))[1:]
    yield outcomes == causes, f"FORMATS.md has the outcomes {outcomes}, and the source {causes}"
    most = int(re.search(r"pub few : m ≤ (\d+)", read("crates/vbi_words/specs/Smooth.antt"))[1])
    drawn = re.findall(r"^(?:drawn|glitch|too long) +[.#]*?#+(\.+)#", read("docs/FORMATS.md"), re.M)
    yield [*map(len, drawn)] == [most, most + 1], f"FORMATS.md draws gaps of {drawn}: a glitch has up to {most} columns"


# A line of a manual page that marks something up, and words of the language of those pages
MARKED = re.compile(r"^\.(?!Dd|Dt|Sh)[A-Z]\w (.+)$", re.M)
MDOC = {"literal", "offset", "tag", "width", "indent"}


def manuals():
    """Each word that a manual page marks up by hand is one of a document or of the source; its title is its name."""
    sources = ["LICENSE", "pyproject.toml", *documents(), *glob.glob("crates/vbi_cli/src/*.rt"),
               *glob.glob("python/ldvbi*/**/*.py", recursive=True)]
    known = MDOC.union(word.strip(".,:;'-") for path in sources for word in re.findall(r'[^\s`"()|=]+', read(path)))
    for path in sorted(glob.glob("share/man/*.1")):
        text = re.sub(r'^\.\\" from .*?^\.\\" to here$', "", read(path), flags=re.M | re.S)
        yield f"\n.Dt {pathlib.Path(path).stem.upper()} 1\n" in text, f"{path} has another title"
        for word in re.findall(r"[^\s()|]+", " ".join(MARKED.findall(text)).replace("\\&", "")):
            name = word.strip(".,:;-").removesuffix("'s")
            yield re.fullmatch("[A-Z][a-z]|", name) or name in known, f"{path} names '{word}'"


# What MEASURED.md says of how was measured, and the sums that it has of several rows or files
KNOWN = {"400", "2000", "2350", "12000", "180000", "670", "681", "725", "3270"}


def figures(text):
    """The whole numbers of a text, without commas."""
    return [number.replace(",", "") for number in re.findall(r"(?<![\w.])\d+(?:,\d{3})*(?![\w.]*\d)", text)]


def measured():
    """Each number of three digits or more in a part of MEASURED.md that links files of what was measured is theirs."""
    for block in re.split(r"\n\n|\n(?=[-|] )", re.sub(r"<!--.*?-->", "", read("docs/MEASURED.md"))):
        files = ["docs/" + link for link in re.findall(r"\]\((measured/\w+\.txt)\)", block)]
        known = KNOWN.union(*(figures(read(path)) for path in files))
        for number in figures(re.sub(r"\]\(.*?\)", "", block)) if files else ():
            if len(number) > 2:
                yield number in known, f"docs/MEASURED.md says {number}, which none of {files} has"


# The most lines of definitions that have to be believed for a promise of README. A value has a line for each of its
# fields, and each definition that takes it one argument in place of several.
MOST_BELIEVED = 160


def promises():
    """Each promise that README calls proved has a section of texts/promised.txt, from which texts/definitions.py
    prints what has to be read for it, and that is little."""
    sys.path.insert(0, "texts")
    import definitions
    bullets = re.findall(r"^- (.*)$", part("README.md", "\nProved for every input:\n", "\n\n["), re.M)
    begins = {section.bullet: mark for mark, section in definitions.SECTIONS.items() if section.bullet}
    for bullet in bullets:
        fits = [begin for begin in begins if bullet.startswith(begin)]
        yield len(fits) == 1, f"README.md: no section of texts/promised.txt, or several, begin as '{bullet}'"
        lines = definitions.lines_in(definitions.believed(begins[fits[0]])) if fits else 0
        yield lines <= MOST_BELIEVED, f"texts/promised.txt: {begins[fits[0]]} has {lines} lines to be believed"
    yield len(begins) == len(bullets), f"README.md has {len(bullets)} promises, and texts/promised.txt {len(begins)}"


# Each check, with the least that it has to look at
CHECKS = {"promises": (promises, 17), "links": (links, 70), "paths": (paths, 120), "names": (names, 800),
          "faults": (faults, 28), "manuals": (manuals, 120), "measured": (measured, 20)}


if __name__ == "__main__":
    sys.exit(checks.run(CHECKS))
