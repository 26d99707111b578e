"""The edits of crates/NAME/must-fail: what each one changes, which function the prover has to refuse for it, and which
can share a check.

An edit has lines 'file: src/x.rt', 'old: TEXT' (once in that file) and 'new: TEXT', as for `rt must-fail`. The function
that the prover has to refuse is the one that a row of must-fail/refuses.md names, else the one whose body the edit
changes. Edits share a round where each changes a body of its own, and what one changes beside bodies, as a constant, a
head or a definition of specs/, is nothing on which the verdict on another one rests. That is told by names, of which it
takes more than are needed (`Edit.judged_by`).
"""
import collections
import functools
import glob
import os
import re

# The begin of a function or constant: its indent, whether it is public, and its name
ITEM = re.compile(r"^( *)(pub )?(?:pub\([^)]*\) )?"
                  r"(?:(?:const |unsafe |extern \"C\" )*fn (\w+)|(?:const|static) (\w+):)", re.M)
# The line that opens a function's body
OPENS = re.compile(r"^(?!.*\b(?:requires|ensures|ghost)\b).*\{ *$", re.M)
# Texts, characters and comments, which name nothing
SILENT = re.compile(r'"(?:\\.|[^"\\])*"|\'(?:\\.|[^\'\\])\'|//[^\n]*', re.S)
# The begin of a definition or a lemma, at the top of a file or also in its modules, with its name; a name; an import;
# another name for one; and a type
STATES = [re.compile(rf"^{indent}(?:(?:pub|abbrev|unfoldable|record|data) )*([A-Za-z][\w'-]*)(?= :)"
                     rf"|^{indent}(?:pub )?(?:record|data) (?:pub )?([\w'-]+)", re.M) for indent in ("", " *")]
NAME = re.compile(r"[A-Za-z_][\w']*(?:-[\w']+)*")
USE = re.compile(r"^ *(?:pub |ghost )?use .*?(?:\n(?! )|;)", re.M | re.S)
RENAMED = re.compile(r"([\w']+) as ([\w']+)")
TYPE = re.compile(r"^(?:pub(?:\([^)]*\))? )?(?:struct|enum|trait|type) (\w+)[^{;]*(?:\{.*?^\}|;)", re.M | re.S)


def read(path):
    with open(path, encoding="utf-8") as file:
        return file.read()


class Item:
    """A function or a constant: its name as the prover writes it, where its body stands, and what that names."""

    def __init__(self, path, head):
        indent, public, function, constant = head.groups()
        self.path, self.text, self.is_function = path, head.string, function is not None
        ends = re.compile(rf"^{indent}(?:\}}|\{{\}}$)" if function else ";$", re.M).search(self.text, head.end())
        opens = OPENS.search(self.text, head.start(), ends.start())
        self.start = self.text.rfind("\n\n", 0, head.start()) + 1
        self.begin = head.start() if constant else opens.end() if opens else head.end()
        self.end = ends.end() if constant else ends.start()
        # A law has an empty body, and so no wrong one.
        self.is_public = bool(public and function) and "{}" not in ends[0]
        self.whole, self.head = self.text[self.start:ends.end()], self.text[self.start:self.begin]
        self.simple_name = function or constant
        _, self.crate, _, *inside = path[:-len(".rt")].split("/")
        owner = self.owner(head.start()) if indent else []
        # Before a method the prover writes the type of the impl around it, then its trait.
        names = [*inside, *(type_name + of for of, type_name in owner), self.simple_name]
        self.name = "::".join(names[inside in (["lib"], ["main"]):])
        self.implementor = owner[0][1] if owner and owner[0][0] else self.simple_name

    def owner(self, place):
        """Returns the trait, or "", and the type of the impl around a method."""
        heads = re.findall(r"^(?:\}|(?:unsafe )?impl\b.*)", self.text[:place], re.M)
        head = re.sub(r"<[^<>]*>", "", re.sub(r"<[^<>]*>", "", heads[-1] if heads else ""))
        return re.findall(r"impl\s+(?:[\w:]*?(\w+)\s+for\s+)?(?:[\w:]*::)?(\w+)", head)

    def named(self):
        body = SILENT.sub("", self.text[self.begin:self.end])
        return {one or other for one, other in re.findall(r"\b(\w+)(?:::<[^>]*>)?\(|\b([A-Z][A-Z_]+)\b", body)}


@functools.lru_cache(maxsize=None)
def items(path):
    return [Item(path, head) for head in ITEM.finditer(read(path))]


@functools.lru_cache(maxsize=None)
def blocks(path):
    """Returns the texts of a file of specs/ between empty lines, without comments, each with the place of its begin."""
    text = re.sub("--.*", lambda comment: " " * len(comment[0]), read(path))
    return [(it.start(), it[0]) for it in re.finditer(r"(?:^.*\S.*\n)+", text, re.M)]


@functools.lru_cache(maxsize=None)
def items_of(folder):
    return [it for path in glob.glob(f"{folder}/src/**/*.rt", recursive=True) for it in items(path)]


def words(text):
    return NAME.findall(re.sub("(?://|--).*", "", text))


@functools.lru_cache(maxsize=None)
def named_by(folder):
    """Returns what each name of a crate names: of definitions, constants and types; of lemmas; and of a function's
    head, or of the heads of all that a type implements."""
    definitions, lemmas, heads = (collections.defaultdict(set) for _ in range(3))
    # What is in a folder below proofs/ is of one function, and no other one uses it.
    for part, of_part in ("specs/**", definitions), ("proofs", lemmas):
        for texts in map(blocks, glob.glob(f"{folder}/{part}/*.antt", recursive=True)):
            # What a module is given stands for all in it.
            given = {name for _, text in texts if text.lstrip().startswith("module ") for name in words(text)}
            for text in (text for _, text in texts):
                for names in STATES[bool(given)].findall(text):
                    of_part["".join(names)].update(words(text), given)
    for it in items_of(folder):
        for name in it.simple_name, it.implementor:
            (heads if it.is_function else definitions)[name].update(words(it.head if it.is_function else it.whole))
    for text in map(read, glob.glob(f"{folder}/src/**/*.rt", recursive=True)
                    + glob.glob(f"{folder}/specs/**/*.antt", recursive=True)):
        for one in TYPE.finditer(text):
            definitions[one[1]].update(words(one[0]))
        for old, new in RENAMED.findall("".join(USE.findall(text))):
            definitions[new].add(old)
    return definitions, lemmas, heads


def closed(names, *maps):
    """Returns these names with all that they name by these maps, and so on."""
    found, new = set(), {*names}
    while new:
        found |= new
        new = {other for name in new for of_names in maps for other in of_names.get(name, ())} - found
    return found


def public_functions(changed):
    """Returns the public functions of all crates but those of tests, and whether one of these changes is such a
    function, or what its body names."""
    everything = [it for path in sorted(glob.glob("crates/*/src/**/*.rt", recursive=True))
                  if "_tests/" not in path for it in items(path)]
    by_name = collections.defaultdict(list)
    for it in everything:
        by_name[it.simple_name].append(it)

    def around(it):
        yield it
        for name in it.named():
            others = [other for other in by_name[name] if other is not it]
            beside = [other for other in others if other.path == it.path] or others
            yield from beside if len(beside) == 1 else ()

    return {it: any((other.crate, other.name) in changed for other in around(it)) for it in everything if it.is_public}


class Edit:
    """A wrong body: its places and texts, and the functions of which one has to be refused."""

    def __init__(self, folder, path, refuses):
        self.name = os.path.basename(path)[:-len(".edit")]
        self.pairs, self.fault = [], None
        given = {}
        for line in filter(None, read(path).split("\n")):
            key, _, value = line.partition(":")
            given[key] = value.removeprefix(" ")
            if key == "new":
                self.pairs.append((given["file"], given["old"], given["new"]))
            elif key not in ("file", "old"):
                self.fault = f"a line is none of 'file:', 'old:' and 'new:': {line}"
        if not self.pairs or texts_with([self], folder) is None:
            self.fault = "it changes nothing, or an 'old:' text isn't in its file just once"
        functions, changed, self.redefined = [], set(), set()
        for file, old, new in self.pairs:
            path = f"{folder}/{file}"
            at = read(path).find(old)
            if at >= 0:  # else an earlier pair has put it there, and it stands where that one does
                around = [it for it in items(path) if it.begin <= at and at + len(old) <= it.end]
                functions += [it.name for it in around if it.is_function][-1:]
                changed |= {it.name for it in around[-1:]}
                names = self.redefined_at(path, at, old, new)
                self.redefined = None if None in (names, self.redefined) else self.redefined | names
        self.refuses = refuses or list(dict.fromkeys(functions))
        self.fault = self.fault or (None if self.refuses else "it changes no body, and no row names what is refused")
        self.changes = {*self.refuses, *changed}
        self.rests_on = self.judged_by(folder)

    @staticmethod
    def redefined_at(path, at, old, new):
        """Returns the names of which others see it where this text is another one: none for a body, also after a head
        that stays. It returns None where the text isn't in a function or constant, nor in definitions or records."""
        if path.endswith(".rt"):
            inside = [it for it in items(path) if it.start <= at and at + len(old) <= it.end][-1:]
            stays = [it.is_function and (it.begin <= at or " ".join(new.split()).startswith(
                " ".join(it.text[at:it.begin].split()))) for it in inside]
            return {it.simple_name for it in inside if stays != [True]} if inside else None
        texts = [text for begin, text in blocks(path) if begin < at + len(old) and at < begin + len(text)]
        if all(USE.match(text.lstrip()) for text in texts):
            return {*words(old)} ^ {*words(new)} | {name for pair in RENAMED.findall(old + new) for name in pair}
        return {"".join(names) for text in texts for names in STATES[0].findall(text)} or None

    def judged_by(self, folder):
        """Returns the names on which the verdict on this rests, among others, or None where it is any function's."""
        names = {name.split("::")[-1] for name in self.refuses}
        # The prover names a method by the module of its type, which may be of another file.
        judged = [it for it in items_of(folder)
                  if it.name in self.refuses or it.name in self.changes and it.simple_name in names]
        if {it.simple_name for it in judged} != names:
            return None
        definitions, lemmas, heads = named_by(folder)
        proofs = [path for name in {*self.refuses, *(it.name for it in judged)}
                  for path in glob.glob(f"{folder}/proofs/{name.replace('::', '/')}/**/*.antt", recursive=True)]
        inside = {name for text in [*(it.text[it.begin:it.end] for it in judged), *(new for *_, new in self.pairs)]
                  for name in words(text)}
        # What a body calls is known by its head, as is what the types implement that such a head names.
        called = {other for name in inside for other in heads.get(name, ())}
        names = inside | called | {other for name in called for other in heads.get(name, ())}
        names |= {name for text in [*(it.whole for it in judged), *map(read, proofs)] for name in words(text)}
        return closed(names, definitions, *[lemmas] * bool(proofs or "using" in names))

    def can_share(self, other):
        """Whether neither of two edits has an effect on what the other one is judged by."""
        return not self.changes & other.changes and not self.affects(other) and not other.affects(self)

    def affects(self, other):
        return self.redefined is None or self.redefined and (other.rests_on is None or self.redefined & other.rests_on)


def texts_with(edits, folder):
    """Returns the files that these edits change, with their texts then, or None where one has taken another's place."""
    texts = {}
    for file, old, new in [pair for edit in edits for pair in edit.pairs]:
        text = texts.get(file) or read(f"{folder}/{file}")
        if text.count(old) != 1:
            return None
        texts[file] = text.replace(old, new)
    return texts


def rounds_of(edits, folder):
    """Shares the edits among rounds, lists of some, those first that can share with the fewest. No two of a round
    change one function, and each applies beside the others. Each goes to the smallest: of some calls of a function
    that is refused the prover leaves the caller unjudged, so the fewer share a round, the fewer are tried alone."""
    made = []
    for edit in sorted(edits, key=lambda it: sum(map(it.can_share, edits))):
        fits = [others for others in made
                if all(map(edit.can_share, others)) and texts_with([*others, edit], folder) is not None]
        if not fits:
            made.append([])
        min(fits or made[-1:], key=len).append(edit)
    return made
