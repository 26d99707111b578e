#!/usr/bin/env python3
"""A second way from the proved source to plain Rust, made apart from rust/erase.py, and compared with it.

erase.py works on lines, by patterns. This works on tokens, by the grammar: it drops what is ghost, brings both texts
into one form, and names each place at which they differ otherwise than WRITTEN_OTHERWISE says. So a contract that was
left in, code that went with one, or a line that erase.py turned into another one is seen, in any file.

usage: python3 tests/proofs/erased.py [CRATE]     CRATE is what erase.py wrote; else it is written for this comparison
"""
import difflib
import pathlib
import re
import subprocess
import sys
import tempfile

MODULES = {"vbi_words": "words", "vbi_line": "line", "vbi_field": "field", "vbi_meta": "meta", "vbi_cli": "cli",
           "vbi_near": "near", "vbi_side": "side", "vbi_whole": "whole_side", "vbi_plan": "plan", "vbi_seek": "seek",
           "vbi_story": "story", "vbi_c": "c"}
TOKEN = re.compile(r"""//[^\n]*|b?"(?:\\.|[^"\\])*"|b?'(?:\\[^'\n]+|[^'\\\n])'|'[a-z_]\w*|\w+|::|->|=>|\S""", re.S)
CLOSING = {"(": ")", "[": "]", "{": "}"}
LAWS = re.compile(r"(?:\w+_)?laws")
# What Rust writes otherwise, as the tokens of both: derives for what contracts compare, memory that is refused, which
# Rust's library doesn't tell, and items of the toolchain's library that have another place or form there
WRITTEN_OTHERWISE = r"""
# [ derive ( Clone , Copy ) ]             | # [ derive ( Clone , Copy , Debug , PartialEq , Eq ) ]
# [ derive ( Clone , Copy , Default ) ]   | # [ derive ( Clone , Copy , Debug , Default , PartialEq , Eq ) ]
# [ derive ( Drop ) ]                     |
, Drop )                                  | )
, Drop ,                                  | ,
# [ unsafe ( no_mangle ) ]                |
pub extern "C" fn                         | pub fn
prove !                                   | assert !
use std :: marker :: Model ;              |
use std :: simd :: prelude :: * ;         |
use std :: alloc :: Global ;              |
< W : fmt :: Write > ( & self , f : & mut fmt :: Formatter < W > ) | ( & self , f : & mut fmt :: Formatter < '_ > )
alloc : Global ,                          |
alloc : Global )                          | )
( alloc ,                                 | (
( alloc )                                 | ( )
format ! ( in alloc ; "error: no system is called '{name}'\n" ) ? | format ! ( "error: no system is called '{name}'\n" )
value_parser ( SYSTEMS . as_slice ( ) )   | value_parser ( SYSTEMS )
AllocError                                | Infallible
help : & 'a str                           | help : & 'static str
clap ::                                   | crate :: clap ::
Value :: from_slice ( alloc ,             | serde_json :: from_slice :: < Value > (
use std :: alloc :: { AllocError , AllocFailed , Global } ; \
    | use std :: convert :: Infallible ; use std :: str :: FromStr ;
use std :: alloc :: { AllocError , Global } ; | use std :: convert :: Infallible ;
Err ( fault ) if fault . is_memory ( ) => Err ( MetaFault :: OutOfMemory ) , |
u16x16 :: from_array ( samples ) . simd_gt ( u16x16 :: splat ( low ) ) . to_bitmask ( ) \
    | crate :: bits_above :: bits_above ( samples , low )
"""
def tokens_of(text):
    return [token for token in TOKEN.findall(text) if not token.startswith("//")]


ROWS = [tuple(tokens_of(side) for side in row.split("|"))
        for row in WRITTEN_OTHERWISE.strip().replace("\\\n", "").split("\n")]


def end_of(tokens, start):
    """The place after the bracket that closes the one at this place."""
    depth = 0
    for place in range(start, len(tokens)):
        depth += (tokens[place] in CLOSING) - (tokens[place] in CLOSING.values())
        if depth == 0:
            return place + 1
    raise SystemExit("erased: a bracket isn't closed: " + " ".join(tokens[start:start + 20]))


def after(tokens, place, ends):
    """The place after the first of these tokens that stands outside of brackets."""
    while tokens[place] not in ends:
        place = end_of(tokens, place) if tokens[place] in CLOSING else place + 1
    return place + 1


def ghost_end(tokens, at):
    """The place after what begins here if it doesn't run: an item or a member that is ghost, a clause, a module of
    laws, a tactic, a model, what becomes of an allocation that was refused. Else none."""
    is_public = tokens[at] == "pub"
    place = at + 4 if is_public and tokens[at + 1:at + 4] == ["(", "crate", ")"] else at + is_public
    first, second = (tokens[place:place + 2] + ["", ""])[:2]
    if first == "ghost":
        return after(tokens, at, {";", ","})
    if first == "mod" and LAWS.fullmatch(second):
        return after(tokens, at, {";"})
    if first in ("requires", "ensures"):
        return end_of(tokens, tokens.index("{", at))
    if first == "#" and "tactic" in tokens[at + 2:at + 4]:
        return end_of(tokens, tokens.index("[", at))
    head = tokens[at:tokens.index("{", at)] if first == "impl" else []
    is_ghost = "for" in head and head[head.index("for") - 1] == "Model" or "AllocFailed" in head
    return end_of(tokens, at + len(head)) if is_ghost else None


def plain(tokens):
    """The tokens without what doesn't run."""
    left, at = [], 0
    while at < len(tokens):
        end = ghost_end(tokens, at)
        left += [] if end else [tokens[at]]
        at = end or at + 1
    return left


def renamed(tokens, module):
    """Paths of crates as those of modules."""
    left = []
    for place, token in enumerate(tokens):
        is_path = tokens[place + 1:place + 2] == ["::"]
        if is_path and token in MODULES:
            left += ["crate", "::", MODULES[token]]
        elif is_path and token == "crate" and tokens[place + 2] not in ("clap", "bits_above"):
            left += ["crate", "::", module]
        else:
            left.append(token)
    return left


def replaced(tokens, rows, used):
    """The tokens with the first side of each row written as the second one; the rows that were met go into `used`."""
    left, at = [], 0
    while at < len(tokens):
        row = next((row for row in rows if tokens[at:at + len(row[0])] == row[0]), None)
        if row:
            used.add(rows.index(row))
        left += row[1] if row else [tokens[at]]
        at += len(row[0]) if row else 1
    return left


def with_let_else(tokens):
    """Each `let NAMES = match VALUE { PATTERN => NAMES, _ => { BODY } };` as the `let .. else` that says the same."""
    left, at = [], 0
    while at < len(tokens):
        left.append(tokens[at])
        at += 1
        if left[-1] != "let":
            continue
        equals = after(tokens, at, {"=", ";"}) - 1
        if tokens[equals] != "=" or tokens[equals + 1] != "match":
            continue
        names, brace = tokens[at:equals], after(tokens, equals, {"{", ";"}) - 1
        if tokens[brace] != "{":
            brace = next(place for place in range(equals, len(tokens)) if tokens[place] == "{")
        arms = tokens[brace + 1:end_of(tokens, brace) - 1]
        arrow = arms.index("=>")
        if arms[arrow + 1:arrow + 5 + len(names)] == [*names, ",", "_", "=>", "{"]:
            left += [*arms[:arrow], "=", *tokens[equals + 2:brace], "else", *arms[arrow + 4 + len(names):]]
            at = end_of(tokens, brace)
    return left


def differences(path, other, module, used):
    """Yields where what is left of a source differs from the file of plain Rust."""
    proved = replaced(renamed(plain(tokens_of(path.read_text("utf-8"))), module), ROWS, used)
    written = with_let_else(tokens_of(other.read_text("utf-8")))
    for kind, a, b, c, d in difflib.SequenceMatcher(None, proved, written, autojunk=False).get_opcodes():
        if kind != "equal":
            near = " ".join(proved[max(a - 6, 0):a])
            yield f"{path}: after '{near}': '{' '.join(proved[a:b])}' is '{' '.join(written[c:d])}'"


def main():
    with tempfile.TemporaryDirectory() as work:
        crate = pathlib.Path(sys.argv[1] if sys.argv[1:] else work + "/crate")
        if not sys.argv[1:]:
            subprocess.run([sys.executable, "rust/erase.py", "crates", "rust/hand", str(crate)], check=True)
        faults, used, count = [], set(), 0
        for name, module in MODULES.items():
            for path in sorted(pathlib.Path("crates", name, "src").glob("*.rt")):
                other = crate / "src" / module / (("mod" if path.stem == "lib" else path.stem) + ".rs")
                if not LAWS.fullmatch(path.stem):
                    count += 1
                    faults += differences(path, other, module, used)
        faults += [f"nothing is written otherwise by: {' '.join(ROWS[row][0])}"
                   for row in range(len(ROWS)) if row not in used]
    print(f"erased: {count} files compared")
    return "\n".join(faults) or None


if __name__ == "__main__":
    sys.exit(main())
