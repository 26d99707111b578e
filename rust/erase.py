#!/usr/bin/env python3
"""Writes the proved source as one plain Rust crate: contracts are taken out, and nothing of what runs is changed.
usage: erase.py CRATES HAND CRATE
       erase.py CRATES FILE     writes the modules alone, as one file (rust/hand/build.rs)

CRATES is the folder of the project's crates, HAND has the files that are written by hand, and CRATE is made anew. What
goes: ghost lines, requires and ensures, models, tactics, modules of laws. What is written otherwise: paths of
crates, which are modules here; `let .. else`, which compilers before 1.65 don't know; what the toolchain's library has
otherwise than Rust's own (an allocator that is handed on, the type of fmt's writer). At a form that it doesn't know it
stops with file and line, so that nothing slips through which rustc would take for something else."""
import pathlib
import re
import shutil
import sys

MODULES = {"vbi_words": "words", "vbi_line": "line", "vbi_field": "field", "vbi_meta": "meta", "vbi_cli": "cli",
           "vbi_near": "near", "vbi_side": "side", "vbi_whole": "whole_side", "vbi_plan": "plan", "vbi_seek": "seek",
           "vbi_story": "story", "vbi_c": "c"}
# Those that need a feature of the crate
ATTRIBUTES_OF = {"meta": '#[cfg(feature = "metadata")]\n', "cli": '#[cfg(feature = "cli")]\n'}
# A comment, a text or a character, in which nothing is code
APART = re.compile(r"""//[^\n]*|b?"(?:\\.|[^"\\])*"|b?'(?:\\[^'\n]+|[^'\\\n])'""", re.S)
GHOST = re.compile(r"^[ \t]*(?:pub(?:\(crate\))? )?ghost ", re.M)
CLAUSE = re.compile(r"^[ \t]*(?:requires|ensures)\b\*?\s*\w*\s*(?=\{)", re.M)
MODEL = re.compile(r"^impl(?:<[^>]*>)? Model for [^{]*(?=\{)", re.M)
TACTIC = re.compile(r"^[ \t]*#!?(?=\[tactic\()", re.M)
REFUSED_MEMORY = re.compile(r"^impl<T: Drop> From<AllocFailed<T>> for [^{]*(?=\{)", re.M)

KEYWORDS = set("as break const continue crate dyn else enum extern fn for if impl in let loop match mod move mut pub "
               "ref return self static struct super trait type use where while".split())
BEHIND_A_NAME = {"as", "else", "if", "in", "where"}
MACROS = {"assert", "format", "matches", "settled", "unreachable", "value_parser", "vec", "write"}
ATTRIBUTES = {"derive", "error", "from", "inline", "repr"}
FOREIGN = re.compile(r"\b(?:AllocError|AllocFailed|Global|HostRuntime|Model|alloc|ghost|prove|simd|tactic|unsafe)\b"
                     r"|: Drop\b|[^\x00-\x7f]")
WORDS = re.compile(r"(?<![\w'.])([a-z_]\w*)[ \t]+([A-Za-z_]\w*)")
HEAD = re.compile(r"^[ \t]*([a-z_]\w*)\b\*?(?:[ \t]+\w+)?\s*\{", re.M)
MACRO = re.compile(r"\b(\w+)!\s*[(\[{]")
ATTRIBUTE = re.compile(r"#!?\[(\w+)")

# What is the same in both, but for its form. Lines stay where they are.
REWRITTEN = [(re.compile(pattern, re.M), other) for pattern, other in [
    (r"\bprove!", "assert!"),
    # What contracts compare by their views, Rust compares and prints by these.
    (r"^#\[derive\(Clone, Copy(, Default)?\)\]$", r"#[derive(Clone, Copy, Debug\1, PartialEq, Eq)]"),
    (r"<W: fmt::Write>\(&self, f: &mut fmt::Formatter<W>\)", "(&self, f: &mut fmt::Formatter<'_>)"),
    (r"(#\[derive\(.*)\bDrop, ", r"\1"), (r"\bDrop\)\]", ")]"), (r", \)\]", ")]"), (r"^[ \t]*#\[derive\(\)\]$", ""),
    (r"^use std::(?:marker::Model|simd::prelude::\*|alloc::Global);$", ""),
    (r"^use std::alloc::\{[^}]*AllocFailed[^}]*\};$", "use std::convert::Infallible; use std::str::FromStr;"),
    (r"^use std::alloc::\{[^}]*\};$", "use std::convert::Infallible;"),
    (r"\balloc: Global(?:,[ \t]*)?", ""), (r"\(alloc(?:, |(?=\)))", "("), (r"\bAllocError\b", "Infallible"),
    (r"format!\(in alloc; ([^()]*)\)\?", r"format!(\1)"),
    (r"\bValue::from_slice\(", "serde_json::from_slice::<Value>("),
    (r"^[ \t]*Err\(fault\) if fault\.is_memory\(\) => .*$", ""),
    (r"^[ \t]*#\[unsafe\(no_mangle\)\]$", ""), (r'^pub extern "C" fn ', "pub fn "),
    (r"^(?:pub )?mod (?:\w+_)?laws;$", ""), (r"\bclap::", "crate::clap::"),
    # Texts of commands are fixed, which clap asks for and its port doesn't; names that it takes are a slice there.
    (r"\bhelp: &'a str\b", "help: &'static str"), (r"\.value_parser\((\w+)\.as_slice\(\)\)", r".value_parser(\1)"),
    # The body of `bits_above`
    (r"u16x16::from_array\(samples\)\s*\.simd_gt\(u16x16::splat\(low\)\)\s*\.to_bitmask\(\)",
     "crate::bits_above::bits_above(samples, low)"),
]]
# `let .. else`, whose body may have braces in a text
LET_ELSE = re.compile(r"\blet ([A-Z]\w*\([^=;]*\)) = ([^;{}]*?) else \{((?:[^{}]|\{[^{}]*\})*?)\};")
BODILESS = re.compile(r"^(?:pub )?fn (?:[^{};\[]|\[[^\]]*\])*;", re.M)
LET_OTHER = re.compile(r"(?<!if )(?<!while )\blet [A-Z]\w*\(")


def blank(text):
    return re.sub(r"[^\n]", " ", text)


def as_match(found):
    """A `let .. else` as a match, which says the same."""
    pattern, value, body = found.groups()
    names = ", ".join(re.findall(r"\b[a-z_]\w*\b", pattern))
    names = f"({names})" if "," in names else names
    return f"let {names} = match {value} {{ {pattern} => {names}, _ => {{ {body.strip()} }} }};"


class Source:
    """A file: what is left of it, and the same with comments and texts blanked. Places and lines stay as they were."""

    def __init__(self, path):
        self.path = path
        self.whole = path.read_text(encoding="utf-8")
        self.see(self.whole)

    def see(self, text):
        self.text = text
        self.code = APART.sub(lambda found: blank(found.group()), text)

    def stop(self, place, why):
        line = self.code.count("\n", 0, place) + 1
        raise SystemExit(f"erase.py: {self.path}:{line}: {why}")

    def end_of(self, at, what, ends, depth=0):
        """The place after the first of these characters that is outside of all brackets."""
        for place in range(at, len(self.code)):
            depth += (self.code[place] in "{([") - (self.code[place] in "})]")
            if depth == 0 and self.code[place] in ends:
                return place + 1
            if depth < 0:
                break
        return self.stop(at, f"{what} isn't closed")

    def take_out(self, form, what, ends):
        """Takes out each piece that begins like this form, up to its end."""
        for found in iter(lambda: form.search(self.code), None):
            end = self.end_of(found.end(), what, ends)
            # With the comment that speaks of it
            start = found.start() - len(re.search(r"(?:^[ \t]*///.*\n)*\Z", self.text[:found.start()], re.M).group())
            self.text = self.text[:start] + blank(self.text[start:end]) + self.text[end:]
            self.code = self.code[:start] + blank(self.code[start:end]) + self.code[end:]

    def rewrite(self, pattern, other):
        """Writes each match otherwise, on as many lines."""
        def padded(found):
            text = other(found) if callable(other) else found.expand(other)
            return text + "\n" * (found.group().count("\n") - text.count("\n"))
        self.see(pattern.sub(padded, self.text))

    def check_laws(self):
        """A module of laws has laws alone, whose bodies are empty."""
        for found in re.finditer(r"\{", self.code):
            if self.code[found.end():self.end_of(found.start(), "a body", "}") - 1].strip():
                self.stop(found.start(), "a law has a body")
        for found in re.finditer(r"^(?!use |pub fn \w+(?:<[^()]*>)?\(\)|\{\}|\s|$)", self.code, re.M):
            self.stop(found.start(), "a module of laws has something else")

    def check_rust(self):
        """Stops at the first place that isn't Rust as this script knows it."""
        found = [(match.start(), f"'{match.group()}' is unknown here") for match in FOREIGN.finditer(self.code)]
        for form, known, what in [(WORDS, KEYWORDS, "keyword"), (HEAD, KEYWORDS, "keyword"), (MACRO, MACROS, "macro"),
                                  (ATTRIBUTE, ATTRIBUTES, "attribute")]:
            found += [(match.start(1), f"'{match.group(1)}' is no {what} that is known")
                      for match in form.finditer(self.code)
                      if match.group(1) not in known and match.group(match.lastindex) not in BEHIND_A_NAME]
        for form, why in [(LET_OTHER, "a let .. else of another form"), (BODILESS, "a function has no body")]:
            found += [(match.start(), why) for match in form.finditer(self.code)]
        if found:
            self.stop(*min(found))

    def left(self):
        """What is left, without the lines that are empty now and weren't before."""
        pairs = zip(self.whole.split("\n"), self.text.split("\n"))
        lines = "\n".join(line.rstrip() for before, line in pairs if line.strip() or not before.strip())
        # A body's brace goes back to its head. Comments between clauses go with these.
        lines = re.sub(r"^([ \t]*(?:pub(?:\([a-z]+\))? )?fn (?:[^{};\[]|\[[^\]]*\])*?)\n(?:[ \t]*//.*\n|\n)*[ \t]*\{\n",
                       r"\1 {\n",
                       lines, flags=re.M)
        lines = re.sub(r"\n[ \t]*;$", ";", lines, flags=re.M)
        return re.sub(r"\n\n\n+", "\n\n", lines)


def erased(path):
    """The Rust that a file has, or None for a module of laws."""
    source = Source(path)
    source.take_out(GHOST, "a ghost line", ";,")
    source.take_out(CLAUSE, "a clause", "}")
    source.take_out(MODEL, "a model", "}")
    source.take_out(TACTIC, "a tactic", "]")
    source.take_out(REFUSED_MEMORY, "an impl", "}")
    if path.stem == "laws" or path.stem.endswith("_laws"):
        source.check_laws()
        return None
    for pattern, other in REWRITTEN:
        source.rewrite(pattern, other)
    source.rewrite(LET_ELSE, as_match)
    source.check_rust()
    return source.left()


def as_module(text, module):
    text = re.sub(r"\bcrate::(?!clap::|bits_above::)", f"crate::{module}::", text)
    for crate, other in MODULES.items():
        text = re.sub(rf"\b{crate}::", f"crate::{other}::", text)
    return text


def modules(crates):
    """Yields the module and the file of each source, and what is left of it."""
    for crate, module in MODULES.items():
        for path in sorted((crates / crate / "src").glob("*.rt")):
            text = erased(path)
            if text is not None:
                yield module, "mod" if path.stem == "lib" else path.stem, as_module(text, module)


def write_crate(crates, hand, target):
    for module, name, text in modules(crates):
        place = target / "src" / module / (name + ".rs")
        place.parent.mkdir(parents=True, exist_ok=True)
        place.write_text(text, encoding="utf-8")
    shutil.copytree(hand, target, dirs_exist_ok=True)


def write_file(crates, target):
    """Writes a file that stands for the line `mod words;`, and for those of the other modules."""
    files = {(module, name): text for module, name, text in modules(crates)}
    with open(target, "w", encoding="utf-8") as file:
        for module in MODULES.values():
            text = re.sub(r"^((?:pub )?mod (\w+));$", lambda one: f"{one[1]} {{\n{files[module, one[2]]}}}",
                          files[module, "mod"], flags=re.M)
            file.write(f"{ATTRIBUTES_OF.get(module, '')}#[allow(dead_code, unused_imports)]\n"
                       f"mod {module} {{\n{text}}}\n")


if __name__ == "__main__":
    (write_crate if len(sys.argv) > 3 else write_file)(*map(pathlib.Path, sys.argv[1:4]))
